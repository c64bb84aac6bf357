/* Geyserpan: a deferred body graph in a lent image, for C and C++ hosts.
 *
 * A line is read from a frame buffer: from the place `at` to the next newline or the buffer's end.
 * Every function answers a number that is at least 0, or a refusal's number negated. A refusal changes
 * neither image, tally nor output. Nothing is kept between calls and nothing is allocated; lend an
 * image to one call at a time, and let no two of the buffers that a call is lent overlap. */
#ifndef CG_H
#define CG_H

#include <stddef.h>
#include <stdint.h>

#ifdef __cplusplus
extern "C" {
#endif

#define CG_IMAGE_BYTES 4112   /* the length of every image */
#define CG_RESULT_BYTES 58    /* room for any result line, with its newline */
#define CG_LISTING_BYTES 7189 /* room for any listing, with its newlines */
#define CG_PAGE_BYTES 2470    /* room for any page, with its newlines */
#define CG_NODES_BYTES 3456   /* room for what any page is read back as, with its newlines */
#define CG_LOAD_BYTES 3584    /* room for any load, with its newlines */

enum {
    CG_IMAGE_LENGTH = 1,   /* an image of another length */
    CG_NOT_A_SESSION = 2,  /* not the image of a session, or an image of another version */
    CG_BAD_LINE = 10,      /* not one of the entry's forms, or 256 bytes or more */
    CG_BAD_KEY = 11,       /* a key outside 1 to 64 */
    CG_BAD_TARGETS = 12,   /* more than eight listed targets, or not strictly rising */
    CG_ADDS_SPENT = 13,    /* an add where nodes and waiting adds are 64 */
    CG_LIVE_FULL = 14,     /* a call while 64 are live: claim a result first */
    CG_LABELS_SPENT = 15,  /* a call after 65,535 were accepted */
    CG_NO_NODE = 20,       /* no node with that key */
    CG_NO_UNIT = 21,       /* no waiting call, no such unit, or none after it where two are needed */
    CG_NOT_ALLOWED = 22,   /* the step is not allowed there */
    CG_NEVER_GIVEN = 30,   /* a label that was never given */
    CG_STILL_PENDING = 31, /* no result yet */
    CG_CLAIMED = 32,       /* the result was claimed before */
    CG_NO_ROOM = 33,       /* an output shorter than the result line or the listing */
    CG_PAGE_ROOM = 34,     /* an output shorter than the page, or than the lines of its nodes */
    CG_BAD_PAGE = 35,      /* no page: another count, a key twice, or a field outside its limits or columns */
    CG_NO_INVERSE = 40,    /* an unmap of an even a; tested after 12 and before 13, 14 and 15 */
    CG_LOAD_COUNT = 46,    /* a load of more than 64 lines */
    CG_LOAD_ROOM = 47      /* an output shorter than the lines of the load */
};

/* Steps taken, by kind; a drain counts each step that it takes. A count rests at 4,294,967,295.
 * Of a session's steps since its opening, the admits, realises, moves and finishes are together at most 129
 * for each call accepted with "to=all" and 73 for each other call. */
typedef struct cg_tally {
    uint32_t admit, realise, move, finish, join, split, swap, fuse;
} cg_tally;

/* Writes a fresh session over whatever the image holds. Gives 0. */
int64_t cg_open(uint8_t *image, size_t image_len);

/* Accepts a line such as "call=add value=5"; the call waits in the image. Gives its label.
 * Targets are up to eight rising keys, or all, as in "call=sum start=0 to=all": such an all-call acts at each
 * node that it meets, and the left of its result is empty.
 * "call=unmap a=3 b=4 to=1" submits the map that undoes "call=map a=3 b=4 to=1"; its a must be odd.
 * Numbers in lines have no sign: send -1 as 4294967295, that is (uint32_t)-1; read a value as a uint32_t
 * and take (int32_t) of it. Only "call=top" compares signed numbers; start=2147483648 is its least. */
int64_t cg_call(uint8_t *image, size_t image_len, const uint8_t *frame, size_t frame_len, size_t at);

/* Takes the work step of a line such as "step=admit" or "step=move at=2", or drains by "step=drain".
 * Gives 0, the image after the step, and the tally counted up. */
int64_t cg_step(uint8_t *image, size_t image_len, const uint8_t *frame, size_t frame_len, size_t at,
                cg_tally *tally);

/* Writes the result that a line such as "claim=4" asks for, and removes it from the image.
 * Gives the length written, with the newline; the bytes of out after it stay. */
int64_t cg_claim(uint8_t *image, size_t image_len, const uint8_t *frame, size_t frame_len, size_t at,
                 uint8_t *out, size_t out_len);

/* Writes the listing: a head, the nodes from the front on, the unclaimed results by label.
 * Gives the length written, with the newlines; the bytes of out after it stay, and so does the image. */
int64_t cg_list(const uint8_t *image, size_t image_len, uint8_t *out, size_t out_len);

/* Writes the page of the graph, calls pending or not: a head line, then a line for each node from the front
 * on. Each line has 37 columns and a newline, 38 bytes in all. The head has "nodes" at the left and how many
 * there are at the right. A node's line has the key in columns 1 to 2 and the value in 4 to 13, both set
 * right, and in 15 to 37 the links joined by commas, set left; all else is blank.
 * Refuses an out that is shorter than these lines with 34, after 1 and 2.
 * Gives the length written, with the newlines; the bytes of out after it stay, and so does the image. */
int64_t cg_page(const uint8_t *image, size_t image_len, uint8_t *out, size_t out_len);

/* Reads a page back: writes the lines that cg_list has for the same nodes, such as "key=1 value=39 links=3".
 * A page is read, in whatever order its keys are, if no key is there twice, the count is that of the lines
 * after the head, and every field keeps the limits of a session and stands as cg_page writes it. Refuses any
 * other page with 35, then with 34 an out that is shorter than the lines. No image is lent.
 * Gives the length written, with the newlines, so 0 for a page of no nodes; the bytes of out after it stay,
 * and so does the page. */
int64_t cg_page_nodes(const uint8_t *page, size_t page_len, uint8_t *out, size_t out_len);

/* Writes a load: so many call lines, drawn from the seed. The same seed and count give the same lines on
 * every computer. Refuses a count above 64 with 46, then an out that is shorter than the lines with 47.
 * A line has at most 56 bytes, with the newline that ends it: 56 * count bytes are enough, and CG_LOAD_BYTES
 * for any count. No image is lent, and what out holds before does not matter.
 * cg_call can read the lines where they stand in out, and refuses none of them with 10, 11, 12 or 40.
 * Gives the length written, with the newlines, so 0 where count is 0; the bytes of out after it stay. */
int64_t cg_load(uint32_t seed, uint32_t count, uint8_t *out, size_t out_len);

#ifdef __cplusplus
}
#endif

#endif
