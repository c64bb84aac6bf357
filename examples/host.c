/* A game loop over two copies of one scene. Each copy has a scheduler of its own: one drains at the end
 * of every frame, the other takes one step per frame, from the front, and fuses maps where it can.
 * The same calls go to both, so both end with the same listing, and after the same claims with images
 * that are equal byte for byte. Exits with 1 if they don't.
 *
 * make lib && cc -Iinclude examples/host.c build/libcg.a -o host && ./host */
#include <stdio.h>
#include <string.h>

#include "cg.h"

enum { KEYS = 64 };

typedef struct scene {
    const char *name;
    uint8_t image[CG_IMAGE_BYTES];
    cg_tally tally;
} scene;

/* What the game sends in its first frames. The top starts from 2147483648, the least signed number. In the
 * last one a sum names node 9, which is never added. */
static const char *const frames[] = {
    "call=add value=5\ncall=add value=7\ncall=add value=11\n",
    "call=link key=1 to=2,3\n",
    "call=map a=3 b=4 to=1,2\ncall=map a=2 b=1 to=1,2\ncall=map a=1 b=100 to=1,2\n",
    "call=near key=1 start=0 to=1,2,3\ncall=add value=13\ncall=top start=2147483648 to=1,2,3,4\n",
    "call=map a=5 b=0 to=3,4\ncall=map a=1 b=7 to=3,4\ncall=sum start=10 to=1,2,9\n",
};
enum { FRAMES = sizeof frames / sizeof frames[0] };

/* Sends every line of a frame buffer: the host gives places in it and cuts nothing out. */
static int send_calls(scene *s, const char *frame) {
    size_t len = strlen(frame);
    for (size_t at = 0; at < len; at += strcspn(frame + at, "\n") + 1) {
        int64_t answer = cg_call(s->image, sizeof s->image, (const uint8_t *)frame, len, at);
        if (answer < 0) {
            printf("%s: a call was refused with %d\n", s->name, (int)-answer);
            return 0;
        }
    }
    return 1;
}

/* Whether a step was taken. A refused step changes nothing, so a scheduler may simply try. */
static int step(scene *s, const char *line) {
    return cg_step(s->image, sizeof s->image, (const uint8_t *)line, strlen(line), 0, &s->tally) == 0;
}

static int step_at(scene *s, const char *form, int key) {
    char line[64];
    snprintf(line, sizeof line, form, key);
    return step(s, line);
}

/* The first scheduler does all the work there is. */
static void drain(scene *s) {
    step(s, "step=drain");
}

/* The second takes one step and says whether there was one: it lets a call in, else it looks for the
 * first station from the front where something can be done. */
static int one_from_the_front(scene *s) {
    if (step(s, "step=admit")) {
        return 1;
    }
    for (int key = KEYS; key >= 1; key--) {
        if (step_at(s, "step=fuse at=%d unit=1", key) || step_at(s, "step=realise at=%d", key) ||
            step_at(s, "step=finish at=%d", key) || step_at(s, "step=move at=%d", key)) {
            return 1;
        }
    }
    return 0;
}

static size_t list(const scene *s, uint8_t *out) {
    int64_t length = cg_list(s->image, sizeof s->image, out, CG_LISTING_BYTES);
    return length < 0 ? 0 : (size_t)length;
}

/* Claims one label and writes its result line; 0 where it is refused. */
static size_t claim(scene *s, int label, uint8_t *out) {
    char line[32];
    snprintf(line, sizeof line, "claim=%d", label);
    int64_t length = cg_claim(s->image, sizeof s->image, (const uint8_t *)line, strlen(line), 0, out,
                              CG_RESULT_BYTES);
    return length < 0 ? 0 : (size_t)length;
}

static void print_steps(const scene *s) {
    const cg_tally *t = &s->tally;
    printf("%s: %u admits, %u realises, %u moves, %u finishes, %u fuses\n", s->name, t->admit, t->realise,
           t->move, t->finish, t->fuse);
}

int main(void) {
    static scene a, b;
    static uint8_t list_a[CG_LISTING_BYTES], list_b[CG_LISTING_BYTES];
    int frame = 0, working = 1, same = 1;

    a.name = "drain every frame";
    b.name = "one step per frame";
    if (cg_open(a.image, sizeof a.image) != 0 || cg_open(b.image, sizeof b.image) != 0) {
        return 1;
    }
    for (; frame < FRAMES || working; frame++) {
        if (frame < FRAMES && !(send_calls(&a, frames[frame]) && send_calls(&b, frames[frame]))) {
            return 1;
        }
        drain(&a);
        working = one_from_the_front(&b);
    }

    size_t length = list(&a, list_a);
    int same_list = length > 0 && length == list(&b, list_b) && memcmp(list_a, list_b, length) == 0;
    printf("after %d frames:\n%.*s", frame, (int)length, (const char *)list_a);
    print_steps(&a);
    print_steps(&b);
    printf("same listing: %s\n", same_list ? "yes" : "no");

    for (int label = 1; label <= 4; label++) {
        uint8_t line_a[CG_RESULT_BYTES], line_b[CG_RESULT_BYTES];
        length = claim(&a, label, line_a);
        same = same && length > 0 && length == claim(&b, label, line_b) && memcmp(line_a, line_b, length) == 0;
    }
    same = same && memcmp(a.image, b.image, sizeof a.image) == 0;
    printf("same claims and same image: %s\n", same ? "yes" : "no");
    return same_list && same ? 0 : 1;
}
