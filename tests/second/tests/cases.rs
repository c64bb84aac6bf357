//! The cases that each implementation of the rules (docs/RULES.md) is to meet, and the traps.

mod common;

use common::{calls, mapped, Desk, UNDOING};
use second::random::Random;
use second::{meaning, Act, Operation, Targets};

/// Drains the calls, and sees that one-at-a-time processing gives the same.
fn drained(lines: &[&str]) -> Desk {
    let mut desk = Desk::after(lines);
    desk.all(&["step=drain"]);
    let (nodes, results) = meaning(&calls(lines));
    let stations = desk.session.stations.iter().map(|s| &s.node);
    assert!(stations.eq(nodes.iter()));
    assert!(desk.session.results.values().eq(results.iter()));
    desk
}

fn head_operation(desk: &Desk) -> &Operation {
    &desk.session.stations[0].streamlet[0][0]
}

#[test]
fn p_two_maps_one_by_one_and_fused() {
    let lines = [
        "call=add value=5",
        "call=map a=3 b=4 to=1",
        "call=map a=2 b=1 to=1",
    ];
    assert_eq!(drained(&lines).node(1).value, 39);
    let mut desk = Desk::after(&lines);
    desk.all(&[
        "step=admit",
        "step=admit",
        "step=admit",
        "step=fuse at=1 unit=1",
    ]);
    let fused = head_operation(&desk);
    assert_eq!(fused.act, Act::Map { a: 6, b: 9 });
    assert_eq!(fused.labels, [2, 3]);
    desk.all(&["step=realise at=1", "step=finish at=1"]);
    assert_eq!(desk.node(1).value, 39);
    assert_eq!(desk.result(2), (0, &[][..]));
    assert_eq!(desk.result(3), (0, &[][..]));
}

#[test]
fn p_fused_products_wrap() {
    let mut desk = Desk::after(&["call=add value=1", "call=map a=65536 b=0 to=1"]);
    desk.all(&[
        "call=map a=65536 b=1 to=1",
        "step=admit",
        "step=admit",
        "step=admit",
    ]);
    desk.all(&["step=fuse at=1 unit=1"]);
    assert_eq!(head_operation(&desk).act, Act::Map { a: 0, b: 1 });
}

#[test]
fn p_a_value_wraps_to_0() {
    let desk = drained(&["call=add value=4294967295", "call=map a=1 b=1 to=1"]);
    assert_eq!(desk.node(1).value, 0);
}

const EXAMPLE: [&str; 4] = [
    "call=add value=5",
    "call=add value=7",
    "call=map a=3 b=4 to=1,2",
    "call=sum start=10 to=1,2,9",
];

#[test]
fn p_the_listings_label_4() {
    assert_eq!(drained(&EXAMPLE).result(4), (54, &[9][..]));
}

#[test]
fn the_listing_of_the_example() {
    let listing = "nodes=2 results=4 pending=0\n\
                   key=2 value=25 links=\n\
                   key=1 value=19 links=\n\
                   label=1 value=1 left=\n\
                   label=2 value=2 left=\n\
                   label=3 value=0 left=\n\
                   label=4 value=54 left=9\n";
    assert_eq!(drained(&EXAMPLE).listing(), listing);
    let input = format!("{}\nstep=drain", EXAMPLE.join("\n"));
    assert_eq!(
        second::program::transcript(input.as_bytes()),
        listing.as_bytes()
    );
}

#[test]
fn p_a_sum_does_not_meet_a_node_added_after_it() {
    let lines = [
        "call=add value=5",
        "call=sum start=3 to=2",
        "call=add value=7",
    ];
    assert_eq!(drained(&lines).result(2), (3, &[2][..]));
}

#[test]
fn p_pick_takes_the_last_station() {
    let desk = drained(&[
        "call=add value=5",
        "call=add value=7",
        "call=pick start=0 to=1,2",
    ]);
    assert_eq!(desk.result(3), (5, &[][..]));
}

#[test]
fn p_a_ninth_link() {
    let mut lines = vec!["call=add value=5"];
    lines.extend(["call=link key=2 to=1"; 8]);
    lines.push("call=link key=3 to=1");
    let desk = drained(&lines);
    assert_eq!(desk.result(9), (0, &[][..]));
    assert_eq!(desk.result(10), (1, &[][..]));
    assert_eq!(desk.node(1).links, [2; 8]);
}

#[test]
fn a_link_counts_every_full_list() {
    let mut lines = vec!["call=add value=5", "call=add value=7", "call=add value=9"];
    lines.extend(["call=link key=2 to=1,3"; 8]);
    lines.push("call=link key=4 to=1,2,3");
    let desk = drained(&lines);
    assert_eq!(desk.result(12), (2, &[][..]));
    assert_eq!(desk.node(2).links, [4]);
}

#[test]
fn near_adds_a_value_once() {
    let link = "call=link key=9 to=1";
    let near = "call=near key=9 start=1 to=1,2";
    let desk = drained(&["call=add value=5", "call=add value=7", link, link, near]);
    assert_eq!(desk.result(5), (6, &[][..]));
}

#[test]
fn p_link_twice_and_unlink() {
    let link = "call=link key=2 to=1";
    let desk = drained(&["call=add value=5", link, link, "call=unlink key=2 to=1"]);
    assert!(desk.node(1).links.is_empty());
    assert_eq!(desk.result(4), (2, &[][..]));
}

#[test]
fn an_unlink_counts_the_copies_of_its_key() {
    for copies in 0..=8 {
        let mut lines = vec!["call=add value=5"];
        lines.extend(vec!["call=link key=2 to=1"; copies]);
        lines.extend(vec!["call=link key=9 to=1"; 8 - copies]);
        lines.extend(["call=unlink key=2 to=1"; 2]);
        let desk = drained(&lines);
        assert_eq!(desk.result(10), (copies as u32, &[][..]));
        assert_eq!(desk.result(11), (0, &[][..])); // none are left to remove
        assert_eq!(desk.node(1).links, vec![9; 8 - copies]);
    }
}

/// Three copies: two at node 3, one at node 1. Node 2 has none, node 9 is missing, and
/// node 4 is no target.
#[test]
fn an_unlink_counts_over_all_its_targets() {
    let mut lines = vec!["call=add value=5"; 4];
    lines.push("call=link key=7 to=1,3,4");
    lines.push("call=link key=8 to=1,2,3");
    lines.push("call=link key=7 to=3,4");
    lines.push("call=link key=7 to=4");
    lines.push("call=unlink key=7 to=1,2,3,9");
    let desk = drained(&lines);
    assert_eq!(desk.result(9), (3, &[9][..]));
    for key in 1..=3 {
        assert_eq!(desk.node(key).links, [8]);
    }
    assert_eq!(desk.node(4).links, [7; 3]);
}

#[test]
fn an_unlink_removes_64_copies_at_most() {
    let mut lines = vec!["call=add value=5"; 9];
    lines.extend(["call=link key=64 to=1,2,3,4,5,6,7,8"; 8]);
    lines.push("call=unlink key=64 to=1,2,3,4,5,6,7,8");
    assert_eq!(drained(&lines).result(18), (64, &[][..]));
    lines.pop();
    lines.push("call=unlink key=64 to=2,3,4,5,6,7,8,9"); // node 9 has no links
    assert_eq!(drained(&lines).result(18), (56, &[][..]));
}

#[test]
fn an_unlink_that_meets_no_node_removes_nothing() {
    assert_eq!(
        drained(&["call=unlink key=2 to=1"]).result(1),
        (0, &[1][..])
    );
    assert_eq!(drained(&["call=unlink key=2 to="]).result(1), (0, &[][..]));
    let link = "call=link key=2 to=1";
    let desk = drained(&["call=add value=5", link, "call=unlink key=2 to=2"]);
    assert_eq!(desk.result(3), (0, &[2][..]));
    let desk = drained(&["call=add value=5", link, "call=unlink key=2 to="]);
    assert_eq!(desk.result(3), (0, &[][..]));
    assert_eq!(desk.node(1).links, [2]);
}

/// What a full list turned away was never there, and what is linked later isn't yet.
#[test]
fn an_unlink_counts_what_the_list_holds_then() {
    let mut lines = vec!["call=add value=5"];
    lines.extend(["call=link key=2 to=1"; 9]);
    lines.push("call=unlink key=2 to=1");
    lines.push("call=link key=2 to=1");
    lines.push("call=unlink key=2 to=1");
    lines.push("call=link key=2 to=1");
    let desk = drained(&lines);
    assert_eq!(desk.result(10), (1, &[][..])); // the ninth link
    assert_eq!(desk.result(11), (8, &[][..]));
    assert_eq!(desk.result(13), (1, &[][..]));
    assert_eq!(desk.node(1).links, [2]);
}

#[test]
fn an_unlink_holds_its_count_between_stations() {
    let mut desk = Desk::after(&["call=add value=5", "call=add value=7"]);
    desk.all(&["call=link key=7 to=1,2", "call=link key=7 to=2"]);
    desk.all(&["step=drain", "call=unlink key=7 to=1,2,9", "step=admit"]);
    let unlink = |removed| Act::Unlink { key: 7, removed };
    assert_eq!(head_operation(&desk).act, unlink(0));
    desk.all(&["step=realise at=2"]);
    assert_eq!(head_operation(&desk).act, unlink(2));
    desk.refuses(31, "claim=5");
    desk.all(&["step=move at=2", "step=realise at=1"]);
    assert_eq!(desk.session.stations[1].streamlet[0][0].act, unlink(3));
    desk.all(&["step=finish at=1"]);
    assert_eq!(desk.result(5), (3, &[9][..]));
}

/// Its last target struck, an unlink may finish before the last station.
#[test]
fn an_unlink_finishes_with_its_count() {
    let mut desk = Desk::after(&["call=add value=5", "call=add value=7"]);
    desk.all(&["call=link key=7 to=1,2", "call=link key=7 to=1,2"]);
    desk.all(&["step=drain", "call=unlink key=7 to=2", "step=admit"]);
    desk.all(&["step=realise at=2", "step=finish at=2"]);
    assert_eq!(desk.result(5), (2, &[][..]));
    assert_eq!(desk.node(1).links, [7, 7]);
}

/// In one unit each operation has a count of its own.
#[test]
fn unlinks_in_one_unit_count_apart() {
    let mut desk = Desk::after(&["call=add value=5", "call=link key=2 to=1"]);
    desk.all(&["call=link key=3 to=1", "call=link key=2 to=1", "step=drain"]);
    desk.all(&["call=unlink key=2 to=1", "call=link key=3 to=1"]);
    desk.all(&["call=unlink key=3 to=1", "call=unlink key=2 to=1"]);
    desk.all(&["step=admit"; 4]);
    desk.all(&["step=join at=1 unit=1"; 3]);
    desk.all(&["step=drain"]);
    let results = [5, 6, 7, 8].map(|label| desk.result(label).0);
    assert_eq!(results, [2, 0, 2, 0]);
}

#[test]
fn p_top_compares_signed_numbers() {
    let top = "call=top start=2147483648 to=1,2";
    let (pit, peak) = ("call=add value=4294967295", "call=add value=3");
    assert_eq!(drained(&[pit, peak, top]).result(3), (3, &[][..]));
    assert_eq!(drained(&[peak, pit, top]).result(3), (3, &[][..]));
}

/// Signed numbers from the least to the greatest, as lines write them.
const RISING: [u32; 11] = [
    2_147_483_648, // the least
    2_147_483_649,
    3_000_000_000,
    4_294_967_294,
    4_294_967_295, // -1
    0,
    1,
    65_535,
    1_000_000_000,
    2_147_483_646,
    2_147_483_647, // the greatest
];

#[test]
fn a_top_is_the_greatest_in_the_signed_order() {
    for (s, start) in RISING.iter().enumerate() {
        for (f, front) in RISING.iter().enumerate() {
            for (b, back) in RISING.iter().enumerate() {
                let back = format!("call=add value={back}");
                let front = format!("call=add value={front}");
                let top = format!("call=top start={start} to=1,2,9");
                let greatest = RISING[s.max(f).max(b)];
                let desk = drained(&[&back, &front, &top]);
                assert_eq!(desk.result(3), (greatest, &[9][..]));
            }
        }
    }
}

#[test]
fn a_top_that_meets_no_node_is_its_start() {
    for start in RISING {
        let add = "call=add value=3";
        let no_target = format!("call=top start={start} to=");
        let missing = format!("call=top start={start} to=2");
        assert_eq!(drained(&[&missing]).result(1), (start, &[2][..]));
        assert_eq!(drained(&[add, &missing]).result(2), (start, &[2][..]));
        assert_eq!(drained(&[add, &no_target]).result(2), (start, &[][..]));
    }
}

/// Node 4 has less than the start. Then come -2, -1 and 0.
#[test]
fn a_top_holds_the_greatest_between_stations() {
    let mut desk = Desk::after(&["call=add value=0", "call=add value=4294967295"]);
    desk.all(&["call=add value=4294967294", "call=add value=2147483649"]);
    desk.all(&["step=drain", "call=top start=2147483650 to=1,2,3,4,9"]);
    desk.all(&["step=admit"]);
    for (at, held) in [(4, 2_147_483_650), (3, 4_294_967_294), (2, 4_294_967_295)] {
        desk.all(&[&format!("step=realise at={at}")]);
        let station = &desk.session.stations[4 - at];
        assert_eq!(station.streamlet[0][0].act, Act::Top { held });
        desk.refuses(31, "claim=5");
        desk.all(&[&format!("step=move at={at}")]);
    }
    desk.all(&["step=realise at=1", "step=finish at=1"]);
    assert_eq!(desk.result(5), (0, &[9][..]));
}

/// A map goes on past the greatest to the least, and past -1 to 0.
#[test]
fn tops_of_what_maps_wrap() {
    let (up, down) = ("call=map a=1 b=1 to=1", "call=map a=1 b=4294967295 to=1");
    let top = "call=top start=4294967290 to=1";
    let desk = drained(&["call=add value=2147483647", top, up, top, down, top]);
    let tops = [2, 4, 6].map(|label| desk.result(label).0);
    assert_eq!(tops, [2_147_483_647, 4_294_967_290, 2_147_483_647]);
    let desk = drained(&["call=add value=0", top, down, top, up, top]);
    let tops = [2, 4, 6].map(|label| desk.result(label).0);
    assert_eq!(tops, [0, 4_294_967_295, 0]);
}

/// The sums pass the greatest signed number on the way; pick takes the lesser one.
#[test]
fn sum_pick_and_near_have_no_sign() {
    let desk = drained(&[
        "call=add value=4294967295",
        "call=add value=3",
        "call=link key=9 to=1,2",
        "call=sum start=2147483645 to=1,2",
        "call=pick start=2147483648 to=1,2",
        "call=near key=9 start=2147483645 to=1,2",
    ]);
    let results = [4, 5, 6].map(|label| desk.result(label).0);
    assert_eq!(results, [2_147_483_647, 4_294_967_295, 2_147_483_647]);
}

/// The numbers of the map that a line submits.
fn submitted(line: &str) -> (u32, u32) {
    let desk = Desk::after(&[line]);
    let mut operations = desk.session.operations();
    match operations.next().expect("an accepted call").act {
        Act::Map { a, b } => (a, b),
        ref act => panic!("{line}: {act:?}"),
    }
}

#[test]
fn an_unmap_submits_the_map_that_undoes() {
    let undoing = (2_863_311_531, 1_431_655_764);
    assert_eq!(submitted("call=unmap a=3 b=4 to=1"), undoing);
    assert_eq!(
        submitted("call=unmap a=2863311531 b=1431655764 to=1"),
        (3, 4)
    );
    assert_eq!(submitted("call=unmap a=1 b=0 to="), (1, 0));
    assert_eq!(submitted("call=unmap a=1 b=4 to="), (1, 4_294_967_292));
    assert_eq!(submitted("call=unmap a=4294967295 b=4 to="), (u32::MAX, 4));
    let half = 2_147_483_648;
    assert_eq!(
        submitted("call=unmap a=2147483649 b=1 to="),
        (half + 1, half - 1)
    );
    assert_eq!(
        submitted("call=unmap a=2147483647 b=1 to="),
        (half - 1, half + 1)
    );
}

const ENDS: [u32; 5] = [1, 3, 2_147_483_647, 2_147_483_649, 4_294_967_295];

/// Odd numbers: the ends, all small ones, those beside powers of two, and many others.
fn odd_numbers() -> Vec<u32> {
    let mut random = Random::new(11);
    let small = (0..500).map(|half| 2 * half + 1);
    let beside = (1..32).flat_map(|place| [(1 << place) - 1, (1 << place) + 1]);
    let below_zero = (0..100).map(|half| u32::MAX - 2 * half);
    let any = (0..2000).map(|_| random.bits() as u32 | 1);
    let ends = ENDS.into_iter();
    ends.chain(small)
        .chain(beside)
        .chain(below_zero)
        .chain(any)
        .collect()
}

/// The map that two make, the first followed by the second.
fn composed((a, b): (u32, u32), second: (u32, u32)) -> (u32, u32) {
    (second.0.wrapping_mul(a), mapped(second, b))
}

#[test]
fn unmaps_undo_from_both_sides() {
    for a in odd_numbers() {
        for b in [0, 1, 4, 65_536, 2_147_483_648, 4_294_967_295, a] {
            let unmap = submitted(&format!("call=unmap a={a} b={b} to=1,2"));
            assert_eq!(composed((a, b), unmap), (1, 0), "{a}, {b}");
            assert_eq!(composed(unmap, (a, b)), (1, 0), "{a}, {b}");
            assert_eq!(unmap, UNDOING(a, b));
        }
    }
}

/// One-at-a-time processing looks for the former value, and so needs no inverse.
#[test]
fn a_map_and_its_unmap_restore_in_either_order() {
    let mut random = Random::new(12);
    for a in odd_numbers() {
        let [b, first, second] = [(); 3].map(|()| random.bits() as u32);
        let adds = [first, second].map(|value| format!("call=add value={value}"));
        let map = format!("call=map a={a} b={b} to=1,2,9");
        let unmap = format!("call=unmap a={a} b={b} to=1,2,9");
        for pair in [[&map, &unmap], [&unmap, &map]] {
            let lines = [&adds[0], &adds[1], pair[0], pair[1]].map(String::as_str);
            let desk = drained(&lines);
            let values = (desk.node(1).value, desk.node(2).value);
            assert_eq!(values, (first, second), "{a}, {b}");
            assert_eq!(desk.result(3), (0, &[9][..]));
            assert_eq!(desk.result(4), (0, &[9][..]));
        }
    }
}

/// Each of them acts by itself: what stands between them meets the value in between.
#[test]
fn an_unmap_acts_where_it_stands() {
    let sum = "call=sum start=0 to=1";
    let (map, unmap) = ("call=map a=3 b=4 to=1", "call=unmap a=3 b=4 to=1");
    let desk = drained(&["call=add value=5", sum, map, sum, unmap, sum, unmap, sum]);
    let sums = [2, 4, 6, 8].map(|label| desk.result(label).0);
    assert_eq!(sums, [5, 19, 5, 2_863_311_531]); // three times the last, and 4, is 5
    let other = "call=map a=5 b=1 to=1";
    let between = drained(&["call=add value=5", map, other, unmap]);
    assert_eq!(between.node(1).value, 1_431_655_796); // three times it, and 4, is 96
    let back = "call=unmap a=5 b=1 to=1";
    let nested = drained(&["call=add value=5", map, other, back, unmap]);
    assert_eq!(nested.node(1).value, 5);
}

/// Node 2 comes between the map and its unmap; node 3 is a target of the unmap only.
#[test]
fn an_unmap_restores_what_was_mapped() {
    let desk = drained(&[
        "call=add value=5",
        "call=map a=3 b=4 to=1,2",
        "call=add value=19",
        "call=add value=34",
        "call=unmap a=3 b=4 to=1,2,3",
    ]);
    let values = [1, 2, 3].map(|key| desk.node(key).value);
    assert_eq!(values, [5, 5, 10]);
    assert_eq!(desk.result(2), (0, &[2][..]));
    assert_eq!(desk.result(5), (0, &[][..]));
}

#[test]
fn an_unmap_that_meets_no_node_is_left_its_targets() {
    let unmap = "call=unmap a=3 b=4 to=1,64";
    assert_eq!(drained(&[unmap]).result(1), (0, &[1, 64][..]));
    assert_eq!(drained(&["call=unmap a=3 b=4 to="]).result(1), (0, &[][..]));
    let mut desk = Desk::after(&["call=add value=19", unmap, "step=admit", "step=admit"]);
    desk.all(&["step=realise at=1"]);
    assert_eq!(desk.node(1).value, 5);
    desk.refuses(31, "claim=2");
    desk.all(&["step=finish at=1"]);
    assert_eq!(desk.result(2), (0, &[64][..]));
}

/// Fused, they are the identity for both labels. It goes on as any other map does.
#[test]
fn a_map_and_its_unmap_fuse_to_the_identity() {
    for a in ENDS {
        let map = format!("call=map a={a} b=4294967290 to=1,9");
        let unmap = format!("call=unmap a={a} b=4294967290 to=1,9");
        for pair in [[&map, &unmap], [&unmap, &map]] {
            let mut desk = Desk::after(&["call=add value=5", pair[0], pair[1]]);
            desk.all(&["step=admit"; 3]);
            desk.all(&["step=fuse at=1 unit=1"]);
            let fused = head_operation(&desk);
            assert_eq!(fused.act, Act::Map { a: 1, b: 0 });
            assert_eq!(
                (&fused.targets, &fused.labels[..]),
                (&Targets::Keys(vec![1, 9]), &[2, 3][..])
            );
            desk.refuses(22, "step=finish at=1");
            desk.all(&["step=realise at=1", "step=finish at=1"]);
            assert_eq!(desk.node(1).value, 5);
            assert_eq!(desk.result(2), (0, &[9][..]));
            assert_eq!(desk.result(3), (0, &[9][..]));
        }
    }
}

/// They fuse as maps do: with equal targets, up to four labels.
#[test]
fn unmaps_fuse_up_to_four_labels() {
    let (map, unmap) = ("call=map a=3 b=4 to=1", "call=unmap a=3 b=4 to=1");
    let mut desk = Desk::after(&["call=add value=5", unmap, unmap, map, map, unmap]);
    desk.all(&["call=unmap a=3 b=4 to=1,2"]);
    desk.all(&["step=admit"; 7]);
    desk.refuses(22, "step=fuse at=1 unit=5");
    desk.all(&["step=fuse at=1 unit=1"; 3]);
    assert_eq!(head_operation(&desk).act, Act::Map { a: 1, b: 0 });
    assert_eq!(head_operation(&desk).labels, [2, 3, 4, 5]);
    desk.refuses(22, "step=fuse at=1 unit=1");
    desk.all(&["step=drain"]);
    assert_eq!(desk.result(7), (0, &[2][..]));
}

#[test]
fn p_no_nodes_leave_a_map_its_target_at_admit() {
    let mut desk = Desk::after(&["call=map a=3 b=4 to=1"]);
    desk.all(&["step=admit"]);
    assert_eq!(desk.result(1), (0, &[1][..]));
}

#[test]
fn p_a_sum_without_targets() {
    assert_eq!(drained(&["call=sum start=4 to="]).result(1), (4, &[][..]));
    let desk = drained(&["call=add value=5", "call=sum start=4 to="]);
    assert_eq!(desk.result(2), (4, &[][..]));
}

#[test]
fn adds_64_and_65() {
    let mut desk = Desk::new();
    for label in 1..=64 {
        assert_eq!(desk.line("call=add value=1"), label);
    }
    desk.refuses(13, "call=add value=1"); // 64 waiting, also 64 live: 13 comes first
    desk.all(&["step=drain", "claim=1"]);
    desk.refuses(13, "call=add value=1"); // 64 nodes
    assert_eq!(desk.line("call=sum start=0 to=64"), 65);
}

#[test]
fn keys_64_and_65() {
    let mut desk = Desk::after(&["call=map a=1 b=0 to=64", "call=link key=64 to="]);
    desk.refuses(11, "call=map a=1 b=0 to=65");
    desk.refuses(11, "call=link key=65 to=");
    desk.refuses(20, "step=move at=64");
    desk.refuses(11, "step=move at=65");
}

#[test]
fn eight_and_nine_targets() {
    let mut desk = Desk::after(&["call=sum start=0 to=1,2,3,4,5,6,7,8"]);
    desk.refuses(12, "call=sum start=0 to=1,2,3,4,5,6,7,8,9");
    desk.refuses(11, "call=sum start=0 to=1,2,3,4,5,6,7,8,65");
}

#[test]
fn targets_rise_strictly() {
    let mut desk = Desk::after(&["call=sum start=0 to=1,2"]);
    desk.refuses(12, "call=sum start=0 to=2,2");
    desk.refuses(12, "call=sum start=0 to=2,1");
}

#[test]
fn live_calls_64_and_65() {
    let call = "call=sum start=0 to=";
    let mut desk = Desk::after(&[call; 64]);
    desk.refuses(14, call);
    desk.all(&["step=drain"]);
    desk.refuses(14, call); // results are live until claimed
    desk.all(&["claim=7"]);
    assert_eq!(desk.line(call), 65);
    desk.refuses(14, call);
}

#[test]
fn labels_4_and_5_in_a_fuse() {
    let mut desk = Desk::after(&["call=add value=1", "step=admit"]);
    for _ in 0..5 {
        desk.all(&["call=map a=2 b=1 to=1", "step=admit"]);
    }
    desk.all(&["step=fuse at=1 unit=1", "step=fuse at=1 unit=2"]);
    desk.all(&["step=fuse at=1 unit=1"]);
    assert_eq!(head_operation(&desk).labels, [2, 3, 4, 5]);
    desk.refuses(22, "step=fuse at=1 unit=1");
    desk.all(&["step=drain"]);
    assert_eq!(desk.node(1).value, 63);
}

#[test]
fn lines_of_255_and_256_bytes() {
    let long = |start: &str, length: usize| {
        let mut line = String::from(start);
        while line.len() + 2 <= length {
            line.push_str(",1");
        }
        if line.len() < length {
            line.push('1');
        }
        assert_eq!(line.len(), length);
        line
    };
    let mut desk = Desk::new();
    for (start, number) in [
        ("call=sum start=0 to=1", 12),
        ("call=unmap a=3 b=4 to=1", 12),
        ("call=unmap a=2 b=4 to=1", 12),
        ("call=unmap a=3 b=4 to=65", 11),
        ("call=unmap a=2 b=4 to=65", 11),
        ("call=unmap a=4294967295 b=4294967295 to=64", 12),
    ] {
        desk.refuses(number, &long(start, 255));
        desk.refuses(10, &long(start, 256));
    }
}

/// No call that is served has a longer line.
#[test]
fn the_longest_unmap() {
    let line = "call=unmap a=4294967295 b=4294967295 to=57,58,59,60,61,62,63,64";
    assert_eq!(line.len(), 63);
    assert_eq!(Desk::new().line(line), 1);
}

#[test]
fn trap_an_add_waits_for_the_calls_before_it() {
    let lines = [
        "call=add value=5",
        "call=map a=2 b=0 to=1,2",
        "call=add value=7",
    ];
    let desk = drained(&lines);
    assert_eq!((desk.node(1).value, desk.node(2).value), (10, 7));
    assert_eq!(desk.result(2), (0, &[2][..]));
}

#[test]
fn trap_a_fused_identity_keeps_its_left() {
    let mut desk = Desk::after(&["call=add value=5", "call=map a=1 b=0 to=1,9"]);
    desk.all(&[
        "call=map a=1 b=0 to=1,9",
        "step=admit",
        "step=admit",
        "step=admit",
    ]);
    desk.all(&["step=fuse at=1 unit=1"]);
    desk.refuses(22, "step=finish at=1");
    desk.all(&["step=realise at=1", "step=finish at=1"]);
    assert_eq!(desk.result(2), (0, &[9][..]));
    assert_eq!(desk.result(3), (0, &[9][..]));
}

#[test]
fn trap_link_and_unlink_do_not_swap() {
    let mut desk = Desk::after(&["call=add value=5", "call=link key=2 to=1"]);
    desk.all(&[
        "call=unlink key=3 to=1",
        "step=admit",
        "step=admit",
        "step=admit",
    ]);
    desk.refuses(22, "step=swap at=1 unit=1");
}

/// Swapped where they share a target, the second would find what the first removed.
#[test]
fn trap_unlinks_of_one_key_do_not_swap() {
    let mut desk = Desk::after(&["call=add value=5", "call=add value=7"]);
    desk.all(&["call=link key=2 to=1,2", "step=drain"]);
    let mut apart = desk.clone();
    desk.all(&["call=unlink key=2 to=1", "call=unlink key=2 to=1,2"]);
    desk.all(&["step=admit", "step=admit"]);
    desk.refuses(22, "step=swap at=2 unit=1");
    desk.all(&["step=drain"]);
    assert_eq!((desk.result(4).0, desk.result(5).0), (1, 1));
    apart.all(&["call=unlink key=2 to=1,9", "call=unlink key=2 to=2"]);
    apart.all(&["step=admit", "step=admit", "step=swap at=2 unit=1"]);
    apart.all(&["step=drain"]);
    assert_eq!(apart.result(4), (1, &[9][..]));
    assert_eq!(apart.result(5), (1, &[][..]));
}

#[test]
fn trap_folds_go_by_stations() {
    let lines = ["call=add value=1", "call=add value=2", "call=add value=3"];
    let mut desk = Desk::after(&lines);
    desk.all(&["call=pick start=0 to=2,3", "step=drain"]);
    assert_eq!(desk.result(4), (2, &[][..]));
}
