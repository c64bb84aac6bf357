//! Calls over the whole scene: `to=all`.

mod common;

use common::{calls, Desk};
use second::{meaning, Act, Call, Operation, Targets, To};

const MARKED: Targets = Targets::All { done: true };
const UNMARKED: Targets = Targets::All { done: false };

/// Each call that has targets, without them, and whether it folds.
const CALLS: [(&str, bool); 8] = [
    ("map a=3 b=4", false),
    ("unmap a=3 b=4", false),
    ("link key=1", false),
    ("unlink key=1", false),
    ("sum start=1", true),
    ("top start=1", true),
    ("pick start=1", true),
    ("near key=1 start=1", true),
];

/// So many nodes, of different values, every second with a link to 1; no call is pending.
fn scene(nodes: usize) -> Desk {
    let mut desk = Desk::new();
    for node in 1..=nodes {
        desk.all(&[&format!("call=add value={}", 10 * node), "step=drain"]);
        if node % 2 == 0 {
            desk.all(&[&format!("call=link key=1 to={node}"), "step=drain"]);
        }
    }
    for label in 1..=desk.session.last {
        desk.all(&[&format!("claim={label}")]);
    }
    desk
}

/// Serves a call that must be accepted, and gives its label.
fn sent(desk: &mut Desk, line: &str) -> u16 {
    let answer = desk.line(line);
    assert!(answer > 0, "{line}: {answer}");
    answer as u16
}

/// Sends a call and admits it.
fn enter(desk: &mut Desk, line: &str) -> u16 {
    let label = sent(desk, line);
    desk.all(&["step=admit"]);
    label
}

/// The operations of a station's streamlet, unit by unit.
fn operations(desk: &Desk, key: u8) -> Vec<&Operation> {
    let mut stations = desk.session.stations.iter();
    let station = stations.find(|s| s.node.key == key).expect("such a node");
    station.streamlet.iter().flatten().collect()
}

fn targets_at(desk: &Desk, key: u8) -> Vec<&Targets> {
    operations(desk, key).iter().map(|op| &op.targets).collect()
}

/// Drains the calls, and sees that one-at-a-time processing gives the same.
fn drained(lines: &[&str]) -> Desk {
    let mut desk = Desk::after(lines);
    desk.all(&["step=drain"]);
    let (nodes, results) = meaning(&calls(lines));
    let stations = desk.session.stations.iter().map(|s| &s.node);
    assert!(stations.eq(nodes.iter()));
    assert!(desk.session.results.values().eq(results.iter()));
    desk
}

#[test]
fn every_call_with_targets_takes_all() {
    for (call, _) in CALLS {
        let mut desk = Desk::new();
        assert_eq!(desk.line(&format!("call={call} to=all")), 1);
        let waiting: Vec<&Operation> = desk.session.operations().collect();
        assert_eq!(waiting.len(), 1);
        assert_eq!(waiting[0].targets, UNMARKED, "{call}");
    }
    Desk::new().refuses(10, "call=add value=5 to=all");
}

/// An all-call is not one that names no target.
#[test]
fn all_is_read_as_all() {
    for (call, _) in CALLS {
        let read = |to: &str| match calls(&[&format!("call={call} to={to}")]).remove(0) {
            Call::Visit { to, .. } | Call::Unmap { to, .. } => to,
            Call::Add { .. } => unreachable!("no add"),
        };
        assert_eq!(read("all"), To::All);
        assert_eq!(read(""), To::Keys(vec![]));
    }
}

#[test]
fn what_is_nearly_all_is_10() {
    let mut desk = scene(1);
    for (call, _) in CALLS {
        for to in [
            "all,1", "1,all", "all,all", "all,", ",all", "ALL", "All", "aLl", "al", "a", "alle",
            "alll", "ball", "all ", " all", "all\r", "all\0", "all1", "1all", "all=", "*",
            "all to=1", "all,65", "2,2,all",
        ] {
            desk.refuses(10, &format!("call={call} to={to}"));
        }
        desk.refuses(10, &format!("call={call} all"));
        desk.refuses(10, &format!("call={call} to all"));
        desk.refuses(10, &format!("call={call}  to=all"));
        desk.refuses(10, &format!("call={call}to=all"));
        desk.refuses(10, &format!("call={call}"));
    }
    for line in [
        "call=add value=all",
        "call=add to=all",
        "call=add value=5 to=all",
    ] {
        desk.refuses(10, line);
    }
    for line in [
        "call=link key=all to=1",
        "call=sum start=all to=1",
        "step=move at=all",
    ] {
        desk.refuses(10, line);
    }
}

#[test]
fn refusals_of_all_calls_in_order() {
    let mut desk = scene(1);
    for word in ["link key=65", "unlink key=0", "near key=65 start=0"] {
        desk.refuses(11, &format!("call={word} to=all"));
        desk.refuses(10, &format!("call={word} to=all,1"));
    }
    for even in [0, 2, 4_294_967_294_u32] {
        desk.refuses(40, &format!("call=unmap a={even} b=4 to=all"));
        desk.refuses(10, &format!("call=unmap a={even} b=4 to=alle"));
        let map = format!("call=map a={even} b=4 to=all");
        assert!(desk.clone().line(&map) > 0);
    }
    let mut full = Desk::after(&["call=sum start=0 to=all"; 64]);
    full.refuses(14, "call=sum start=0 to=all");
    full.refuses(11, "call=link key=0 to=all");
    full.refuses(40, "call=unmap a=2 b=4 to=all");
    full.refuses(10, "call=sum start=0 to=al");
    desk.session.last = 65_534;
    assert_eq!(desk.line("call=map a=2 b=1 to=all"), 65_535);
    desk.refuses(15, "call=map a=2 b=1 to=all");
    desk.refuses(40, "call=unmap a=2 b=1 to=all");
}

/// Up to eight nodes a list can name all of them, and means the same.
#[test]
fn all_means_every_node_there_is() {
    for nodes in 0..=8 {
        let adds: Vec<String> = (1..=nodes).map(|n| format!("call=add value={n}")).collect();
        let keys: Vec<String> = (1..=nodes).map(|key: u32| key.to_string()).collect();
        for (call, _) in CALLS {
            let ends = [String::from("all"), keys.join(",")].map(|to| {
                let mut lines: Vec<&str> = adds.iter().map(String::as_str).collect();
                let odd = "call=link key=1 to=1,3,5,7";
                let line = format!("call={call} to={to}");
                lines.extend([odd, odd, &line]);
                drained(&lines).listing()
            });
            assert_eq!(ends[0], ends[1], "{call}, {nodes} nodes");
        }
    }
}

#[test]
fn an_all_call_meets_the_nodes_of_the_adds_before_it() {
    let all = "call=sum start=0 to=all";
    let add = [
        "call=add value=1",
        "call=add value=10",
        "call=add value=100",
    ];
    let desk = drained(&[all, add[0], all, add[1], all, add[2], all]);
    let sums = [1, 3, 5, 7].map(|label| desk.result(label));
    let none = &[][..];
    assert_eq!(sums, [(0, none), (1, none), (11, none), (111, none)]);
}

/// Calls after it that are accepted before it is admitted make no difference.
#[test]
fn an_all_call_waits_with_an_add_behind_it() {
    let mut desk = scene(2);
    let all = sent(&mut desk, "call=map a=1 b=1 to=all");
    desk.all(&["call=add value=30", "step=admit", "step=admit"]);
    assert_eq!(targets_at(&desk, 2), [&UNMARKED]);
    assert_eq!(targets_at(&desk, 3).len(), 0);
    desk.all(&["step=drain"]);
    let values = [1, 2, 3].map(|key| desk.node(key).value);
    assert_eq!(values, [11, 21, 30]);
    assert_eq!(desk.result(all), (0, &[][..]));
}

#[test]
fn without_nodes_it_finishes_at_admit() {
    for (call, folds) in CALLS {
        let mut desk = Desk::after(&[&format!("call={call} to=all"), "step=admit"]);
        assert_eq!(desk.result(1), (u32::from(folds), &[][..]), "{call}");
        assert_eq!(desk.session.pending(), 0);
        desk.refuses(21, "step=admit");
    }
}

/// A listed call leaves its keys there, an all-call none.
#[test]
fn left_is_empty() {
    let desk = drained(&["call=map a=3 b=4 to=1,2", "call=map a=3 b=4 to=all"]);
    assert_eq!(desk.result(1).1, [1, 2]);
    assert!(desk.result(2).1.is_empty());
    for nodes in 1..5 {
        for (call, _) in CALLS {
            let mut desk = scene(nodes);
            let label = sent(&mut desk, &format!("call={call} to=all"));
            desk.all(&["step=drain"]);
            assert!(desk.result(label).1.is_empty());
        }
    }
}

/// At each of three stations, before and after its act: which of the steps are allowed.
#[test]
fn steps_of_an_all_call_are_allowed_exactly() {
    for (call, _) in CALLS {
        let mut desk = scene(3);
        let label = enter(&mut desk, &format!("call={call} to=all"));
        for at in [3, 2, 1] {
            assert_eq!(targets_at(&desk, at), [&UNMARKED]);
            allows(&desk, at, &["realise"]);
            desk.all(&[&format!("step=realise at={at}")]);
            assert_eq!(targets_at(&desk, at), [&MARKED]);
            desk.refuses(31, &format!("claim={label}"));
            if at > 1 {
                allows(&desk, at, &["move"]);
                desk.all(&[&format!("step=move at={at}")]);
            }
        }
        allows(&desk, 1, &["finish"]);
        desk.all(&["step=finish at=1"]);
        assert!(desk.session.results.contains_key(&label));
        desk.refuses(21, "step=finish at=1");
    }
}

fn allows(desk: &Desk, at: u8, allowed: &[&str]) {
    for step in ["realise", "move", "finish"] {
        let answer = desk.clone().line(&format!("step={step} at={at}"));
        let expected = if allowed.contains(&step) { 0 } else { -22 };
        assert_eq!(answer, expected, "{step} at {at}");
    }
}

#[test]
fn an_all_call_holds_its_value_between_stations() {
    let mut desk = scene(3);
    enter(&mut desk, "call=sum start=1 to=all");
    for (at, held) in [(3, 31), (2, 51), (1, 61)] {
        desk.all(&[&format!("step=realise at={at}")]);
        assert_eq!(operations(&desk, at)[0].act, Act::Sum { held });
        if at > 1 {
            desk.all(&[&format!("step=move at={at}")]);
            assert_eq!(operations(&desk, at - 1)[0].act, Act::Sum { held });
        }
    }
}

/// The first of a unit that has not acted here acts; the unit moves when all have, and all
/// marks go.
#[test]
fn units_of_both_kinds_of_call() {
    let mut desk = scene(2);
    let map = enter(&mut desk, "call=map a=2 b=0 to=all");
    let sum = enter(&mut desk, "call=sum start=0 to=2");
    let top = enter(&mut desk, "call=top start=0 to=all");
    desk.all(&["step=join at=2 unit=1"; 2]);
    let struck = Targets::Keys(vec![]);
    let listed = Targets::Keys(vec![2]);
    desk.all(&["step=realise at=2"]);
    assert_eq!(targets_at(&desk, 2), [&MARKED, &listed, &UNMARKED]);
    desk.refuses(22, "step=move at=2");
    desk.refuses(22, "step=finish at=2");
    desk.all(&["step=realise at=2"]);
    assert_eq!(targets_at(&desk, 2), [&MARKED, &struck, &UNMARKED]);
    desk.refuses(22, "step=move at=2");
    desk.all(&["step=realise at=2"]);
    assert_eq!(targets_at(&desk, 2), [&MARKED, &struck, &MARKED]);
    desk.refuses(22, "step=realise at=2");
    let mut finished = desk.clone();
    finished.all(&["step=finish at=2"]); // the sum
    assert_eq!(targets_at(&finished, 2), [&MARKED, &MARKED]);
    finished.refuses(22, "step=finish at=2");
    desk.all(&["step=split at=2 unit=1 after=1", "step=join at=2 unit=1"]);
    assert_eq!(targets_at(&desk, 2), [&MARKED, &struck, &MARKED]);
    desk.all(&["step=move at=2"]);
    assert_eq!(targets_at(&desk, 1), [&UNMARKED, &struck, &UNMARKED]);
    desk.all(&["step=drain"]);
    let results = [map, sum, top].map(|label| desk.result(label).0);
    assert_eq!(results, [0, 40, 40]);
    assert_eq!((desk.node(1).value, desk.node(2).value), (20, 40));
}

/// At the last station the first that is marked finishes, though one before it is not.
#[test]
fn finish_takes_the_first_that_is_marked() {
    let mut desk = scene(1);
    let sum = enter(&mut desk, "call=sum start=0 to=all");
    let pick = enter(&mut desk, "call=pick start=0 to=all");
    desk.refuses(22, "step=finish at=1");
    desk.all(&["step=realise at=1", "step=swap at=1 unit=1"]);
    assert_eq!(targets_at(&desk, 1), [&UNMARKED, &MARKED]);
    desk.refuses(22, "step=finish at=1"); // the head unit is the pick
    desk.all(&["step=join at=1 unit=1", "step=finish at=1"]);
    assert_eq!(desk.result(sum), (10, &[][..]));
    desk.refuses(22, "step=finish at=1");
    desk.all(&["step=realise at=1", "step=finish at=1"]);
    assert_eq!(desk.result(pick), (10, &[][..]));
}

/// Two calls at the first of two stations; realised once, the first has acted there, or the
/// second where the first has nothing to do.
fn neighbours(first: &str, second: &str, realised: bool) -> Desk {
    let mut desk = scene(2);
    enter(&mut desk, &format!("call={first}"));
    enter(&mut desk, &format!("call={second}"));
    if realised {
        desk.all(&["step=realise at=2"]);
    }
    desk
}

/// An all-call shares a target with every call that has one left, be its node there or not.
#[test]
fn swaps_of_all_calls_are_allowed_exactly() {
    for (all, all_folds) in CALLS {
        for (other, other_folds) in CALLS {
            for to in ["", "1", "2", "1,2", "9", "64", "all"] {
                let (all, other) = (format!("{all} to=all"), format!("{other} to={to}"));
                let swaps = to.is_empty() || (all_folds && other_folds);
                let answer = if swaps { 0 } else { -22 };
                for realised in [false, true] {
                    let mut desk = neighbours(&all, &other, realised);
                    let before: Vec<Operation> =
                        operations(&desk, 2).into_iter().cloned().collect();
                    assert_eq!(desk.line("step=swap at=2 unit=1"), answer, "{all}, {other}");
                    let mut expected = before;
                    if swaps {
                        expected.reverse(); // each with its mark
                    }
                    assert!(operations(&desk, 2).into_iter().eq(&expected));
                }
                let mut desk = neighbours(&other, &all, false);
                assert_eq!(desk.line("step=swap at=2 unit=1"), answer, "{other}, {all}");
            }
        }
    }
}

/// What remains of the targets counts, and what was struck does not.
#[test]
fn a_listed_call_swaps_once_its_targets_are_struck() {
    let mut desk = neighbours("map a=2 b=0 to=2", "map a=1 b=1 to=all", false);
    desk.refuses(22, "step=swap at=2 unit=1");
    desk.all(&["step=realise at=2", "step=swap at=2 unit=1"]);
    desk.all(&["step=realise at=2", "step=swap at=2 unit=1"]);
    assert_eq!(targets_at(&desk, 2), [&Targets::Keys(vec![]), &MARKED]);
    desk.all(&["step=drain"]);
    assert_eq!((desk.node(1).value, desk.node(2).value), (11, 41));
}

const ALL_MAPS: [&str; 2] = ["map a=3 b=4 to=all", "map a=2 b=1 to=all"];

/// The two, joined, realised so often and split again.
fn all_maps_realised(times: usize) -> Desk {
    let mut desk = neighbours(ALL_MAPS[0], ALL_MAPS[1], false);
    desk.all(&["step=join at=2 unit=1"]);
    desk.all(&vec!["step=realise at=2"; times]);
    desk.all(&["step=split at=2 unit=1 after=1"]);
    desk
}

#[test]
fn all_maps_fuse_where_their_marks_are_equal() {
    for (times, mark) in [(0, UNMARKED), (2, MARKED)] {
        let mut desk = all_maps_realised(times);
        desk.all(&["step=fuse at=2 unit=1"]);
        let [fused] = operations(&desk, 2)[..] else {
            panic!("one operation");
        };
        assert_eq!(fused.act, Act::Map { a: 6, b: 9 });
        assert_eq!((&fused.targets, fused.labels.len()), (&mark, 2));
        desk.all(&["step=drain"]);
        // 10 and 20 become 34 and 64, and then 69 and 129.
        assert_eq!((desk.node(1).value, desk.node(2).value), (69, 129));
        let last = desk.session.last;
        assert_eq!(desk.result(last - 1), (0, &[][..]));
        assert_eq!(desk.result(last), (0, &[][..]));
    }
    let mut desk = all_maps_realised(1);
    assert_eq!(targets_at(&desk, 2), [&MARKED, &UNMARKED]);
    desk.refuses(22, "step=fuse at=2 unit=1");
}

/// Maps for all never change places, so no run has the marked one second; but an image may.
#[test]
fn an_unmarked_all_map_and_a_marked_one_do_not_fuse() {
    let mut desk = all_maps_realised(1);
    let streamlet = &mut desk.session.stations[0].streamlet;
    streamlet.swap(0, 1);
    assert!(second::valid(&desk.session));
    assert_eq!(targets_at(&desk, 2), [&UNMARKED, &MARKED]);
    desk.refuses(22, "step=fuse at=2 unit=1");
}

#[test]
fn an_all_map_fuses_with_no_listed_one() {
    for to in ["", "1", "2", "1,2", "1,2,9"] {
        let listed = format!("map a=2 b=1 to={to}");
        for realised in [false, true] {
            let mut desk = neighbours(ALL_MAPS[0], &listed, realised);
            desk.refuses(22, "step=fuse at=2 unit=1");
        }
        let mut desk = neighbours(&listed, ALL_MAPS[0], false);
        desk.refuses(22, "step=fuse at=2 unit=1");
    }
    for (call, _) in CALLS {
        let mut desk = neighbours(ALL_MAPS[0], &format!("{call} to=all"), false);
        let fuses = call.contains("map");
        let answer = desk.line("step=fuse at=2 unit=1");
        assert_eq!(answer, if fuses { 0 } else { -22 }, "{call}");
    }
}

#[test]
fn all_maps_fuse_up_to_four_labels() {
    let mut desk = scene(1);
    for _ in 0..5 {
        enter(&mut desk, "call=map a=2 b=1 to=all");
    }
    desk.all(&["step=fuse at=1 unit=1"; 3]);
    desk.refuses(22, "step=fuse at=1 unit=1");
    assert_eq!(operations(&desk, 1)[0].labels.len(), 4);
    desk.all(&["step=drain"]);
    assert_eq!(desk.node(1).value, 351); // 10, 21, 43, 87, 175, 351
}

#[test]
fn an_all_map_is_taken_back_for_all() {
    let pair = ["call=map a=3 b=4 to=all", "call=unmap a=3 b=4 to=all"];
    let (add, sum) = ("call=add value=5", "call=sum start=0 to=all");
    for [first, second] in [pair, [pair[1], pair[0]]] {
        let desk = drained(&[add, add, add, first, sum, second]);
        for key in 1..=3 {
            assert_eq!(desk.node(key).value, 5);
        }
    }
    // Node 2 comes between the two.
    let desk = drained(&[add, pair[0], "call=add value=19", pair[1]]);
    assert_eq!((desk.node(1).value, desk.node(2).value), (5, 5));
    let mut desk = scene(2);
    enter(&mut desk, pair[0]);
    enter(&mut desk, pair[1]);
    desk.all(&["step=fuse at=2 unit=1"]);
    let identity = operations(&desk, 2)[0];
    assert_eq!(
        (&identity.act, &identity.targets),
        (&Act::Map { a: 1, b: 0 }, &UNMARKED)
    );
}

/// Node 2's list is full, node 1's has seven links, node 3's none.
#[test]
fn all_links_and_unlinks_count_over_all_nodes() {
    let mut lines = vec!["call=add value=5"; 3];
    lines.extend(["call=link key=7 to=1,2"; 7]);
    lines.extend([
        "call=link key=8 to=2",
        "call=link key=8 to=all",
        "call=link key=7 to=all",
    ]);
    lines.extend(["call=unlink key=7 to=all", "call=unlink key=7 to=all"]);
    let desk = drained(&lines);
    assert_eq!(desk.result(12), (1, &[][..])); // node 2
    assert_eq!(desk.result(13), (2, &[][..])); // nodes 1 and 2
    assert_eq!(desk.result(14), (15, &[][..])); // 7, 7 and 1
    assert_eq!(desk.result(15), (0, &[][..]));
    for key in 1..=3 {
        assert_eq!(desk.node(key).links, [8]);
    }
}

/// More than a listed call can: 64 full lists, and 512 copies.
#[test]
fn counts_over_64_nodes() {
    let mut desk = Desk::after(&["call=add value=1"; 64]);
    desk.all(&["step=drain"]);
    for label in 1..=20 {
        desk.all(&[&format!("claim={label}")]);
    }
    desk.all(&["call=link key=9 to=all"; 9]);
    desk.all(&["call=unlink key=9 to=all", "call=near key=9 start=0 to=all"]);
    desk.all(&["call=sum start=0 to=all", "step=drain"]);
    assert_eq!(desk.result(72), (0, &[][..]));
    assert_eq!(desk.result(73), (64, &[][..]));
    assert_eq!(desk.result(74), (512, &[][..]));
    assert_eq!(desk.result(75), (0, &[][..]));
    assert_eq!(desk.result(76), (64, &[][..]));
}

/// A new station in front is not met by what is on its way already.
#[test]
fn an_add_admitted_meanwhile() {
    let mut desk = scene(2);
    let sum = enter(&mut desk, "call=sum start=0 to=all");
    desk.all(&["step=realise at=2", "call=add value=500", "step=admit"]);
    assert_eq!(targets_at(&desk, 2), [&MARKED]); // it has not moved
    desk.refuses(22, "step=finish at=2");
    desk.all(&["step=drain"]);
    assert_eq!(desk.result(sum), (30, &[][..]));
}

/// A drain realises before it finishes or moves, and counts each.
#[test]
fn a_drain_takes_an_all_call_through() {
    let mut desk = scene(3);
    desk.tally = [0; 8];
    desk.all(&["call=sum start=0 to=all", "step=drain"]);
    assert_eq!(desk.tally, [1, 3, 2, 1, 0, 0, 0, 0]);
    desk.all(&[
        "call=sum start=0 to=all",
        "step=admit",
        "step=realise at=3",
        "step=drain",
    ]);
    assert_eq!(desk.tally, [2, 6, 4, 2, 0, 0, 0, 0]);
}
