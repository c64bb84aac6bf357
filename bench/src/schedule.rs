//! What joins and fuses save: one script, and the steps that four schedules take for it.

use crate::scene::{list, Desk};

const NODES: u32 = 32;
const MAPS: u32 = 16;
const SUMS: u32 = 8;

pub fn table() {
    let to = list(1..9);
    let mut desk = Desk::open();
    desk.add_nodes(NODES, 0);
    desk.tally = [0; 8];
    for number in 0..MAPS {
        desk.serve(&format!("call=map a=3 b={number} to={to}"));
    }
    for number in 0..SUMS {
        desk.serve(&format!("call=sum start={number} to={to}"));
    }
    println!("One script: {NODES} nodes, {MAPS} maps and {SUMS} sums, all to {to}\n");
    println!("| schedule | admit | realise | move | finish | join | fuse | all |");
    println!("|---|---:|---:|---:|---:|---:|---:|---:|");
    let schedules = [
        ("drain", false, false),
        ("fuse, then drain", true, false),
        ("join, then drain", false, true),
        ("fuse and join, then drain", true, true),
    ];
    let ends = schedules.map(|(name, fuse, join)| schedule(desk.clone(), name, fuse, join));
    assert!(ends.iter().all(|end| *end == ends[0]), "one image");
}

/// Admits all, fuses each four maps into one, joins all units into one, and drains. Gives the image.
fn schedule(mut desk: Desk, name: &str, fuse: bool, join: bool) -> crate::scene::Image {
    for _ in 0..MAPS + SUMS {
        desk.serve("step=admit");
    }
    let mut units = MAPS + SUMS;
    if fuse {
        for unit in 1..=MAPS / 4 {
            for _ in 0..3 {
                desk.serve(&format!("step=fuse at={NODES} unit={unit}"));
            }
        }
        units -= MAPS / 4 * 3;
    }
    if join {
        for _ in 1..units {
            desk.serve(&format!("step=join at={NODES} unit=1"));
        }
    }
    desk.serve("step=drain");
    let [admit, realise, moved, finish, joined, _, _, fused] = desk.tally;
    let all: u32 = desk.tally.iter().sum();
    println!("| {name} | {admit} | {realise} | {moved} | {finish} | {joined} | {fused} | {all} |");
    desk.image
}
