//! Times every entry of the product beside the second implementation and a plain copy of an image, and
//! measures its stack. docs/PERFORMANCE.md says what the tables mean.

mod load;
mod page;
mod scene;
mod schedule;
mod stack;
mod timing;

use std::hint::black_box;

use hosts::{Host, IMAGE_BYTES, LISTING_BYTES, PRODUCT, SECOND};
use load::{Load, LINES, SEEDS};
use page::{Page, LINKS, NODES};
use scene::{Image, Row, Scene};

/// Every time is taken so many times, with all the others between, since the machine is slow for a while now
/// and then; the least counts.
const PASSES: usize = 12;

fn main() {
    let scenes = [
        scene::fresh(),
        scene::typical(),
        scene::full(),
        scene::settled(),
        scene::whole(),
        scene::images(),
    ];
    let loads = load::loads();
    let pages = page::pages();
    let mut copy = f64::INFINITY;
    let mut times: Vec<Vec<Times>> = scenes
        .iter()
        .map(|scene| vec![Times::NONE; scene.rows.len()])
        .collect();
    let mut load_times = vec![Times::NONE; loads.len()];
    let mut page_times = vec![Times::NONE; pages.len()];
    for _ in 0..PASSES {
        copy = copy.min(copy_ns());
        for (scene, times) in scenes.iter().zip(&mut times) {
            for (row, times) in scene.rows.iter().zip(times) {
                times.take(|host| entry_ns(host, row));
            }
        }
        for (load, times) in loads.iter().zip(&mut load_times) {
            times.take(|host| load.ns(host));
        }
        for (page, times) in pages.iter().zip(&mut page_times) {
            times.take(|host| page.ns(host));
        }
    }
    println!("A plain copy of {IMAGE_BYTES} bytes takes {copy:.0} ns.\n");
    for (scene, times) in scenes.iter().zip(&times) {
        table(scene, times, copy);
    }
    load_table(&loads, &load_times, copy);
    page_table(&pages, &page_times, copy);
    schedule::table();
    stack_table(&scenes, &loads, &pages);
}

/// Nanoseconds of one call with the copy that restores the image before it, if it is lent one.
#[derive(Clone, Copy)]
struct Times {
    product: f64,
    second: f64,
}

impl Times {
    const NONE: Times = Times {
        product: f64::INFINITY,
        second: f64::INFINITY,
    };

    /// Takes a time of both, and keeps the least.
    fn take(&mut self, ns: impl Fn(&Host) -> f64) {
        self.product = self.product.min(ns(&PRODUCT));
        self.second = self.second.min(ns(&SECOND));
    }
}

fn copy_ns() -> f64 {
    let from: Image = [1; IMAGE_BYTES];
    let mut to: Image = [0; IMAGE_BYTES];
    timing::best_ns(|| black_box(&mut to).copy_from_slice(black_box(&from)))
}

fn table(scene: &Scene, times: &[Times], copy: f64) {
    table_head(scene.name);
    for (row, times) in scene.rows.iter().zip(times) {
        let (product, second) = (times.product - copy, times.second - copy);
        table_row(row.name, product, second, copy);
        if let Some(steps) = row.steps() {
            table_part("step", steps, product, second);
        }
    }
    println!();
}

fn load_table(loads: &[Load], times: &[Times], copy: f64) {
    table_head(&format!(
        "Loads of {LINES} lines, the mean over {SEEDS} seeds"
    ));
    for (load, times) in loads.iter().zip(times) {
        table_row(load.name, times.product, times.second, copy);
        if let Some(lines) = load.lines() {
            table_part("line", lines, times.product, times.second);
        }
    }
    println!();
}

fn page_table(pages: &[Page], times: &[Times], copy: f64) {
    table_head(&format!(
        "A page of {NODES} nodes with {LINKS} links each, read back"
    ));
    for (page, times) in pages.iter().zip(times) {
        table_row(page.name, times.product, times.second, copy);
        if let Some(nodes) = page.nodes() {
            table_part("node", nodes, times.product, times.second);
        }
    }
    println!();
}

fn table_head(name: &str) {
    println!("{name}\n");
    println!("| entry | ns | times a copy | second, ns | second / product |");
    println!("|---|---:|---:|---:|---:|");
}

fn table_row(name: &str, product: f64, second: f64, copy: f64) {
    let (copies, factor) = (product / copy, second / product);
    println!("| {name} | {product:.0} | {copies:.1} | {second:.0} | {factor:.1} |");
}

/// A row's time, divided by how many steps, lines or nodes it is of.
fn table_part(what: &str, count: f64, product: f64, second: f64) {
    let (product, second) = (product / count, second / count);
    println!("| .. one {what} of {count:.0} | {product:.0} | | {second:.0} | |");
}

fn entry_ns(host: &Host, row: &Row) -> f64 {
    let (mut image, mut out) = (row.image, [0; LISTING_BYTES]);
    timing::best_ns(|| {
        image.copy_from_slice(black_box(&row.image));
        black_box(row.serve(host, &mut image, &mut [0; 8], &mut out));
    })
}

/// The most that any row of an entry takes, any load, and any page that is read back.
fn stack_table(scenes: &[Scene], loads: &[Load], pages: &[Page]) {
    println!("\n| entry | most stack, bytes |\n|---|---:|");
    for entry in hosts::Entry::ALL {
        let rows = scenes.iter().flat_map(|scene| &scene.rows);
        let rows = rows.filter(|row| row.entry == entry);
        let most = rows.map(stack_bytes).max().unwrap_or(0);
        println!("| {entry:?} | {most} |");
    }
    let most = loads.iter().map(Load::stack_bytes).max().unwrap_or(0);
    println!("| Load | {most} |");
    let most = pages.iter().map(Page::stack_bytes).max().unwrap_or(0);
    println!("| PageNodes | {most} |");
}

fn stack_bytes(row: &Row) -> usize {
    let (mut image, mut out) = (row.image, [0; LISTING_BYTES]);
    stack::used(|| {
        row.serve(&PRODUCT, &mut image, &mut [0; 8], &mut out);
    })
}
