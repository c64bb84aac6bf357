//! The sessions that are timed, and what is asked of each. Every image comes from lines that the product
//! served.

use hosts::{Entry, Host, Tally, IMAGE_BYTES, LISTING_BYTES, PAGE_BYTES, PRODUCT, RESULT_BYTES};

const MAP_TO_ALL: &str = "call=map a=65537 b=4294967295 to=all";

pub type Image = [u8; IMAGE_BYTES];

pub struct Scene {
    pub name: &'static str,
    pub rows: Vec<Row>,
}

/// A line for an entry, and the image that it is given.
pub struct Row {
    pub name: &'static str,
    pub entry: Entry,
    pub image: Image,
    line: String,
    room: usize,
}

impl Row {
    pub fn serve(&self, host: &Host, image: &mut [u8], tally: &mut Tally, out: &mut [u8]) -> i64 {
        let frame = (self.line.as_bytes(), 0);
        host.serve(self.entry, image, frame, tally, &mut out[..self.room])
    }

    /// How many steps a drain takes, if this is one that takes any.
    pub fn steps(&self) -> Option<f64> {
        let mut tally = [0; 8];
        self.serve(
            &PRODUCT,
            &mut self.image.clone(),
            &mut tally,
            &mut [0; LISTING_BYTES],
        );
        let steps = tally.iter().sum::<u32>();
        (steps > 1).then_some(f64::from(steps))
    }
}

/// A session under construction.
#[derive(Clone)]
pub struct Desk {
    pub image: Image,
    pub tally: Tally,
}

impl Desk {
    pub fn open() -> Desk {
        let mut image = [0; IMAGE_BYTES];
        let nothing = (&[][..], 0);
        let answer = PRODUCT.serve(Entry::Open, &mut image, nothing, &mut [0; 8], &mut []);
        assert_eq!(answer, 0);
        Desk {
            image,
            tally: [0; 8],
        }
    }

    /// Serves a line, which must not be refused, and gives the answer.
    pub fn serve(&mut self, line: &str) -> i64 {
        let frame = (line.as_bytes(), 0);
        let entry = Entry::of(line.as_bytes());
        let out = &mut [0; RESULT_BYTES];
        let answer = PRODUCT.serve(entry, &mut self.image, frame, &mut self.tally, out);
        assert!(answer >= 0, "{line} is refused with {answer}");
        answer
    }

    /// Serves a call to its end and claims its result.
    fn settle(&mut self, call: &str) {
        let label = self.serve(call);
        self.serve("step=drain");
        self.serve(&format!("claim={label}"));
    }

    /// Adds nodes, each with so many links.
    pub fn add_nodes(&mut self, nodes: u32, links: u32) {
        for value in 0..nodes {
            self.settle(&format!("call=add value={value}"));
        }
        for link in 0..links * nodes / 8 {
            let key = 1 + 7 * link % nodes;
            let first = 1 + 8 * link % nodes;
            let to = list(first..first + 8);
            self.settle(&format!("call=link key={key} to={to}"));
        }
    }

    /// Calls that have come to a station, one unit each.
    fn bring(&mut self, count: u32, call: &str, nodes: u32, station: u32) {
        for _ in 0..count {
            self.serve(call);
            self.serve("step=admit");
            for key in (station + 1..=nodes).rev() {
                self.serve(&format!("step=move at={key}"));
            }
        }
    }

    fn row(&self, name: &'static str, entry: Entry, line: &str, refusal: i64) -> Row {
        let room = match (entry, refusal) {
            (_, 33 | 34) => 0,
            (Entry::List, _) => LISTING_BYTES,
            (Entry::Page, _) => PAGE_BYTES,
            _ => RESULT_BYTES,
        };
        let row = Row {
            name,
            entry,
            image: self.image,
            line: line.to_string(),
            room,
        };
        let out = &mut [0; LISTING_BYTES];
        let answer = row.serve(&PRODUCT, &mut row.image.clone(), &mut [0; 8], out);
        assert_eq!(-answer.min(0), refusal, "{name}");
        row
    }
}

/// Keys parted by commas.
pub fn list(keys: std::ops::Range<u32>) -> String {
    let keys: Vec<String> = keys.map(|key| key.to_string()).collect();
    keys.join(",")
}

pub fn fresh() -> Scene {
    let desk = Desk::open();
    let rows = vec![
        desk.row("open", Entry::Open, "", 0),
        desk.row("call", Entry::Call, "call=add value=4294967295", 0),
        desk.row("call, 10", Entry::Call, "call=add value=4294967296", 10),
        desk.row("step, 10", Entry::Step, "step=admits", 10),
        desk.row("step admit, 21", Entry::Step, "step=admit", 21),
        desk.row("claim, 30", Entry::Claim, "claim=1", 30),
        desk.row("list", Entry::List, "", 0),
        desk.row("drain of nothing", Entry::Step, "step=drain", 0),
    ];
    let name = "A fresh session";
    Scene { name, rows }
}

pub fn typical() -> Scene {
    let name = "A typical session: 16 nodes with 2 links each, 12 live calls with 2 targets each";
    let rows = busy(16, 2, 2, [2, 5, 9], [2, 2, 4]);
    Scene { name, rows }
}

pub fn full() -> Scene {
    let name = "A full session: 64 nodes with 8 links each, 64 live calls with 8 targets each";
    let rows = busy(64, 8, 8, [8, 20, 30], [16, 16, 28]);
    Scene { name, rows }
}

/// A session with one call at its first target, and others that wait.
fn at_its_first_target(
    nodes: u32,
    links: u32,
    targets: u32,
    call: &str,
    others: u32,
    other: &str,
) -> Desk {
    let mut desk = Desk::open();
    desk.add_nodes(nodes, links);
    desk.bring(1, call, nodes, targets);
    for _ in 0..others {
        desk.serve(other);
    }
    desk
}

/// A session in which a step of every kind is allowed: a result that is left alone, sums at one station,
/// maps at another, a unit of two at a third, a sum without targets at the front, and calls that wait. For a realise of an
/// unlink and of a top one each with as many live calls: the unlink or the top at its first target, and sums that wait.
fn busy(nodes: u32, links: u32, targets: u32, stations: [u32; 3], counts: [u32; 3]) -> Vec<Row> {
    let [low, middle, high] = stations;
    let [sums, maps, waiting] = counts;
    let to = list(1..1 + targets);
    let (sum, map) = (
        format!("call=sum start=4294967295 to={to}"),
        format!("call=map a=65537 b=4294967295 to={to}"),
    );
    let (unmap, even) = (
        format!("call=unmap a=65537 b=4294967295 to={to}"),
        format!("call=unmap a=65536 b=4294967295 to={to}"),
    );
    let mut desk = Desk::open();
    desk.serve(&sum);
    desk.serve("step=admit"); // with no node yet: all targets are left
    desk.add_nodes(nodes, links);
    desk.bring(sums, &sum, nodes, low);
    desk.bring(maps, &map, nodes, middle);
    desk.bring(2, &map, nodes, high);
    desk.serve(&format!("step=join at={high} unit=1"));
    desk.bring(1, "call=sum start=7 to=", nodes, nodes);
    let mut last = 0;
    for _ in 0..waiting {
        last = desk.serve(&sum);
    }
    let mut with_a_place_free = desk.clone();
    with_a_place_free.serve("claim=1");
    let others = sums + maps + waiting + 3;
    let with_one = |call: String| at_its_first_target(nodes, links, targets, &call, others, &sum);
    let with_an_unlink = with_one(format!("call=unlink key=1 to={to}"));
    let with_a_top = with_one(format!("call=top start=2147483648 to={to}"));
    let realise = format!("step=realise at={targets}");
    let step = |name, line: String, refusal| desk.row(name, Entry::Step, &line, refusal);
    vec![
        desk.row("open", Entry::Open, "", 0),
        with_a_place_free.row("call", Entry::Call, &map, 0),
        with_a_place_free.row("call unmap", Entry::Call, &unmap, 0),
        with_a_place_free.row("call to all", Entry::Call, MAP_TO_ALL, 0),
        desk.row("call, 10", Entry::Call, &format!("{map},"), 10),
        desk.row(
            "call to all, 10",
            Entry::Call,
            &format!("{MAP_TO_ALL},1"),
            10,
        ),
        desk.row("call unmap, 40", Entry::Call, &even, 40),
        step("step admit", "step=admit".into(), 0),
        step("step realise", format!("step=realise at={low}"), 0),
        with_an_unlink.row("step realise, unlink", Entry::Step, &realise, 0),
        with_a_top.row("step realise, top", Entry::Step, &realise, 0),
        step("step move", format!("step=move at={middle}"), 0),
        step("step finish", format!("step=finish at={nodes}"), 0),
        step("step join", format!("step=join at={middle} unit=1"), 0),
        step(
            "step split",
            format!("step=split at={high} unit=1 after=1"),
            0,
        ),
        step("step swap", format!("step=swap at={low} unit=1"), 0),
        step("step fuse", format!("step=fuse at={middle} unit=1"), 0),
        step("step, 10", "step=admits".into(), 10),
        step("step finish, 22", format!("step=finish at={low}"), 22),
        desk.row("claim", Entry::Claim, "claim=1", 0),
        desk.row("claim, 30", Entry::Claim, "claim=65535", 30),
        desk.row("claim, 31", Entry::Claim, &format!("claim={last}"), 31),
        desk.row("claim, 33", Entry::Claim, "claim=1", 33),
        desk.row("list", Entry::List, "", 0),
        desk.row("list, 33", Entry::List, "", 33),
        desk.row("page", Entry::Page, "", 0),
        desk.row("page, 34", Entry::Page, "", 34),
        step("drain", "step=drain".into(), 0),
    ]
}

/// One all-call over as many nodes as there can be: each kind of step that it takes, and all of them in a drain.
pub fn whole() -> Scene {
    let call = "call=sum start=4294967295 to=all";
    let mut without = Desk::open();
    without.add_nodes(64, 8);
    let mut waiting = without.clone();
    waiting.serve(call);
    let mut unmarked = waiting.clone();
    unmarked.serve("step=admit");
    let mut marked = unmarked.clone();
    marked.serve("step=realise at=64");
    let mut last = marked.clone();
    for key in (1..64).rev() {
        last.serve(&format!("step=move at={}", key + 1));
        last.serve(&format!("step=realise at={key}"));
    }
    let rows = vec![
        without.row("call", Entry::Call, call, 0),
        waiting.row("step admit", Entry::Step, "step=admit", 0),
        unmarked.row("step realise", Entry::Step, "step=realise at=64", 0),
        marked.row("step move", Entry::Step, "step=move at=64", 0),
        marked.row("step finish, 22", Entry::Step, "step=finish at=64", 22),
        last.row("step finish", Entry::Step, "step=finish at=1", 0),
        waiting.row("drain", Entry::Step, "step=drain", 0),
    ];
    let name = "A call over the whole scene: 64 nodes with 8 links each, one sum to all, nothing else live";
    Scene { name, rows }
}

/// Images of several sizes. The line is of no form, so that hardly more than the test of the image is timed.
pub fn images() -> Scene {
    let row = |name, desk: &Desk| desk.row(name, Entry::Step, "step=", 10);
    let rows = vec![
        row("fresh", &Desk::open()),
        row("32 nodes, 32 maps", &kept(32, 0, 0, 32)),
        row("32 nodes, 16 results, 16 maps", &kept(32, 16, 0, 16)),
        row("64 nodes, 64 maps", &kept(64, 0, 0, 64)),
        row("64 nodes, 64 results", &kept(64, 64, 0, 0)),
        row("the same, labels 256 apart", &kept(64, 64, 255, 0)),
    ];
    let name = "The test of the image: a step line of no form. Nodes have 8 links, maps 8 targets, results 8 keys left";
    Scene { name, rows }
}

/// Results, each after so many calls that were claimed since, then nodes, then maps that wait. The 64th result
/// comes after the nodes, since no add is accepted while 64 calls are live.
fn kept(nodes: u32, results: u32, between: u32, maps: u32) -> Desk {
    let mut desk = Desk::open();
    let sum = format!("call=sum start=4294967295 to={}", list(57..65));
    for _ in 0..results.min(63) {
        for _ in 0..between {
            desk.settle("call=sum start=0 to=");
        }
        desk.serve(&sum);
        desk.serve("step=drain"); // with no node yet: all targets are left
    }
    desk.add_nodes(nodes, 8);
    for _ in 63..results {
        desk.serve(&sum);
        desk.serve("step=drain");
    }
    for _ in 0..maps {
        desk.serve(&format!("call=map a=65537 b=4294967295 to={}", list(1..9)));
    }
    desk
}

/// As many results as there can be, all but one with eight keys left.
pub fn settled() -> Scene {
    let desk = kept(64, 64, 0, 0);
    let sum = format!("call=sum start=4294967295 to={}", list(57..65));
    let rows = vec![
        desk.row("call, 14", Entry::Call, &sum, 14),
        desk.row("step admit, 21", Entry::Step, "step=admit", 21),
        desk.row("claim", Entry::Claim, "claim=1", 0),
        desk.row("claim, 32", Entry::Claim, "claim=64", 32),
        desk.row("list", Entry::List, "", 0),
        desk.row("drain of nothing", Entry::Step, "step=drain", 0),
    ];
    let name = "A settled session: 64 nodes with 8 links each, 64 results";
    Scene { name, rows }
}
