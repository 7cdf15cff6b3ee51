//! The work of wire_bench under std's Mutex: 1,200,000 visits, each of which asks how a node stands and adds an entry.
use std::collections::BTreeMap;
use std::sync::Mutex;

const ROUNDS: u32 = 400_000;

/// Kind and number.
type Node = (u8, u8);

#[allow(dead_code)]
enum Cause {
    Medium,
    Damaged { page: u32 },
    Full { pages: u32 },
}

#[allow(dead_code)]
enum Entry {
    Take { node: Node, number: u32 },
    Go { node: Node },
    Learn { node: Node, stamp: (u64, u8, u8), committed: bool },
    Hear { node: Node },
    Gate { node: Node },
    Crash { node: Node, kept: u32 },
    Down { node: Node, cause: Cause },
    Tick { moment: u64 },
}

#[allow(dead_code)]
#[derive(Default)]
struct Flags {
    gone: bool,
    due: bool,
    heard: u64,
}

#[derive(Default)]
struct Wire {
    entries: Vec<Entry>,
    sent: Vec<u32>,
    nodes: BTreeMap<Node, Flags>,
}

impl Wire {
    fn go(&mut self, node: Node) {
        self.entries.push(Entry::Go { node });
        let flags = self.nodes.get_mut(&node).unwrap();
        flags.gone = true;
        flags.due = true;
    }

    fn gate(&mut self, node: Node, outs: &[u32]) {
        self.sent.extend_from_slice(outs);
        self.entries.push(Entry::Gate { node });
        self.nodes.get_mut(&node).unwrap().due = false;
    }

    fn crash(&mut self, node: Node, kept: u32) {
        self.entries.push(Entry::Crash { node, kept });
        *self.nodes.get_mut(&node).unwrap() = Flags::default();
    }
}

fn work(wire: &Mutex<Wire>, node: Node, rounds: u32) {
    for _ in 0..rounds {
        wire.lock().unwrap().go(node);
        wire.lock().unwrap().gate(node, &[]);
        wire.lock().unwrap().crash(node, 0);
    }
}

fn main() {
    let threads: u8 = std::env::args().nth(1).and_then(|w| w.parse().ok()).unwrap_or(4);
    let mut wire = Wire::default();
    for number in 1..=4 {
        wire.nodes.insert((2, number), Flags::default());
    }
    let wire = Mutex::new(wire);
    std::thread::scope(|scope| {
        for number in 2..=threads {
            let wire = &wire;
            scope.spawn(move || work(wire, (2, number), ROUNDS / u32::from(threads)));
        }
        work(&wire, (2, 1), ROUNDS / u32::from(threads));
    });
    println!("{}", wire.lock().unwrap().entries.len());
}
