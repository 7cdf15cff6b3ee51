// What `swallow_bench wires` does, in plain Rust: a wire between sixteen repositories and sixteen brokers
// with its trace, its messages as texts, a queue of due copies and the flags of each node, and nothing
// proved. The word is about how many entries there are. Prints how many messages were sent.
use std::collections::{BTreeMap, VecDeque};

#[derive(Clone, Copy, PartialEq, Eq, PartialOrd, Ord)]
enum Node {
    Repository(u8),
    Broker(u8),
}

#[allow(dead_code)]
enum Entry {
    Take(Node, u32),
    Go(Node),
    Hear(Node),
    Gate(Node),
    Tick(u64),
}

#[allow(dead_code)]
struct Letter {
    from: Node,
    to: Node,
    text: Vec<u8>,
}

#[derive(Default)]
struct Standing {
    gone: bool,
    due: bool,
    heard: u64,
    queue: VecDeque<u32>,
}

#[derive(Default)]
struct Wire {
    entries: Vec<Entry>,
    letters: Vec<Letter>,
    nodes: BTreeMap<Node, Standing>,
    ticks: u64,
}

impl Wire {
    fn node(&mut self, node: Node) -> &mut Standing {
        self.nodes.get_mut(&node).expect("a node of the run")
    }

    fn send(&mut self, from: Node, to: Node) {
        let text = format!("ask 1.1.1\n").into_bytes();
        self.letters.push(Letter { from, to, text });
        let number = self.letters.len() as u32;
        self.node(to).queue.push_back(number);
    }

    fn gate(&mut self, node: Node, to: Option<Node>) {
        if !self.node(node).due {
            return;
        }
        self.node(node).due = false;
        if let Some(to) = to {
            self.send(node, to);
        }
        self.entries.push(Entry::Gate(node));
    }

    fn go(&mut self, node: Node) {
        let standing = self.node(node);
        if !standing.gone {
            standing.gone = true;
            standing.due = true;
            self.entries.push(Entry::Go(node));
        }
    }

    fn hear(&mut self, node: Node) {
        let ticks = self.ticks;
        let standing = self.node(node);
        if standing.heard != ticks {
            standing.heard = ticks;
            standing.due = true;
            self.entries.push(Entry::Hear(node));
        }
    }

    // The copy's text is given to the node.
    fn take(&mut self, node: Node) -> Option<Vec<u8>> {
        let standing = self.node(node);
        let number = standing.queue.pop_front()?;
        standing.due = true;
        self.entries.push(Entry::Take(node, number));
        Some(self.letters[number as usize - 1].text.clone())
    }

    fn is_idle(&self) -> bool {
        self.nodes
            .values()
            .all(|it| !it.due && it.queue.is_empty() && it.heard == self.ticks)
    }

    fn tick(&mut self) {
        if self.is_idle() {
            self.ticks += 1;
            self.entries.push(Entry::Tick(0));
        }
    }
}

fn work(wire: &mut Wire, number: u8) {
    let (home, broker) = (Node::Repository(number), Node::Broker(number));
    wire.hear(home);
    wire.gate(home, None);
    wire.hear(broker);
    wire.gate(broker, Some(home));
    wire.take(home);
    wire.gate(home, Some(broker));
    wire.take(broker);
    wire.gate(broker, None);
}

fn main() {
    let words: Vec<String> = std::env::args().collect();
    let entries: u32 = words[1].parse().expect("a number of entries");
    let mut wire = Wire::default();
    for number in 1..=16 {
        wire.nodes.insert(Node::Repository(number), Standing::default());
        wire.nodes.insert(Node::Broker(number), Standing::default());
    }
    for number in 1..=16 {
        wire.go(Node::Broker(number));
        wire.gate(Node::Broker(number), None);
    }
    for _ in 0..entries / 129 {
        wire.tick();
        for number in 1..=16 {
            work(&mut wire, number);
        }
    }
    println!("{}", wire.letters.len());
}
