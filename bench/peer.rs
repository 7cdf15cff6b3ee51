//! The rules of one broker and one repository over the same pages, in plain Rust (std only): peer FOLDER, with a plan
//! on standard input. It makes the messages, effects, pages, writes and syncs of the proved program, and its report,
//! byte for byte, for plans whose acts read and write objects of one repository, over blank files. It is what
//! runs.sh takes the proved program's time beside, and it checks nothing that a run over files can't show.

use std::collections::{BTreeMap, HashMap, VecDeque};
use std::fs::{File, OpenOptions};
use std::io::{Read, Write};
use std::os::unix::fs::FileExt;
use std::time::{SystemTime, UNIX_EPOCH};

#[derive(Clone, Copy, PartialEq, Eq, PartialOrd, Ord)]
struct Time {
    clock: u64,
    step: u32,
}

#[derive(Clone, Copy, PartialEq, Eq)]
enum Value {
    Nothing,
    Number(i64),
}

enum Expression {
    Number(i64),
    Name(String),
    Given(String, i64),
    Sum(Box<Expression>, Box<Expression>),
}

enum Statement {
    Read(String, u32),
    Write(u32, Expression),
}

struct Act {
    timeout: u32,
    tries: u8,
    text: String,
    script: Vec<Statement>,
}

enum Message {
    Begin(u64, u32),
    Begun,
    Read(Time, u32),
    Value(Time, Value),
    Write(Time, u32, Value),
    Stored(Time),
    Commit(u64),
    Decided,
}

// ---- plans

fn expression(text: &str) -> Expression {
    if let Some((left, right)) = text.rsplit_once(" + ") {
        return Expression::Sum(Box::new(expression(left)), Box::new(expression(right)));
    }
    if let Some(inner) = text.strip_prefix("given(") {
        let (name, number) = inner.strip_suffix(')').unwrap().split_once(", ").unwrap();
        return Expression::Given(name.to_string(), number.parse().unwrap());
    }
    match text.parse() {
        Ok(number) => Expression::Number(number),
        Err(_) => Expression::Name(text.to_string()),
    }
}

fn statement(line: &str) -> Statement {
    let mut words = line.splitn(3, ' ');
    let (kind, second, rest) = (words.next().unwrap(), words.next().unwrap(), words.next().unwrap());
    let number = |object: &str| object.strip_prefix("1.").expect("an object of repository 1").parse().unwrap();
    match kind {
        "read" => Statement::Read(second.to_string(), number(rest)),
        "write" => Statement::Write(number(second), expression(rest)),
        _ => panic!("a read or a write"),
    }
}

fn plan(text: &str) -> (u32, Vec<Act>) {
    let mut lines = text.lines();
    assert_eq!(lines.next(), Some("swallow plan 1"));
    let run = lines.next().unwrap().strip_prefix("run ").unwrap().parse().unwrap();
    assert_eq!(lines.next(), Some("repositories 1"));
    assert_eq!(lines.next(), Some("brokers 1"));
    let mut acts = Vec::new();
    while let Some(line) = lines.next() {
        let words: Vec<&str> = line.split(' ').collect();
        assert_eq!(&words[..6], &["act", "broker", "1", "home", "1", "timeout"]);
        let (mut text, mut script) = (String::new(), Vec::new());
        for line in lines.by_ref().take_while(|line| *line != "done") {
            text.push_str(line);
            text.push('\n');
            script.push(statement(line));
        }
        acts.push(Act { timeout: words[6].parse().unwrap(), tries: words[8].parse().unwrap(), text, script });
    }
    (run, acts)
}

fn evaluate(expression: &Expression, names: &HashMap<&str, Value>) -> Value {
    match expression {
        Expression::Number(number) => Value::Number(*number),
        Expression::Name(name) => names[name.as_str()],
        Expression::Given(name, number) => match names[name.as_str()] {
            Value::Nothing => Value::Number(*number),
            value => value,
        },
        Expression::Sum(left, right) => match (evaluate(left, names), evaluate(right, names)) {
            (Value::Number(left), Value::Number(right)) => Value::Number(left.checked_add(right).expect("no overflow")),
            _ => panic!("numbers"),
        },
    }
}

// ---- bytes

fn put_stamp(into: &mut Vec<u8>, clock: u64) {
    into.extend(clock.to_be_bytes());
    into.extend([1, 1]);
}

fn put_time(into: &mut Vec<u8>, time: Time) {
    put_stamp(into, time.clock);
    into.extend(time.step.to_be_bytes());
}

fn put_object(into: &mut Vec<u8>, object: u32) {
    into.push(1);
    into.extend(object.to_be_bytes());
}

fn put_value(into: &mut Vec<u8>, value: Value) {
    match value {
        Value::Nothing => into.push(0),
        Value::Number(number) => {
            into.push(1);
            into.extend(number.to_be_bytes());
        }
    }
}

// ---- a store

// Whether a page reads 0, sixteen bytes at a time, as the product looks at one.
fn is_blank(page: &[u8; 4096]) -> bool {
    page.chunks_exact(16).all(|part| u128::from_ne_bytes(part.try_into().unwrap()) == 0)
}

struct Store {
    file: File,
    next: u64,
    pages: u64,
}

impl Store {
    fn open(folder: &str, name: &str) -> Store {
        let file = OpenOptions::new().read(true).write(true).open(format!("{folder}/{name}")).unwrap();
        let pages = file.metadata().unwrap().len() / 4096;
        let mut page = [0; 4096];
        for number in 0..pages {
            file.read_exact_at(&mut page, number * 4096).unwrap();
            assert!(is_blank(&page), "blank files");
        }
        file.sync_data().unwrap();
        Store { file, next: 0, pages }
    }

    // The effects go onto the next pages: body, sync, gate, sync. The answer is where each of them stands.
    fn append(&mut self, effects: &[Vec<u8>]) -> Vec<(u32, u16)> {
        let (mut places, mut body, mut first) = (Vec::new(), Vec::new(), true);
        for effect in effects {
            if !first && body.len() + effect.len() > 4 + 4091 {
                self.put(&mut body);
                first = true;
            }
            if first {
                body = vec![2, 0, 0, 0];
                first = false;
            }
            places.push((self.next as u32, body.len() as u16 + 1));
            body.extend(effect);
        }
        if !first {
            self.put(&mut body);
        }
        places
    }

    fn put(&mut self, body: &mut Vec<u8>) {
        assert!(self.next < self.pages, "a page");
        let size = (body.len() - 4) as u16;
        body[1..3].copy_from_slice(&size.to_be_bytes());
        self.file.write_all_at(body, self.next * 4096 + 1).unwrap();
        self.file.sync_data().unwrap();
        self.file.write_all_at(&[0xA5], self.next * 4096).unwrap();
        self.file.sync_data().unwrap();
        self.next += 1;
        body.clear();
    }
}

// ---- the repository

struct Version {
    start: Time,
    value: Value,
    committed: bool,
    read_to: Time,
}

#[derive(Default)]
struct History {
    origin_read_to: Option<Time>,
    versions: Vec<Version>,
    place: Option<(u32, u16)>,
}

struct Record {
    deadline: u64,
    committed: bool,
}

struct Repository {
    store: Store,
    moment: u64,
    records: BTreeMap<u64, Record>,
    histories: BTreeMap<u32, History>,
    written: HashMap<u64, Vec<u32>>,
}

impl Repository {
    fn take(&mut self, message: Message, effects: &mut Vec<Vec<u8>>, objects: &mut Vec<Option<u32>>, sends: &mut Vec<Message>) {
        match message {
            Message::Begin(clock, timeout) => {
                let deadline = self.moment + timeout as u64;
                self.records.insert(clock, Record { deadline, committed: false });
                let mut bytes = vec![3];
                put_stamp(&mut bytes, clock);
                bytes.extend(self.records[&clock].deadline.to_be_bytes());
                effects.push(bytes);
                objects.push(None);
                sends.push(Message::Begun);
            }
            Message::Read(time, object) => {
                let history = self.histories.entry(object).or_default();
                let below = history.versions.iter_mut().rev().find(|version| version.start < time);
                let (value, stretch) = match below {
                    Some(version) => {
                        assert!(version.committed || version.start.clock == time.clock, "one broker");
                        let stretch = version.read_to < time;
                        version.read_to = version.read_to.max(time);
                        (version.value, stretch)
                    }
                    None => {
                        let stretch = history.origin_read_to < Some(time);
                        history.origin_read_to = history.origin_read_to.max(Some(time));
                        (Value::Nothing, stretch)
                    }
                };
                if stretch {
                    let mut bytes = vec![2];
                    put_object(&mut bytes, object);
                    put_time(&mut bytes, time);
                    effects.push(bytes);
                    objects.push(None);
                }
                sends.push(Message::Value(time, value));
            }
            Message::Write(time, object, value) => {
                let history = self.histories.entry(object).or_default();
                assert!(history.versions.last().is_none_or(|last| last.start < time && last.read_to <= time), "one broker");
                history.versions.push(Version { start: time, value, committed: false, read_to: time });
                self.written.entry(time.clock).or_default().push(object);
                let mut bytes = vec![1];
                put_object(&mut bytes, object);
                put_time(&mut bytes, time);
                put_value(&mut bytes, value);
                match history.place {
                    None => bytes.extend([0xFF; 6]),
                    Some((page, offset)) => {
                        bytes.extend(page.to_be_bytes());
                        bytes.extend(offset.to_be_bytes());
                    }
                }
                effects.push(bytes);
                objects.push(Some(object));
                sends.push(Message::Stored(time));
            }
            Message::Commit(clock) => {
                self.records.get_mut(&clock).unwrap().committed = true;
                for object in self.written.remove(&clock).unwrap_or_default() {
                    for version in self.histories.get_mut(&object).unwrap().versions.iter_mut().rev() {
                        if version.start.clock != clock {
                            break;
                        }
                        version.committed = true;
                    }
                }
                let mut bytes = vec![4];
                put_stamp(&mut bytes, clock);
                bytes.push(1);
                effects.push(bytes);
                objects.push(None);
                sends.push(Message::Decided);
            }
            _ => panic!("a request"),
        }
    }

    fn turn(&mut self, inbox: &mut VecDeque<Message>, outbox: &mut VecDeque<Message>) -> bool {
        let (mut effects, mut objects, mut sends, mut worked) = (Vec::new(), Vec::new(), Vec::new(), false);
        for _ in 0..16 {
            let Some(message) = inbox.pop_front() else { break };
            self.take(message, &mut effects, &mut objects, &mut sends);
            worked = true;
        }
        let places = self.store.append(&effects);
        for (object, place) in objects.iter().zip(places) {
            if let Some(object) = object {
                self.histories.get_mut(object).unwrap().place = Some(place);
            }
        }
        outbox.extend(sends);
        worked
    }
}

// ---- the broker

struct Try {
    clock: u64,
    lines: Vec<String>,
    answers: Vec<Option<Value>>,
}

struct Broker<'a> {
    store: Store,
    acts: &'a [Act],
    act: usize,
    tries: Vec<Try>,
    committed: usize,
}

fn print(value: Value) -> String {
    match value {
        Value::Nothing => "nothing".to_string(),
        Value::Number(number) => number.to_string(),
    }
}

impl Broker<'_> {
    // The act and its first try.
    fn begin(&mut self, effects: &mut Vec<Vec<u8>>, sends: &mut Vec<Message>) {
        let Some(act) = self.acts.get(self.act) else { return };
        let (index, clock) = (self.act as u32 + 1, self.act as u64 + 1);
        let mut bytes = vec![7];
        bytes.extend(index.to_be_bytes());
        bytes.push(1);
        bytes.extend(act.timeout.to_be_bytes());
        bytes.push(act.tries);
        bytes.extend(1u64.to_be_bytes());
        bytes.extend((act.text.len() as u16).to_be_bytes());
        bytes.extend(act.text.as_bytes());
        effects.push(bytes);
        let mut bytes = vec![8];
        bytes.extend(index.to_be_bytes());
        put_stamp(&mut bytes, clock);
        effects.push(bytes);
        self.tries.push(Try { clock, lines: Vec::new(), answers: Vec::new() });
        sends.push(Message::Begin(clock, act.timeout));
    }

    // What the script asks behind the answers so far; it is carried out from its first statement.
    fn ask(&mut self, sends: &mut Vec<Message>) {
        let (act, last) = (&self.acts[self.act], self.tries.last_mut().unwrap());
        let (mut names, mut answers) = (HashMap::new(), last.answers.iter());
        last.lines.clear();
        for (place, statement) in act.script.iter().enumerate() {
            let time = Time { clock: last.clock, step: place as u32 + 1 };
            match (statement, answers.next()) {
                (Statement::Read(name, object), Some(Some(value))) => {
                    last.lines.push(format!("read 1.{object} {}", print(*value)));
                    names.insert(name.as_str(), *value);
                }
                (Statement::Read(_, object), None) => return sends.push(Message::Read(time, *object)),
                (Statement::Write(object, expression), answer) => {
                    let value = evaluate(expression, &names);
                    if answer.is_none() {
                        return sends.push(Message::Write(time, *object, value));
                    }
                    last.lines.push(format!("wrote 1.{object} {}", print(value)));
                }
                _ => panic!("a value"),
            }
        }
        sends.push(Message::Commit(last.clock));
    }

    fn take(&mut self, message: Message, effects: &mut Vec<Vec<u8>>, sends: &mut Vec<Message>) {
        match message {
            Message::Begun => self.ask(sends),
            Message::Value(time, value) => {
                let mut bytes = vec![9];
                bytes.extend(time.step.to_be_bytes());
                put_value(&mut bytes, value);
                effects.push(bytes);
                self.tries.last_mut().unwrap().answers.push(Some(value));
                self.ask(sends);
            }
            Message::Stored(time) => {
                let mut bytes = vec![10];
                bytes.extend(time.step.to_be_bytes());
                effects.push(bytes);
                self.tries.last_mut().unwrap().answers.push(None);
                self.ask(sends);
            }
            Message::Decided => {
                let mut bytes = vec![11];
                bytes.extend((self.act as u32 + 1).to_be_bytes());
                bytes.push(1);
                effects.push(bytes);
                self.committed += 1;
                self.act += 1;
                self.begin(effects, sends);
            }
            _ => panic!("an answer"),
        }
    }

    fn turn(&mut self, inbox: &mut VecDeque<Message>, outbox: &mut VecDeque<Message>) -> bool {
        let (mut effects, mut sends, mut worked) = (Vec::new(), Vec::new(), false);
        for _ in 0..16 {
            let Some(message) = inbox.pop_front() else { break };
            self.take(message, &mut effects, &mut sends);
            worked = true;
        }
        self.store.append(&effects);
        outbox.extend(sends);
        worked
    }
}

fn main() {
    let folder = std::env::args().nth(1).expect("a folder");
    let mut text = String::new();
    std::io::stdin().read_to_string(&mut text).unwrap();
    let (run, acts) = plan(&text);
    let moment = SystemTime::now().duration_since(UNIX_EPOCH).unwrap().as_secs();
    let mut repository = Repository {
        store: Store::open(&folder, "repository-1-0"),
        moment,
        records: BTreeMap::new(),
        histories: BTreeMap::new(),
        written: HashMap::new(),
    };
    let mut broker = Broker { store: Store::open(&folder, "broker-1-0"), acts: &acts, act: 0, tries: Vec::new(), committed: 0 };
    let (mut requests, mut answers, mut sent) = (VecDeque::new(), VecDeque::new(), 0);
    let mut effects = vec![[vec![6], run.to_be_bytes().to_vec()].concat()];
    let mut sends = Vec::new();
    broker.begin(&mut effects, &mut sends);
    broker.store.append(&effects);
    requests.extend(sends);
    while broker.act < acts.len() {
        let (before, after) = (requests.len(), answers.len());
        repository.turn(&mut requests, &mut answers);
        sent += before + (answers.len() - after);
        broker.turn(&mut answers, &mut requests);
    }
    let mut report = format!("swallow report 1\nrun {run}\n");
    for (place, last) in broker.tries.iter().enumerate() {
        report.push_str(&format!("act {} broker 1 home 1\ntry {}.1.1 committed\n", place + 1, last.clock));
        for line in &last.lines {
            report.push_str(line);
            report.push('\n');
        }
    }
    for (object, history) in &repository.histories {
        if let Some(last) = history.versions.iter().rev().find(|version| version.committed) {
            report.push_str(&format!("final 1.{object} {}\n", print(last.value)));
        }
    }
    let committed = broker.committed;
    report.push_str(&format!("totals acts {} committed {committed} withdrawn 0 failed 0 refused 0 expired 0 spent 0 open 0\nwire messages {sent} asks 0 ticks 0 crashes 0\n", acts.len()));
    std::io::stdout().write_all(report.as_bytes()).unwrap();
}
