//! The work of lock_bench under std's Mutex: a million visits, each of which adds a pair to a list.
use std::sync::Mutex;

const VISITS: u32 = 1_000_000;

fn main() {
    let threads: u32 = std::env::args().nth(1).and_then(|w| w.parse().ok()).unwrap_or(4);
    let pairs: Mutex<Vec<(u32, u32)>> = Mutex::new(Vec::new());
    std::thread::scope(|scope| {
        for who in 1..threads {
            let pairs = &pairs;
            scope.spawn(move || put_all(pairs, who, VISITS / threads));
        }
        put_all(&pairs, threads, VISITS / threads);
    });
    println!("{}", pairs.lock().unwrap().len());
}

fn put_all(pairs: &Mutex<Vec<(u32, u32)>>, who: u32, count: u32) {
    for number in 1..=count {
        pairs.lock().unwrap().push((who, number));
    }
}
