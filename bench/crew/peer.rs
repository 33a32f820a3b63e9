//! The peer of `main.rt`: the same arguments, phases and lines, with a `BTreeMap`. A batch is sorted by key, its commands are borrowed, and its
//! replies own their bytes, as in the store.

use std::collections::BTreeMap;
use std::env;
use std::io::{self, Write};

type Map = BTreeMap<Vec<u8>, Vec<u8>>;

enum Command {
    Get(Vec<u8>),
    Put(Vec<u8>, Vec<u8>),
    Del(Vec<u8>),
    Scan(Vec<u8>),
}

const ROWS: usize = 100;
const SCANS: usize = 1_000;

#[derive(Clone)]
#[allow(dead_code)] // replies are made and dropped
enum Reply {
    Value(Vec<u8>),
    Word(&'static str),
    Rows(Vec<(Vec<u8>, Vec<u8>)>),
}

impl Command {
    fn key(&self) -> &[u8] {
        match self {
            Command::Get(key) | Command::Put(key, _) | Command::Del(key) | Command::Scan(key) => key,
        }
    }

    fn run(&self, map: &mut Map) -> Reply {
        match self {
            Command::Get(key) => map.get(key).map_or(Reply::Word("missing"), |value| Reply::Value(value.clone())),
            Command::Put(key, value) => Reply::Word(map.insert(key.clone(), value.clone()).map_or("new", |_| "replaced")),
            Command::Del(key) => Reply::Word(map.remove(key).map_or("missing", |_| "deleted")),
            Command::Scan(key) => Reply::Rows(map.range(key.clone()..).take(ROWS).map(|(key, value)| (key.clone(), value.clone())).collect()),
        }
    }
}

#[inline(never)]
fn run_batch(map: &mut Map, commands: &[Command]) -> Vec<Reply> {
    let mut keyed: Vec<(&[u8], usize)> = commands.iter().map(Command::key).zip(0..).collect();
    keyed.sort_unstable();
    let mut replies = vec![Reply::Word(""); commands.len()];
    for (_, place) in keyed {
        replies[place] = commands[place].run(map);
    }
    replies
}

fn mixed(number: u64) -> u64 {
    let one = (number ^ (number >> 30)).wrapping_mul(0xbf58_476d_1ce4_e5b9);
    let two = (one ^ (one >> 27)).wrapping_mul(0x94d0_49bb_1331_11eb);
    two ^ (two >> 31)
}

fn rank(place: u64) -> u64 {
    let bits = mixed(place);
    (bits & 0xf_ffff) >> ((bits >> 32) % 20)
}

fn key(number: u64) -> Vec<u8> {
    u128::from(mixed(number)).rotate_left(64).to_be_bytes().to_vec()
}

fn command(phase: &str, place: u64, pairs: u64, length: usize) -> Command {
    let number = place.wrapping_mul(7_919) % pairs;
    match phase {
        "load" => Command::Put(key(place), vec![b'a'; length]),
        "half" if place % 2 == 1 => Command::Put(key(number), vec![b'b'; length]),
        "gets" | "single_gets" | "half" => Command::Get(key(number)),
        "zipf" => Command::Get(key(rank(place) % pairs)),
        "scans" => Command::Scan(key(number)),
        "singles" => Command::Put(key(number), vec![b'c'; length]),
        _ => Command::Del(key(number)),
    }
}

fn main() -> io::Result<()> {
    let given: Vec<u64> = env::args().skip(1).filter_map(|word| word.parse().ok()).collect();
    let number = |at: usize, default: u64| given.get(at).copied().unwrap_or(default);
    let (pairs, most, length, singles) = (number(4, 1_000_000), number(5, 65_535), number(6, 100) as usize, number(7, 0));
    let reads = number(8, 0);
    let mut map = Map::new();
    let mut out = io::stdout().lock();
    for phase in ["load", "gets", "zipf", "scans", "single_gets", "half", "singles", "deletes"] {
        let (count, longest) = match phase {
            "single_gets" | "singles" => (singles, 1),
            "zipf" => (reads, most as usize),
            "scans" => (reads / 50, SCANS),
            _ => (pairs, most as usize),
        };
        let mut batch = Vec::new();
        for place in 0..count {
            batch.push(command(phase, place, pairs, length));
            if batch.len() >= longest || place + 1 == count {
                writeln!(out, "made {phase}")?;
                let replies = run_batch(&mut map, &batch);
                writeln!(out, "batch {phase}")?;
                drop(replies);
                batch.clear();
            }
        }
    }
    Ok(())
}
