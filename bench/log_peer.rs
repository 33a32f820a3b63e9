//! The peer with a file: does what `bwsh --disk FILE` does, with a `BTreeMap` and an append-only file. It reads the same batch files and prints the
//! same lines. Like `bwsh`, it reads all its input first. Then it creates its file (`--create`) or replays it. Without `--disk` there is no file.
//! Settings are ignored.
//!
//! The file has a record for each command that changed something, and one for each flush. Records after the last flush are ignored. A flush makes one
//! sync. A record that a power failure has damaged is not detected; a kill damages none.

#[allow(dead_code)]
#[path = "peer.rs"]
mod peer;

use peer::{by_extract_if, command, run_batch, show, wipe, Command, Map, Reply};
use std::fs::{self, File};
use std::io::{self, Read, Seek, SeekFrom, Write};
use std::mem;

const PUT: u8 = 1;
const DEL: u8 = 2;
const FLUSH: u8 = 3;
const WIPE: u8 = 4;
const LONG: usize = 1 << 20; // bytes of records that are collected before they are written

enum Order {
    Batch(Vec<Command>),
    Flush,
    Verify,
}

// The log: its file, if there is one, and the records that are not written yet.
struct Log {
    file: Option<File>,
    pending: Vec<u8>,
    sequence: u64,
    is_changed: bool,
}

impl Log {
    // Appends a record: its length in four bytes, its kind, and for a put the length of the key in two bytes, the key and the value. A wipe has its
    // bounds in the same form. An empty upper bound means that there is none, since no key is below the empty key.
    fn push(&mut self, kind: u8, parts: &[&[u8]]) {
        let length = 1 + parts.iter().map(|part| part.len()).sum::<usize>();
        self.pending.extend_from_slice(&(length as u32).to_be_bytes());
        self.pending.push(kind);
        for part in parts {
            self.pending.extend_from_slice(part);
        }
    }

    // Appends the record of a command, if it changed something.
    fn note(&mut self, command: &Command, reply: &Reply) {
        match (command, reply) {
            (_, Reply::Word("missing" | "exists")) => return,
            (Command::Put(key, value) | Command::Add(key, value), _) => {
                self.push(PUT, &[&(key.len() as u16).to_be_bytes(), key, value])
            }
            (Command::Del(key), _) => self.push(DEL, &[key]),
            (Command::Wipe(lo, hi, _), Reply::Wiped(1..)) => {
                self.push(WIPE, &[&(lo.len() as u16).to_be_bytes(), lo, hi.as_deref().unwrap_or_default()])
            }
            _ => return,
        }
        self.is_changed = true;
    }

    // Writes the pending records, if they have at least `least` bytes.
    fn write(&mut self, least: usize) -> io::Result<()> {
        if self.pending.len() >= least {
            if let Some(file) = &mut self.file {
                file.write_all(&self.pending)?;
            }
            self.pending.clear();
        }
        Ok(())
    }

    // If something was changed, makes it durable and counts a flush. Returns the number of the last flush.
    fn flush(&mut self) -> io::Result<u64> {
        if mem::take(&mut self.is_changed) {
            self.push(FLUSH, &[]);
            self.write(0)?;
            if let Some(file) = &self.file {
                file.sync_data()?;
            }
            self.sequence += 1;
        }
        Ok(self.sequence)
    }
}

// Returns the first record and the bytes after it, or `None` if the record is incomplete.
fn record(text: &[u8]) -> Option<(&[u8], &[u8])> {
    let (length, rest) = text.split_first_chunk::<4>()?;
    rest.split_at_checked(u32::from_be_bytes(*length) as usize)
}

fn replay(map: &mut Map, record: &[u8]) -> Option<()> {
    match record {
        [PUT, high, low, rest @ ..] => {
            let (key, value) = rest.split_at_checked(u16::from_be_bytes([*high, *low]) as usize)?;
            map.insert(key.to_vec(), value.to_vec());
        }
        [DEL, key @ ..] => {
            map.remove(key);
        }
        [WIPE, high, low, rest @ ..] => {
            let (lo, hi) = rest.split_at_checked(u16::from_be_bytes([*high, *low]) as usize)?;
            let hi = (!hi.is_empty()).then(|| hi.to_vec());
            wipe(map, &lo.to_vec(), hi.as_ref(), by_extract_if);
        }
        [FLUSH] => {}
        _ => return None,
    }
    Some(())
}

// Returns how many bytes of the file are flushed, and the number of the last flush.
fn flushed(text: &[u8]) -> (usize, u64) {
    let (mut length, mut sequence) = (0, 1);
    let mut rest = text;
    while let Some((record, after)) = record(rest) {
        rest = after;
        if record == [FLUSH] {
            (length, sequence) = (text.len() - rest.len(), sequence + 1);
        }
    }
    (length, sequence)
}

// Returns the map that the file holds, and its log, which continues after the last flush.
fn recover(path: &str) -> io::Result<(Map, Log)> {
    let text = fs::read(path)?;
    let (length, sequence) = flushed(&text);
    let mut map = Map::new();
    let mut rest = &text[..length];
    while let Some((record, after)) = record(rest) {
        replay(&mut map, record).ok_or(io::ErrorKind::InvalidData)?;
        rest = after;
    }
    let mut file = File::options().write(true).open(path)?;
    file.set_len(length as u64)?;
    file.seek(SeekFrom::End(0))?;
    Ok((map, log(Some(file), sequence)))
}

fn log(file: Option<File>, sequence: u64) -> Log {
    Log { file, pending: Vec::new(), sequence, is_changed: false }
}

// Returns an empty map, and the log of a new file.
fn create(path: &str) -> io::Result<(Map, Log)> {
    let file = File::create(path)?;
    file.sync_data()?;
    Ok((Map::new(), log(Some(file), 1)))
}

fn parse(text: &[u8]) -> Option<Vec<Order>> {
    let (mut orders, mut pending) = (Vec::new(), Vec::new());
    for line in text.split(|&byte| byte == b'\n') {
        let words: Vec<_> = line.split(|&byte| byte == b' ').filter(|word| !word.is_empty()).collect();
        let order = match words.as_slice() {
            [] => continue,
            [b"go"] => None,
            [b"flush"] => Some(Order::Flush),
            [b"verify"] => Some(Order::Verify),
            words => {
                pending.push(command(words)?);
                continue;
            }
        };
        if order.is_none() || !pending.is_empty() {
            orders.push(Order::Batch(mem::take(&mut pending)));
        }
        orders.extend(order);
    }
    if !pending.is_empty() {
        orders.push(Order::Batch(pending));
    }
    Some(orders)
}

// Executes the order, and appends its lines. `verify` checks nothing, and prints one page on one level.
fn run(map: &mut Map, log: &mut Log, order: &Order, lines: &mut Vec<u8>) -> io::Result<()> {
    match order {
        Order::Batch(commands) => {
            for reply in run_batch(map, commands, |command, reply| log.note(command, reply)) {
                show(&reply, lines);
            }
            log.write(LONG)
        }
        Order::Flush => writeln!(lines, "flushed {}", log.flush()?),
        Order::Verify => writeln!(lines, "ok 1 1 {}", map.len()),
    }
}

fn main() -> io::Result<()> {
    let words: Vec<_> = std::env::args().collect();
    let mut text = Vec::new();
    io::stdin().read_to_end(&mut text)?;
    let orders = parse(&text).ok_or(io::ErrorKind::InvalidData)?;
    let path = words.iter().skip_while(|word| *word != "--disk").nth(1);
    let (mut map, mut log) = match path {
        None => (Map::new(), log(None, 1)),
        Some(path) if words.iter().any(|word| word == "--create") => create(path)?,
        Some(path) => recover(path)?,
    };
    let (mut lines, mut out) = (Vec::new(), io::stdout());
    for order in &orders {
        lines.clear();
        run(&mut map, &mut log, order, &mut lines)?;
        out.write_all(&lines)?;
    }
    out.flush()
}
