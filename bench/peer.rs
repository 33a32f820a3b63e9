//! The peer of the benchmarks: does what `bwsh` does, with a `BTreeMap`. It reads the same batch files, executes each batch in key order, and prints
//! the same lines. As in the store, a batch is borrowed, and its replies own their bytes. The first argument, `retain` or `append`, chooses how a
//! range is removed; the default is `extract_if`.

use std::collections::BTreeMap;
use std::ops::Bound;
use std::io::{self, Read, Write};

pub type Map = BTreeMap<Vec<u8>, Vec<u8>>;

/// Removes the keys from the first bound to below the second, and returns how many there were.
pub type Remove = fn(&mut Map, &Vec<u8>, Option<&Vec<u8>>) -> usize;

pub enum Command {
    Get(Vec<u8>),
    Put(Vec<u8>, Vec<u8>),
    Add(Vec<u8>, Vec<u8>),
    Del(Vec<u8>),
    Scan(Vec<u8>, Option<Vec<u8>>, usize),
    Wipe(Vec<u8>, Option<Vec<u8>>, Remove),
}

#[derive(Clone)]
pub enum Reply {
    Value(Vec<u8>),
    Word(&'static str),
    Rows(Vec<(Vec<u8>, Vec<u8>)>),
    Wiped(usize),
}

impl Command {
    fn key(&self) -> &[u8] {
        match self {
            Command::Get(key) | Command::Del(key) | Command::Scan(key, _, _) => key,
            Command::Put(key, _) | Command::Add(key, _) | Command::Wipe(key, _, _) => key,
        }
    }

    fn is_ranged(&self) -> bool {
        matches!(self, Command::Scan(..) | Command::Wipe(..))
    }

    fn is_change(&self) -> bool {
        !matches!(self, Command::Get(_) | Command::Scan(..))
    }

    fn run(&self, map: &mut Map) -> Reply {
        match self {
            Command::Get(key) => match map.get(key) {
                Some(value) => Reply::Value(value.clone()),
                None => Reply::Word("missing"),
            },
            Command::Put(key, value) => match map.insert(key.clone(), value.clone()) {
                Some(_) => Reply::Word("replaced"),
                None => Reply::Word("new"),
            },
            Command::Add(key, value) => match map.get(key) {
                Some(_) => Reply::Word("exists"),
                None => {
                    map.insert(key.clone(), value.clone());
                    Reply::Word("added")
                }
            },
            Command::Del(key) => match map.remove(key) {
                Some(_) => Reply::Word("deleted"),
                None => Reply::Word("missing"),
            },
            Command::Scan(lo, hi, limit) => Reply::Rows(rows(map, lo, hi.as_deref(), *limit)),
            Command::Wipe(lo, hi, remove) => Reply::Wiped(wipe(map, lo, hi.as_ref(), *remove)),
        }
    }
}

/// Removes a range, and returns how many keys there were. `BTreeMap` panics if the end of a range is below its start, so such a range is not passed
/// on.
pub fn wipe(map: &mut Map, lo: &Vec<u8>, hi: Option<&Vec<u8>>, remove: Remove) -> usize {
    if hi.is_some_and(|hi| hi <= lo) { 0 } else { remove(map, lo, hi) }
}

pub fn by_extract_if(map: &mut Map, lo: &Vec<u8>, hi: Option<&Vec<u8>>) -> usize {
    let end = hi.map_or(Bound::Unbounded, Bound::Excluded);
    map.extract_if((Bound::Included(lo), end), |_, _| true).count()
}

fn by_retain(map: &mut Map, lo: &Vec<u8>, hi: Option<&Vec<u8>>) -> usize {
    let before = map.len();
    map.retain(|key, _| key < lo || hi.is_some_and(|hi| key >= hi));
    before - map.len()
}

fn by_append(map: &mut Map, lo: &Vec<u8>, hi: Option<&Vec<u8>>) -> usize {
    let mut removed = map.split_off(lo);
    if let Some(hi) = hi {
        map.append(&mut removed.split_off(hi));
    }
    removed.len()
}

fn chosen() -> Remove {
    match std::env::args().nth(1).as_deref() {
        Some("retain") => by_retain,
        Some("append") => by_append,
        _ => by_extract_if,
    }
}

// Returns the first `limit` pairs from `lo` to below `hi`.
fn rows(map: &Map, lo: &[u8], hi: Option<&[u8]>, limit: usize) -> Vec<(Vec<u8>, Vec<u8>)> {
    map.range::<[u8], _>((Bound::Included(lo), Bound::Unbounded))
        .take_while(|(key, _)| hi.is_none_or(|hi| key.as_slice() < hi))
        .take(limit)
        .map(|(key, value)| (key.clone(), value.clone()))
        .collect()
}

fn hex(digit: u8) -> Option<u8> {
    (digit as char).to_digit(16).map(|value| value as u8)
}

// The bytes that a word encodes: `%` alone for none, and `%41` for the byte 0x41.
fn token(word: &[u8]) -> Option<Vec<u8>> {
    if word == b"%" {
        return Some(Vec::new());
    }
    let mut bytes = Vec::with_capacity(word.len());
    let mut rest = word;
    while let Some((&byte, after)) = rest.split_first() {
        if byte != b'%' {
            bytes.push(byte);
            rest = after;
        } else {
            bytes.push(16 * hex(*rest.get(1)?)? + hex(*rest.get(2)?)?);
            rest = &rest[3..];
        }
    }
    Some(bytes)
}

fn number(word: &[u8]) -> Option<usize> {
    std::str::from_utf8(word).ok()?.parse().ok()
}

pub fn command(words: &[&[u8]]) -> Option<Command> {
    Some(match words {
        [b"get", key] => Command::Get(token(key)?),
        [b"del", key] => Command::Del(token(key)?),
        [b"put", key, value] => Command::Put(token(key)?, token(value)?),
        [b"add", key, value] => Command::Add(token(key)?, token(value)?),
        [b"scan", lo, b"*", limit] => Command::Scan(token(lo)?, None, number(limit)?),
        [b"scan", lo, hi, limit] => Command::Scan(token(lo)?, Some(token(hi)?), number(limit)?),
        [b"wipe", lo, b"*"] => Command::Wipe(token(lo)?, None, chosen()),
        [b"wipe", lo, hi] => Command::Wipe(token(lo)?, Some(token(hi)?), chosen()),
        _ => return None,
    })
}

fn parse(text: &[u8]) -> Option<Vec<Vec<Command>>> {
    let mut batches = vec![Vec::new()];
    let mut words = Vec::new();
    for line in text.split(|&byte| byte == b'\n') {
        words.clear();
        words.extend(line.split(|&byte| byte == b' ').filter(|word| !word.is_empty()));
        match words.as_slice() {
            [] => {}
            [b"go"] => batches.push(Vec::new()),
            words => batches.last_mut()?.push(command(words)?),
        }
    }
    Some(batches)
}

// Executes a batch, and returns the replies in the order of the commands. Commands are executed in key order, and commands on one key in their own
// order. If a batch has changes, and also scans or wipes, all commands are executed in their own order. `note` is called with each command after it
// was executed.
pub fn run_batch(map: &mut Map, commands: &[Command], mut note: impl FnMut(&Command, &Reply)) -> Vec<Reply> {
    let mut keyed: Vec<_> = commands.iter().map(Command::key).zip(0..).collect();
    if !commands.iter().any(Command::is_ranged) || !commands.iter().any(Command::is_change) {
        keyed.sort_unstable();
    }
    let mut replies = vec![Reply::Word(""); commands.len()];
    for (_, place) in keyed {
        replies[place] = commands[place].run(map);
        note(&commands[place], &replies[place]);
    }
    replies
}

fn show_token(bytes: &[u8], lines: &mut Vec<u8>) {
    if bytes.is_empty() {
        lines.push(b'%');
    }
    for &byte in bytes {
        if byte.is_ascii_graphic() && byte != b'%' {
            lines.push(byte);
        } else {
            lines.extend_from_slice(format!("%{byte:02X}").as_bytes());
        }
    }
}

pub fn show(reply: &Reply, lines: &mut Vec<u8>) {
    match reply {
        Reply::Word(word) => lines.extend_from_slice(word.as_bytes()),
        Reply::Wiped(count) => lines.extend_from_slice(format!("wiped {count}").as_bytes()),
        Reply::Value(value) => {
            lines.extend_from_slice(b"value ");
            show_token(value, lines);
        }
        Reply::Rows(rows) => {
            lines.extend_from_slice(format!("rows {}", rows.len()).as_bytes());
            for (key, value) in rows {
                lines.push(b'\n');
                show_token(key, lines);
                lines.push(b' ');
                show_token(value, lines);
            }
        }
    }
    lines.push(b'\n');
}

fn main() -> io::Result<()> {
    let mut text = Vec::new();
    io::stdin().read_to_end(&mut text)?;
    let batches = parse(&text).ok_or(io::ErrorKind::InvalidData)?;
    let mut map = Map::new();
    let mut lines = Vec::new();
    let mut out = io::stdout();
    for batch in &batches {
        lines.clear();
        for reply in run_batch(&mut map, batch, |_, _| {}) {
            show(&reply, &mut lines);
        }
        out.write_all(&lines)?;
    }
    out.flush()
}
