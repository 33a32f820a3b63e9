//! The peer of `main.rt`: the same reads, from a `BTreeMap`. A copy is a new map, made from the pairs in key order.

use std::collections::BTreeMap;
use std::ops::Bound;

const PAIRS: u64 = 1_000_000;
const ROWS: usize = 100;
const SEED: u64 = 20_261_123;

fn next(state: &mut u64) -> u64 {
    *state = state.wrapping_add(0x9e37_79b9_7f4a_7c15);
    let one = (*state ^ (*state >> 30)).wrapping_mul(0xbf58_476d_1ce4_e5b9);
    let two = (one ^ (one >> 27)).wrapping_mul(0x94d0_49bb_1331_11eb);
    two ^ (two >> 31)
}

fn key(number: u64) -> [u8; 16] {
    u128::from(number).rotate_left(64).to_be_bytes()
}

fn sum_of((key, value): (&Vec<u8>, &Vec<u8>)) -> u64 {
    u64::from(key[0]) + u64::from(value[0])
}

fn main() {
    let words: Vec<String> = std::env::args().skip(1).collect();
    let reads = words.iter().filter_map(|word| word.parse().ok()).last().unwrap_or(0u64);
    let what = words.iter().find(|word| word.parse::<u64>().is_err()).map_or("range", |word| word.as_str());
    let mut map: BTreeMap<Vec<u8>, Vec<u8>> = BTreeMap::new();
    let mut state = SEED;
    for _ in 0..PAIRS {
        map.insert(key(next(&mut state)).to_vec(), vec![b'v'; 100]);
    }
    println!("loaded");
    let mut sum = 0u64;
    let mut state = SEED;
    for _ in 0..reads {
        let at = key(next(&mut state));
        let rows: u64 = match what {
            "back" => map.range::<[u8], _>((Bound::Unbounded, Bound::Excluded(&at[..]))).rev().take(ROWS).map(sum_of).sum(),
            "get" | "batch" => map.get(&at[..]).map_or(0, |value| u64::from(at[0]) + u64::from(value[0])),
            "copy" => map.iter().map(|(key, value)| (key.clone(), value.clone())).collect::<BTreeMap<_, _>>().len() as u64,
            _ => map.range::<[u8], _>((Bound::Included(&at[..]), Bound::Unbounded)).take(ROWS).map(sum_of).sum(),
        };
        sum = sum.wrapping_add(rows);
    }
    println!("{sum}");
}
