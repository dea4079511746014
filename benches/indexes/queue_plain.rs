// The same with a plain set. `benches/indexes/run` builds it and runs it.
use std::collections::BTreeSet;
use std::ops::Bound::{Excluded, Unbounded};
use std::time::Instant;

const ENTRIES: u64 = 1_000_000;
const KEYS: u64 = 20_000;
const BASE_58: &[u8] = b"123456789ABCDEFGHJKLMNPQRSTUVWXYZabcdefghijkmnopqrstuvwxyz";

#[derive(Clone, Copy, PartialEq, Eq, PartialOrd, Ord)]
struct Key { bytes: [u8; 44], len: u8 }

#[derive(Clone, Copy, PartialEq, Eq, PartialOrd, Ord)]
#[allow(dead_code)]
enum Due { Membership(Key), Revocation(Key), Certification(Key, Key) }

fn key_of(number: u64) -> Key {
    let mut bytes = [0; 44];
    bytes[..43].fill(b'1');
    let mut left = number.wrapping_mul(0x9E37_79B9_7F4A_7C15);
    for digit in bytes.iter_mut().take(11) {
        *digit = BASE_58[(left % 58) as usize];
        left /= 58;
    }
    Key { bytes, len: 43 }
}

fn time_of(number: u64) -> u64 {
    number.wrapping_mul(617_429) % ENTRIES
}

fn main() {
    let mut queue: BTreeSet<(u64, Due)> = BTreeSet::new();
    let began = Instant::now();
    for i in 0..ENTRIES { queue.insert((time_of(i), Due::Membership(key_of(i % KEYS)))); }
    let planned = Instant::now();
    for i in 0..ENTRIES / 2 { queue.remove(&(time_of(2 * i), Due::Membership(key_of(2 * i % KEYS)))); }
    let cancelled = Instant::now();
    let mut taken = 0;
    let mut first = queue.iter().next().copied();
    while let Some(entry) = first {
        queue.remove(&entry);
        taken += 1;
        first = queue.range((Excluded(entry), Unbounded)).next().copied();
    }
    let ended = Instant::now();
    println!("{:.3} {:.3} {:.3} {}", (planned - began).as_secs_f64(), (cancelled - planned).as_secs_f64(), (ended - cancelled).as_secs_f64(), taken);
}
