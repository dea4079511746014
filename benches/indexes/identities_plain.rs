// The same with plain maps. `benches/indexes/run` builds it and runs it.
use std::collections::{BTreeMap, BTreeSet};
use std::ops::Bound::{Excluded, Unbounded};
use std::time::Instant;

const IDENTITIES: u64 = 1_000_000;
const BASE_58: &[u8] = b"123456789ABCDEFGHJKLMNPQRSTUVWXYZabcdefghijkmnopqrstuvwxyz";
const EMPTY_HASH: &[u8; 64] = b"E3B0C44298FC1C149AFBF4C8996FB92427AE41E4649B934CA495991B7852B855";

#[derive(Clone, Copy, PartialEq, Eq, PartialOrd, Ord)]
struct Text<const CAP: usize> {
    bytes: [u8; CAP],
    len: u8,
}

impl<const CAP: usize> Text<CAP> {
    fn of(text: &[u8]) -> Self {
        let mut bytes = [0; CAP];
        bytes[..text.len()].copy_from_slice(text);
        Text { bytes, len: text.len() as u8 }
    }
}

type Key = Text<44>;
type Uid = Text<100>;

#[derive(Clone, Copy)]
#[allow(dead_code)]
struct Row {
    uid: Uid,
    number: u64,
    hash: Text<64>,
    sig: Text<88>,
    written: u64,
    member: bool,
}

fn mixed(i: u64) -> u64 {
    i.wrapping_mul(0x9E37_79B9_7F4A_7C15)
}

fn key_of(number: u64) -> Option<Key> {
    let mut text = [b'1'; 43];
    let mut left = number;
    for digit in text.iter_mut().take(11) {
        *digit = BASE_58[(left % 58) as usize];
        left /= 58;
    }
    text.iter().all(|c| matches!(*c, b'1'..=b'9' | b'A'..=b'H' | b'J'..=b'N' | b'P'..=b'Z' | b'a'..=b'k' | b'm'..=b'z')).then(|| Key::of(&text))
}

fn uid_of(number: u64) -> Option<Uid> {
    let mut text = [b'a'; 16];
    let mut left = number;
    for digit in text.iter_mut() {
        *digit = b'a' + (left % 16) as u8;
        left /= 16;
    }
    text.iter().all(|c| matches!(*c, b'0'..=b'9' | b'A'..=b'Z' | b'a'..=b'z' | b'_' | b'-')).then(|| Uid::of(&text))
}

fn main() {
    let mut rows: BTreeMap<Key, Row> = BTreeMap::new();
    let mut uids: BTreeMap<Uid, Key> = BTreeMap::new();
    let mut members: BTreeSet<Key> = BTreeSet::new();
    let began = Instant::now();
    for i in 0..IDENTITIES {
        let (key, uid) = (key_of(mixed(i)).unwrap(), uid_of(mixed(i)).unwrap());
        let row = Row { uid, number: 0, hash: Text::of(EMPTY_HASH), sig: Text::of(&[b'A'; 88]), written: i, member: i % 2 == 0 };
        rows.insert(key, row);
        uids.insert(uid, key);
        if row.member {
            members.insert(key);
        }
    }
    let put = began.elapsed();
    let at = Instant::now();
    let by_key = (0..IDENTITIES).filter(|i| rows.get(&key_of(mixed(*i)).unwrap()).is_some_and(|row| row.written == *i)).count();
    let keys = at.elapsed();
    let at = Instant::now();
    let by_uid = (0..IDENTITIES).filter(|i| uids.contains_key(&uid_of(mixed(*i)).unwrap())).count();
    let names = at.elapsed();
    let at = Instant::now();
    let mut walked = 0;
    let mut after = None;
    loop {
        let next = match after {
            None => members.iter().next(),
            Some(key) => members.range((Excluded(key), Unbounded)).next(),
        };
        let Some(key) = next else { break };
        after = Some(*key);
        walked += 1;
    }
    let walk = at.elapsed();
    println!("{:.3} {:.3} {:.3} {:.3} {by_key} {by_uid} {walked}", put.as_secs_f64(), keys.as_secs_f64(), names.as_secs_f64(), walk.as_secs_f64());
}
