// The same with plain maps. `benches/indexes/run` builds it and runs it.
use std::collections::BTreeMap;
use std::ops::Bound::{Excluded, Included, Unbounded};
use std::time::Instant;

const KEYS: u64 = 20_000;
const CERTIFICATIONS: u64 = 1_000_000;
const BASE_58: &[u8] = b"123456789ABCDEFGHJKLMNPQRSTUVWXYZabcdefghijkmnopqrstuvwxyz";

#[derive(Clone, Copy, PartialEq, Eq, PartialOrd, Ord)]
struct Key { bytes: [u8; 44], len: u8 }

#[derive(Clone, Copy, PartialEq)]
#[allow(dead_code)]
struct CertRow { made: u64, written: u64, live: bool }

#[derive(Clone, Copy, PartialEq)]
#[allow(dead_code)]
struct IssuerRow { stock: u64, written: u64 }

#[derive(Default)]
struct Index {
    rows: BTreeMap<(Key, Option<Key>), CertRow>,
    received_by: BTreeMap<(Key, Option<Key>), ()>,
    issued_by: BTreeMap<(Key, Option<Key>), ()>,
    received: BTreeMap<Key, u64>,
    issuers: BTreeMap<Key, IssuerRow>,
}

impl Index {
    fn put(&mut self, from: Key, to: Key, row: CertRow) {
        self.rows.insert((from, Some(to)), row);
        self.received_by.insert((to, Some(from)), ());
        self.issued_by.insert((from, Some(to)), ());
        *self.received.entry(to).or_insert(0) += 1;
        let issuer = self.issuers.entry(from).or_insert(IssuerRow { stock: 0, written: 0 });
        issuer.stock += 1;
        issuer.written = issuer.written.max(row.written);
    }
    fn next_received(&self, to: Key, after: Option<Key>) -> Option<Key> {
        match self.received_by.range((Excluded((to, after)), Unbounded)).next() {
            Some(((owner, other), ())) if *owner == to => *other,
            _ => None,
        }
    }
    fn rows_of(&self, key: Key) -> Vec<(Key, Key, CertRow)> {
        let mut found = Vec::new();
        for ((owner, other), ()) in self.received_by.range((Included((key, None)), Unbounded)) {
            if *owner != key { break; }
            let from = other.unwrap();
            found.push((from, key, self.rows[&(from, Some(key))]));
        }
        for ((owner, other), ()) in self.issued_by.range((Included((key, None)), Unbounded)) {
            if *owner != key { break; }
            let to = other.unwrap();
            found.push((key, to, self.rows[&(key, Some(to))]));
        }
        found
    }
}

fn key_of(number: u64) -> Key {
    let mut bytes = [0; 44];
    bytes[..43].fill(b'1');
    let mut left = number.wrapping_mul(0x9E37_79B9_7F4A_7C15);
    for digit in bytes.iter_mut().take(11) {
        *digit = BASE_58[(left % 58) as usize];
        left /= 58;
    }
    Key { bytes, len: 43 }
}

fn main() {
    let mut index = Index::default();
    let began = Instant::now();
    for i in 0..CERTIFICATIONS {
        let from = i % KEYS;
        let to = (from + 1 + (i / KEYS) * 397) % KEYS;
        index.put(key_of(from), key_of(to), CertRow { made: i, written: i / KEYS, live: true });
    }
    let put = Instant::now();
    let mut walked = 0;
    for i in 0..KEYS {
        let mut after = None;
        while let Some(next) = index.next_received(key_of(i), after) {
            after = Some(next);
            walked += 1;
        }
    }
    let walks = Instant::now();
    let mut told = 0;
    for i in 0..KEYS { told += index.rows_of(key_of(i)).len(); }
    let ended = Instant::now();
    println!("{:.3} {:.3} {:.3} {} {}", (put - began).as_secs_f64(), (walks - put).as_secs_f64(), (ended - walks).as_secs_f64(), walked, told);
}
