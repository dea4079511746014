// The same with plain maps, one journal of old values, and 100 marks. `benches/indexes/run` builds it and runs it.
use std::collections::{BTreeMap, HashMap, VecDeque};
use std::time::Instant;

type Id = (u8, [u8; 64], u64);

#[derive(Clone, Copy, PartialEq)]
struct Row { amount: u64, base: u8, account: usize, made_at: u64, order: u64 }

#[derive(Clone, Copy, PartialEq)]
struct Balance { units: u128, count: usize }

enum Old { Source(Id, Option<Row>), Place((usize, u64), Option<Id>), Balance(usize, Option<Balance>), Order((u128, usize), bool) }

#[derive(Default)]
struct Index {
    sources: BTreeMap<Id, Row>,
    places: BTreeMap<(usize, u64), Id>,
    balances: BTreeMap<usize, Balance>,
    order: BTreeMap<(u128, usize), ()>,
    journal: VecDeque<Old>,
    marks: VecDeque<usize>,
}

impl Index {
    fn note(&mut self, old: Old) {
        if let Some(last) = self.marks.back_mut() { *last += 1; self.journal.push_back(old); }
    }
    fn set_source(&mut self, k: Id, v: Option<Row>) {
        let old = match v { Some(v) => self.sources.insert(k, v), None => self.sources.remove(&k) };
        self.note(Old::Source(k, old));
    }
    fn set_place(&mut self, k: (usize, u64), v: Option<Id>) {
        let old = match v { Some(v) => self.places.insert(k, v), None => self.places.remove(&k) };
        self.note(Old::Place(k, old));
    }
    fn set_balance(&mut self, k: usize, v: Option<Balance>) {
        let old = match v { Some(v) => self.balances.insert(k, v), None => self.balances.remove(&k) };
        self.note(Old::Balance(k, old));
    }
    fn set_order(&mut self, k: (u128, usize), v: bool) {
        let old = if v { self.order.insert(k, ()) } else { self.order.remove(&k) };
        self.note(Old::Order(k, old.is_some()));
    }
    fn mov(&mut self, account: usize, before: Option<Balance>, after: Option<Balance>) {
        if before.map(|b| b.units) != after.map(|b| b.units) {
            if let Some(b) = before { self.set_order((b.units, account), false); }
            if let Some(b) = after { self.set_order((b.units, account), true); }
        }
        self.set_balance(account, after);
    }
    fn make(&mut self, id: Id, row: Row) {
        let before = self.balances.get(&row.account).copied();
        let units = row.amount as u128 * 10u128.pow(row.base as u32);
        let after = match before { Some(b) => Balance { units: b.units + units, count: b.count + 1 }, None => Balance { units, count: 1 } };
        self.set_source(id, Some(row));
        self.set_place((row.account, row.order), Some(id));
        self.mov(row.account, before, Some(after));
    }
    fn spend(&mut self, id: Id) {
        let Some(row) = self.sources.get(&id).copied() else { return };
        let before = self.balances.get(&row.account).copied();
        let units = row.amount as u128 * 10u128.pow(row.base as u32);
        let after = before.and_then(|b| if b.count == 1 { None } else { Some(Balance { units: b.units - units, count: b.count - 1 }) });
        self.set_source(id, None);
        self.set_place((row.account, row.order), None);
        self.mov(row.account, before, after);
    }
    fn drop_oldest(&mut self) {
        if let Some(n) = self.marks.pop_front() { self.journal.drain(..n); }
    }
}

fn main() {
    let mut index = Index::default();
    let hashes: Vec<[u8; 64]> = (0..1000u64).map(|i| { let mut h = [b'0'; 64]; let mut x = i.wrapping_mul(0x9E3779B97F4A7C15) ^ 0x1234567; for c in h.iter_mut() { x ^= x << 13; x ^= x >> 7; x ^= x << 17; *c = b"0123456789ABCDEF"[(x % 16) as usize]; } h }).collect();
    let id = |n: u64| -> Id { (1, hashes[(n / 1000 % 1000) as usize], n % 1000) };
    let row = |n: u64, order: u64| Row { amount: n % 1000, base: 0, account: n as usize % 100_000, made_at: order, order };
    let t0 = Instant::now();
    let mut accounts: HashMap<Vec<u8>, usize> = HashMap::new();
    for i in 0..100_000usize { let n = accounts.len(); accounts.entry(format!("CLTV({})", i + 1).into_bytes()).or_insert(n); }
    let t1 = Instant::now();
    for n in 0..1_000_000u64 { index.make(id(n), row(n, n)); }
    let t2 = Instant::now();
    let mut units = 0u128;
    for turn in 0..3u64 {
        for n in 0..1_000_000u64 {
            if n % 10_000 == 0 {
                if index.marks.len() == 100 { index.drop_oldest(); }
                index.marks.push_back(0);
            }
            index.spend(id(n));
            units += index.balances.get(&(n as usize % 100_000)).map_or(0, |b| b.units);
            index.make(id(n), row(n, (turn + 1) * 1_000_000 + n));
        }
    }
    let t3 = Instant::now();
    println!("{:.3} {:.3} {:.3} {} {}", (t1 - t0).as_secs_f64(), (t2 - t1).as_secs_f64(), (t3 - t2).as_secs_f64(), units, accounts.len() + index.journal.len() * 0);
    let mut check = 0u64;
    for o in &index.journal { if let Old::Order(_, true) = o { check += 1 } }
    eprintln!("{check}");
}
