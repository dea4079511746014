//! What `main.rt.txt` does, in plain Rust: the measures in order, each with its key, and a queue of the old values, divided by
//! marks.
use std::collections::{BTreeSet, VecDeque};
use std::time::Instant;

const KEYS: u64 = 10_000;
const CHANGES: u64 = 1_000;
const MARKS: u64 = 100;

#[derive(Default)]
struct Table {
    values: Vec<Option<u64>>,
    order: BTreeSet<(u128, usize)>,
    // each change since the first mark: the key, and what it had before
    journal: VecDeque<(usize, Option<u64>)>,
    // how many changes come after each mark
    marks: VecDeque<usize>,
}

impl Table {
    fn put(&mut self, key: usize, value: Option<u64>) -> Option<u64> {
        if self.values.len() <= key {
            self.values.resize(key + 1, None);
        }
        let before = std::mem::replace(&mut self.values[key], value);
        if let Some(old) = before {
            self.order.remove(&(u128::from(old), key));
        }
        if let Some(new) = value {
            self.order.insert((u128::from(new), key));
        }
        before
    }

    fn set(&mut self, key: usize, value: Option<u64>) {
        let before = self.put(key, value);
        if let Some(count) = self.marks.back_mut() {
            self.journal.push_back((key, before));
            *count += 1;
        }
    }

    fn back(&mut self) {
        let count = self.marks.pop_back().expect("a mark");
        for _ in 0..count {
            let (key, before) = self.journal.pop_back().expect("a change");
            self.put(key, before);
        }
    }

    fn lowest_key(&self) -> u64 {
        self.order.first().map_or(0, |found| found.1 as u64)
    }
}

fn next(number: u64) -> u64 {
    number.wrapping_mul(6_364_136_223_846_793_005).wrapping_add(1_442_695_040_888_963_407)
}

fn main() {
    let mut table = Table::default();
    let mut number = 1;
    let began = Instant::now();
    for key in 0..KEYS {
        number = next(number);
        table.set(key as usize, Some(number >> 20));
    }
    let filled = Instant::now();
    let mut changed_sum = 0u64;
    for _ in 0..MARKS {
        table.marks.push_back(0);
        for _ in 0..CHANGES {
            number = next(number);
            let key = ((number >> 33) % KEYS) as usize;
            table.set(key, Some(number >> 20));
            changed_sum = changed_sum.wrapping_add(table.lowest_key());
        }
    }
    let changed = Instant::now();
    let mut undone_sum = 0u64;
    while !table.marks.is_empty() {
        table.back();
        undone_sum = undone_sum.wrapping_add(table.lowest_key());
    }
    let ended = Instant::now();
    let fill = filled.duration_since(began).as_secs_f64();
    let change = changed.duration_since(filled).as_secs_f64();
    let back = ended.duration_since(changed).as_secs_f64();
    println!("{fill:.5} {change:.5} {back:.6} {changed_sum} {undone_sum}");
}
