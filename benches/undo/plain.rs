//! What `main.rt.txt` does, in plain Rust: a map, and a queue of the old values, divided by marks. In the first four a key whose
//! value was taken away stays in the map; in the last three it leaves the map.
use std::collections::{BTreeMap, HashMap, VecDeque};
use std::env;
use std::ops::Bound::{Excluded, Included, Unbounded};
use std::time::Instant;

const KEYS: usize = 1_000_000;
const MARKS: usize = 20_000;
const KEPT: usize = 100;
const REMOVALS: usize = 100;
const NEW_KEYS: usize = 1_000;
const ROUNDS: usize = 10_000;
const FEW_KEYS: usize = 200_000;
const FEW_MARKS: usize = 1_000;
const WRITES: usize = 1_000;
const APART: usize = 612_347;

/// What has a value at some keys.
trait Rows: Default {
    fn get(&self, key: usize) -> Option<usize>;

    /// Gives the key a value or none, and answers what it had.
    fn put(&mut self, key: usize, value: Option<usize>) -> Option<usize>;
}

/// A map that keeps every key.
type Keeping = BTreeMap<usize, Option<usize>>;

impl Rows for Keeping {
    fn get(&self, key: usize) -> Option<usize> {
        self.get(&key).copied().flatten()
    }

    fn put(&mut self, key: usize, value: Option<usize>) -> Option<usize> {
        self.insert(key, value).flatten()
    }
}

impl Rows for BTreeMap<usize, usize> {
    fn get(&self, key: usize) -> Option<usize> {
        self.get(&key).copied()
    }

    fn put(&mut self, key: usize, value: Option<usize>) -> Option<usize> {
        match value {
            Some(value) => self.insert(key, value),
            None => self.remove(&key),
        }
    }
}

impl Rows for Vec<Option<usize>> {
    fn get(&self, key: usize) -> Option<usize> {
        self.as_slice().get(key).copied().flatten()
    }

    fn put(&mut self, key: usize, value: Option<usize>) -> Option<usize> {
        if self.len() <= key {
            self.resize(key + 1, None);
        }
        std::mem::replace(&mut self[key], value)
    }
}

impl Rows for HashMap<usize, usize> {
    fn get(&self, key: usize) -> Option<usize> {
        self.get(&key).copied()
    }

    fn put(&mut self, key: usize, value: Option<usize>) -> Option<usize> {
        match value {
            Some(value) => self.insert(key, value),
            None => self.remove(&key),
        }
    }
}

#[derive(Default)]
struct Table<R> {
    rows: R,
    // each change since the first mark: the key, and what it had before
    journal: VecDeque<(usize, Option<usize>)>,
    // how many changes come after each mark
    marks: VecDeque<usize>,
}

impl<R: Rows> Table<R> {
    fn filled(keys: usize) -> Table<R> {
        let mut table = Table::default();
        for i in 0..keys {
            table.set(i, Some(i));
        }
        table
    }

    fn set(&mut self, key: usize, value: Option<usize>) {
        let old = self.rows.put(key, value);
        if let Some(count) = self.marks.back_mut() {
            self.journal.push_back((key, old));
            *count += 1;
        }
    }

    fn mark(&mut self) {
        self.marks.push_back(0);
    }

    fn back(&mut self) {
        let count = self.marks.pop_back().expect("a mark");
        for _ in 0..count {
            let (key, old) = self.journal.pop_back().expect("a change");
            self.rows.put(key, old);
        }
    }

    fn drop_oldest(&mut self) {
        let count = self.marks.pop_front().expect("a mark");
        self.journal.drain(..count);
    }

    // Keeps the state as it is now; the oldest is forgotten where as many are kept as there may be.
    fn keep(&mut self) {
        if self.marks.len() >= KEPT {
            self.drop_oldest();
        }
        self.mark();
    }

    fn mark_and_set(&mut self, marks: usize, writes: usize, apart: usize) {
        let mut key = 0;
        for _ in 0..marks {
            self.mark();
            for _ in 0..writes {
                self.set(key, Some(0));
                key = (key + apart) % KEYS;
            }
        }
    }

    fn go_back(&mut self, marks: usize) {
        for _ in 0..marks {
            self.back();
        }
    }

    fn turn_over(&mut self, first: usize, rounds: usize) {
        for round in 0..rounds {
            self.keep();
            let first = first + round * NEW_KEYS;
            for i in first..first + NEW_KEYS {
                self.set(i, Some(i));
            }
            for i in first..first + NEW_KEYS {
                self.set(i, None);
            }
        }
    }

    fn is_filled(&self, keys: usize) -> bool {
        (0..keys).all(|i| self.rows.get(i) == Some(i))
    }
}

impl Table<Keeping> {
    fn next_from(&self, key: usize) -> Option<usize> {
        let mut rows = self.rows.range((Included(key), Unbounded));
        rows.find(|row| row.1.is_some()).map(|row| *row.0)
    }

    fn next_after(&self, key: Option<usize>) -> Option<usize> {
        let mut rows = self.rows.range((key.map_or(Unbounded, Excluded), Unbounded));
        rows.find(|row| row.1.is_some()).map(|row| *row.0)
    }
}

// The seconds since the last one.
fn lap(last: &mut Instant) -> f64 {
    let seconds = last.elapsed().as_secs_f64();
    *last = Instant::now();
    seconds
}

fn time_moves() {
    let mut last = Instant::now();
    let mut table = Table::<Keeping>::filled(KEYS);
    let fill = lap(&mut last);
    table.mark_and_set(MARKS, 1, 1);
    let mark = lap(&mut last);
    table.go_back(MARKS);
    let back = lap(&mut last);
    println!("{fill:.5} {mark:.5} {back:.5} {}", table.is_filled(KEYS));
}

fn time_drains() {
    for n in [10_000, 20_000, 40_000] {
        let mut table = Table::<Keeping>::filled(n);
        let mut last = Instant::now();
        for i in 0..n {
            if i % REMOVALS == 0 {
                table.keep();
            }
            let key = table.next_after(None).expect("a key");
            table.set(key, None);
        }
        let front = lap(&mut last);
        let mut table = Table::<Keeping>::filled(n);
        let mut last = Instant::now();
        let mut from = 0;
        for i in 0..n {
            if i % REMOVALS == 0 {
                table.keep();
            }
            from = table.next_from(from).expect("a key");
            table.set(from, None);
        }
        println!("{n} {front:.5} {:.5}", lap(&mut last));
    }
}

fn time_turnover() {
    let mut table = Table::<Keeping>::default();
    let mut last = Instant::now();
    table.turn_over(0, ROUNDS);
    println!("{:.5} {}", lap(&mut last), table.next_after(None).is_none());
}

fn time_fill() {
    let mut last = Instant::now();
    let table = Table::<Keeping>::filled(FEW_KEYS);
    println!("{:.5} {}", lap(&mut last), table.is_filled(FEW_KEYS));
}

fn time_finder<R: Rows>() {
    let mut last = Instant::now();
    let mut table = Table::<R>::filled(KEYS);
    let fill = lap(&mut last);
    table.mark_and_set(FEW_MARKS, WRITES, 1);
    let set = lap(&mut last);
    table.go_back(FEW_MARKS);
    let back = lap(&mut last);
    table.mark_and_set(FEW_MARKS, WRITES, APART);
    let set_apart = lap(&mut last);
    table.go_back(FEW_MARKS);
    let back_apart = lap(&mut last);
    table.turn_over(KEYS, FEW_MARKS);
    let forget = lap(&mut last);
    let same = table.is_filled(KEYS);
    println!("{fill:.5} {set:.5} {back:.5} {set_apart:.5} {back_apart:.5} {forget:.5} {same}");
}

fn main() {
    match env::args().nth(1).as_deref() {
        Some("moves") => time_moves(),
        Some("drain") => time_drains(),
        Some("turnover") => time_turnover(),
        Some("fill") => time_fill(),
        Some("order") => time_finder::<BTreeMap<usize, usize>>(),
        Some("number") => time_finder::<Vec<Option<usize>>>(),
        Some("hash") => time_finder::<HashMap<usize, usize>>(),
        _ => panic!("usage: plain moves | drain | turnover | fill | order | number | hash"),
    }
}
