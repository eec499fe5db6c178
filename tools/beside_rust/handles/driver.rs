//! Runs the same lists of calls on the Rust handle table and on ours, and compares every answer and every slot's meta
//! and handle after each call; then times both. Usage: driver compare | driver time | driver sample
#![allow(dead_code)]
extern crate alloc;

#[path = "handles.rs"]
mod handles;
mod prefetch {
    pub const ENABLED: bool = false;
    pub fn prefetch<T>(_: &T) {}
}

use handles::Table;
use std::time::Instant;

#[repr(C)]
#[derive(Clone, Copy)]
struct Op {
    hash: u64,
    kind: u32,
    place: u16,
}

#[link(name = "handles_c", kind = "static")]
unsafe extern "C" {
    fn handles_run(
        count: usize, more: usize, ops: *const Op, ops_len: usize, hashes: *const u64, hashes_len: usize,
        answers: *mut u64, answers_len: usize, metas: *mut u32, metas_len: usize, places: *mut u16, places_len: usize,
    ) -> usize;
    fn handles_time(kind: u32, count: usize, hashes: *const u64, hashes_len: usize, rounds: usize) -> u64;
}

struct Random(u64);

impl Random {
    fn next(&mut self) -> u64 {
        self.0 = self.0.wrapping_add(0x9E37_79B9_7F4A_7C15);
        let mut z = self.0;
        z = (z ^ (z >> 30)).wrapping_mul(0xBF58_476D_1CE4_E5B9);
        z = (z ^ (z >> 27)).wrapping_mul(0x94D0_49BB_1331_11EB);
        z ^ (z >> 31)
    }

    fn below(&mut self, n: u64) -> u64 {
        self.next() % n
    }
}

/// The hash of each place, by pattern: spread, clustered at few homes, equal, or round the ring's end.
fn hash_for(pattern: u64, n: u64, place: u64) -> u64 {
    let spread = Random(place.wrapping_mul(0x1234_5678_9ABC_DEF1)).next();
    match pattern {
        0 => spread,
        1 => (spread & 0xFF00_0000_0000_0000) | (spread % 5),
        2 => 0xAB00_0000_0000_0000 | (place % 3) << 20,
        3 => (spread & 0x0300_0000_0000_0000) | (n - 1 - spread % 4),
        _ => (spread & 0xFF00_0000_0000_0000) | (place % n),
    }
}

fn read_sum(table: &Table<u16>, hash: u64) -> u64 {
    table.get(hash).fold(0u64, |sum, place| sum.wrapping_mul(65599).wrapping_add(place as u64 + 1))
}

fn capacity_of(count: usize) -> usize {
    if [0, 16, 32, 64, 128, 256, 512, 1024, 2048, 4096].contains(&count) { count * 3 / 4 } else { 0 }
}

/// What the Rust answers, or what our refusals stand for where the Rust would grow or would make its own slots.
fn on_rust(table: &mut Table<u16>, op: Op, hashes: &[u64], more: usize) -> u64 {
    match op.kind {
        0 if table.len() == table.capacity() => 109,
        0 => {
            table.insert(op.hash, op.place, |p| hashes[p as usize]);
            1
        }
        1 => table.remove(op.hash, op.place) as u64,
        2 => {
            table.empty_all();
            0
        }
        4 => {
            let needed = table.len() + op.place as usize;
            if needed <= table.capacity() {
                table.reserve(op.place as usize, |p| hashes[p as usize]);
                0
            } else if !(more == 0 || (more >= 16 && more <= 4096 && more.is_power_of_two())) {
                110
            } else if needed > capacity_of(more) {
                111
            } else {
                assert_eq!(Table::<u16>::slots_wanted(needed), more);
                table.reserve(op.place as usize, |p| hashes[p as usize]);
                1
            }
        }
        _ => read_sum(table, op.hash),
    }
}

/// A list of calls that fills up and around full, with removals, reads, clears and one reservation.
fn calls(random: &mut Random, n: usize, pattern: u64, len: usize, reserves: bool, hashes: &[u64]) -> Vec<Op> {
    let mut ops = Vec::new();
    let places = (n as u64 * 2).max(8);
    for i in 0..len {
        let place = random.below(places) as u16;
        let other = random.below(places);
        let hash = if random.below(8) == 0 { hash_for(pattern, n as u64, other) } else { hashes[place as usize] };
        let dice = random.below(100);
        let growing = (i / (n + 1)) % 2 == 0;
        let kind = match dice {
            0..=44 if growing => 0,
            0..=19 => 0,
            20..=64 => 1,
            65..=98 => 3,
            _ if random.below(6) == 0 => 2,
            _ if reserves => 4,
            _ => 3,
        };
        let kind = if growing && kind == 1 && random.below(2) == 0 { 0 } else { kind };
        let place = if kind == 4 { random.below(n as u64 / 2 + 1) as u16 } else { place };
        ops.push(Op { hash, kind, place });
    }
    ops
}

fn main() {
    match std::env::args().nth(1).as_deref() {
        Some("compare") => compare(),
        Some("time") => time(),
        Some("sample") => sample(),
        _ => eprintln!("usage: driver compare|time|sample"),
    }
}

fn compare() {
    let mut random = Random(7);
    let (mut total, mut differences, mut slots_seen) = (0usize, 0usize, 0usize);
    let mut kinds = [0usize; 5];
    let mut answers_seen = std::collections::BTreeMap::new();
    for n in [16usize, 32, 64, 128, 256, 512, 1024, 2048, 4096] {
        let len = (n * 3).min(5000);
        let runs = (28_000 / len).max(5);
        for run in 0..runs {
            let pattern = run as u64 % 5;
            let hashes: Vec<u64> = (0..65536u64).map(|p| hash_for(pattern, n as u64, p)).collect();
            // Brought slots: the next size, one that is not allowed, or one that is too small.
            let more = match run % 4 {
                0 | 1 => (n * 2).min(4096),
                2 => 24,
                _ => 16,
            };
            let ops = calls(&mut random, n, pattern, len, n * 2 <= 4096 || more < n, &hashes);
            let room = len * n.max(more);
            let mut answers = vec![0u64; len];
            let mut metas = vec![0u32; room];
            let mut places = vec![0u16; room];
            let written = unsafe {
                handles_run(n, more, ops.as_ptr(), len, hashes.as_ptr(), hashes.len(), answers.as_mut_ptr(), len,
                    metas.as_mut_ptr(), room, places.as_mut_ptr(), room)
            };
            let mut table = Table::<u16>::with_capacity(n * 3 / 4);
            assert_eq!(table.slot_count(), n);
            let mut brought = more;
            let mut at = 0;
            for (i, op) in ops.iter().enumerate() {
                let before = table.slot_count();
                let expected = on_rust(&mut table, *op, &hashes, brought);
                if op.kind == 4 && expected == 1 {
                    brought = before;
                }
                let mut same = expected == answers[i];
                for (meta, place) in table.shot() {
                    same &= metas[at] == meta && places[at] == place;
                    at += 1;
                }
                slots_seen += table.slot_count();
                kinds[op.kind as usize] += 1;
                *answers_seen.entry((op.kind, if op.kind == 3 { (expected > 0) as u64 } else { expected })).or_insert(0usize) += 1;
                total += 1;
                if !same {
                    differences += 1;
                    if differences < 5 {
                        println!("difference: slots {n} run {run} call {i} kind {} expected {expected} answered {}", op.kind, answers[i]);
                    }
                }
            }
            assert_eq!(at, written);
        }
    }
    println!("{total} calls, {slots_seen} slots compared, {differences} differences");
    println!("calls by kind (insert, remove, clear, get, reserve): {kinds:?}");
    println!("calls by kind and answer (get: 0 nothing read, 1 something): {answers_seen:?}");
}

fn time() {
    println!("slots load insert_ns rust_ns ratio remove_ns rust_ns ratio get_ns rust_ns ratio");
    for n in [64usize, 1024, 4096] {
        for (name, load) in [("half", n * 3 / 8), ("full", n * 3 / 4)] {
            let mut random = Random(n as u64);
            let hashes: Vec<u64> = (0..load).map(|_| random.next()).collect();
            let rounds = 8_000_000 / load;
            let per = |seconds: f64| seconds * 1e9 / (rounds * load) as f64;
            let ours = |kind: u32| {
                let best = (0..5)
                    .map(|_| {
                        let start = Instant::now();
                        std::hint::black_box(unsafe { handles_time(kind, n, hashes.as_ptr(), load, rounds) });
                        start.elapsed().as_secs_f64()
                    })
                    .fold(f64::MAX, f64::min);
                per(best)
            };
            let theirs = |kind: u32| {
                let best = (0..5)
                    .map(|_| {
                        let start = Instant::now();
                        std::hint::black_box(rust_time(kind, n, &hashes, rounds));
                        start.elapsed().as_secs_f64()
                    })
                    .fold(f64::MAX, f64::min);
                per(best)
            };
            // An insertion is a clear and a fill less the clear; a removal is a drain and a fill less the fill.
            let (clear, get) = (ours(3), ours(2));
            let (rust_clear, rust_get) = (theirs(3), theirs(2));
            let (fill, rust_fill) = (ours(0) - clear, theirs(0) - rust_clear);
            let (remove, rust_remove) = (ours(1) - fill, theirs(1) - rust_fill);
            println!(
                "{n} {name} {fill:.2} {rust_fill:.2} {:.2} {remove:.2} {rust_remove:.2} {:.2} {get:.2} {rust_get:.2} {:.2}",
                fill / rust_fill, remove / rust_remove, get / rust_get
            );
        }
    }
}

fn rust_time(kind: u32, n: usize, hashes: &[u64], rounds: usize) -> u64 {
    let mut table = Table::<u16>::with_capacity(n * 3 / 4);
    let fill = |table: &mut Table<u16>| {
        for hash in hashes {
            table.insert(*hash, *hash as u16, |_| 0);
        }
    };
    let mut sum = 0u64;
    fill(&mut table);
    for _ in 0..rounds {
        match kind {
            0 => {
                table.empty_all();
                fill(&mut table);
            }
            1 => {
                for hash in hashes {
                    let _ = table.remove(*hash, *hash as u16);
                }
                fill(&mut table);
            }
            2 => {
                for hash in hashes {
                    sum = sum.wrapping_add(read_sum(&table, *hash));
                }
            }
            _ => std::hint::black_box(&mut table).empty_all(),
        }
    }
    sum.wrapping_add(table.len() as u64)
}

/// Writes calls with the Rust's answers and its slots' sums as a source file of the replay.
fn sample() {
    let n = 16;
    let mut random = Random(3);
    let mut steps = Vec::new();
    for pattern in 0..4u64 {
        let hashes: Vec<u64> = (0..65536u64).map(|p| hash_for(pattern, n as u64, p)).collect();
        let mut table = Table::<u16>::with_capacity(n * 3 / 4);
        steps.push((Op { hash: 0, kind: 2, place: 0 }, 0, slots_sum(&table)));
        for op in calls(&mut random, n, pattern, 60, false, &hashes) {
            let answer = on_rust(&mut table, op, &hashes, 0);
            steps.push((op, answer, slots_sum(&table)));
        }
    }
    println!("use crate::Step;\nuse handles::TableRefusal;\nuse handles_calls::{{Answer, Call}};\n");
    println!("/// Calls on a table of 16 slots, with the Rust's answers and the sums of its slots; a clear begins each list.");
    println!("pub const STEPS: [Step; {}] = [", steps.len());
    for (op, answer, slots) in steps {
        let (call, answer) = as_values(op, answer, n * 3 / 4);
        println!("    Step {{ call: {call}, answer: {answer}, slots: {slots} }},");
    }
    println!("];");
}

/// A call and its answer as the replay's source has them.
fn as_values(op: Op, answer: u64, capacity: usize) -> (String, String) {
    let Op { hash, kind, place } = op;
    match (kind, answer) {
        (0, 1) => (format!("Call::Insert {{ hash: {hash}, place: {place} }}"), "Answer::Inserted(Ok(()))".into()),
        (0, 109) => (
            format!("Call::Insert {{ hash: {hash}, place: {place} }}"),
            format!("Answer::Inserted(Err(TableRefusal::Full {{ capacity: {capacity} }}))"),
        ),
        (1, _) => (format!("Call::Remove {{ hash: {hash}, place: {place} }}"), format!("Answer::Removed({})", answer == 1)),
        (2, _) => ("Call::Clear".into(), "Answer::Cleared".into()),
        (3, _) => (format!("Call::Read {{ hash: {hash} }}"), format!("Answer::Read({answer})")),
        _ => panic!("no call of kind {kind} answers {answer}"),
    }
}

fn slots_sum(table: &Table<u16>) -> u64 {
    table.shot().iter().fold(0u64, |sum, (meta, place)| {
        let held = if *meta == u32::MAX { 0 } else { *place as u64 + 1 };
        sum.wrapping_mul(65599).wrapping_add(*meta as u64).wrapping_mul(65599).wrapping_add(held)
    })
}
