//! The list of calls of the program `index_speed`, made on the Rust index: the same phases, units, sums and lines. See PERFORMANCE.md.

use std::hint::black_box;
use std::io::Read;
use understory_index::{Aabb2D, Index, Key};

type Payload = (u32, u32);

unsafe extern "C" {
    // C's processor time of the process, in microseconds: the clock of the other side.
    safe fn clock() -> i64;
}

fn place(i: u32, shift: f64) -> Aabb2D<f64> {
    let x = f64::from(i % 8) * 10.0 + shift;
    let y = f64::from(i / 8) * 10.0;
    Aabb2D::new(x, y, x + 15.0, y + 15.0)
}

fn shift(left: u32) -> f64 {
    f64::from(left % 2) + 1.0
}

fn x(k: u32) -> f64 {
    f64::from(k % 17) * 5.0
}

fn y(k: u32, height: f64) -> f64 {
    f64::from(k % 64) * height / 64.0
}

fn rect(k: u32, height: f64) -> Aabb2D<f64> {
    let (left, top) = (x(k), y(k, height));
    Aabb2D::new(left, top, left + 20.0, top + 20.0)
}

fn phase(name: &str, units: u64, work: impl FnOnce() -> u64) {
    let began = clock();
    let sum = work();
    let ended = clock();
    println!("{name} {units} {sum}");
    eprintln!("{name} {}", ended - began);
}

/// The first `n` entries, inserted; their keys go to `keys`.
fn insert(n: u32, keys: &mut Vec<Key>, sum: &mut u64) -> Index<f64, Payload> {
    let mut index = Index::new();
    keys.clear();
    for i in 0..n {
        keys.push(black_box(index.insert(place(i, 0.0), (i, 1))));
        *sum += 1;
    }
    index
}

fn commit(index: &mut Index<f64, Payload>, sum: &mut u64) {
    let damage = black_box(index.commit());
    *sum += (damage.added.len() + damage.removed.len() + damage.moved.len()) as u64;
}

fn update(index: &mut Index<f64, Payload>, keys: &[Key], shift: f64, sum: &mut u64) {
    for (i, key) in (0..512).zip(keys) {
        index.update(*key, place(i, shift));
        *sum += 1;
    }
    black_box(index);
}

fn fill_phases(rounds: u32) {
    let mut keys = Vec::with_capacity(512);
    phase("insert", 512, || {
        let mut sum = 0;
        for _ in 0..rounds {
            black_box(insert(512, &mut keys, &mut sum));
        }
        sum
    });
    phase("insert_commit", 512, || {
        let mut sum = 0;
        for _ in 0..rounds {
            let mut index = insert(512, &mut keys, &mut sum);
            commit(&mut index, &mut sum);
            black_box(index);
        }
        sum
    });
}

fn change_phases(rounds: u32) {
    let mut keys = Vec::with_capacity(512);
    let mut start = 0;
    let mut committed = || {
        start = 0;
        let mut index = insert(512, &mut keys, &mut start);
        commit(&mut index, &mut start);
        (index, keys.clone(), start)
    };
    let (mut index, keys, mut sum) = committed();
    phase("update", 512, || {
        for left in (1..=rounds).rev() {
            update(&mut index, &keys, shift(left), &mut sum);
        }
        sum
    });
    let (mut index, keys, mut sum) = committed();
    phase("update_commit_1", 512, || {
        for left in (1..=rounds).rev() {
            for (i, key) in (0..512).zip(&keys) {
                index.update(*key, place(i, shift(left)));
                commit(&mut index, &mut sum);
            }
        }
        sum
    });
    let (mut index, keys, mut sum) = committed();
    phase("update_commit_512", 512, || {
        for left in (1..=rounds).rev() {
            update(&mut index, &keys, shift(left), &mut sum);
            commit(&mut index, &mut sum);
        }
        sum
    });
}

/// Of a query's entries, 1 and the payload's index each.
fn entries(found: impl Iterator<Item = (Key, Payload)>) -> u64 {
    black_box(found).map(|(_, payload)| 1 + u64::from(payload.0)).sum()
}

fn query_phase(name: &str, n: u32, rounds: u32, query: impl Fn(&Index<f64, Payload>, u32, f64) -> u64) {
    let mut index = insert(n, &mut Vec::new(), &mut 0);
    commit(&mut index, &mut 0);
    let height = f64::from(n / 8) * 10.0;
    phase(name, 64, || {
        let mut sum = 0;
        for _ in 0..rounds {
            for k in 0..64 {
                sum += query(black_box(&index), k, height);
            }
        }
        sum
    });
}

fn main() {
    let mut input = String::new();
    std::io::stdin().read_to_string(&mut input).expect("standard input");
    let digits: String = input.chars().take_while(char::is_ascii_digit).take(4).collect();
    let rounds = digits.parse().unwrap_or(0).max(1);
    println!("rounds 1 {rounds}");
    fill_phases(rounds);
    change_phases(rounds);
    let point = |index: &Index<f64, Payload>, k, height| entries(index.query_point(x(k), y(k, height)));
    let area = |index: &Index<f64, Payload>, k, height| entries(index.query_rect(rect(k, height)));
    query_phase("point_64", 64, rounds, point);
    query_phase("point_512", 512, rounds, point);
    query_phase("rect_64", 64, rounds, area);
    query_phase("rect_512", 512, rounds, area);
}
