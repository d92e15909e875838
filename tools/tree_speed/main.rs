//! The list of calls of the program `tree_speed`, made on the Rust tree: the same phases, sums and lines. See PERFORMANCE.md.

use std::hint::black_box;
use std::io::Read;

use kurbo::{Affine, Insets, Point, Rect, RoundedRect};

use crate::tree::{QueryFilter, Tree};
use crate::types::{LocalNode, NodeFlags, NodeId};

unsafe extern "C" {
    // C's processor time of the process, in microseconds: the clock of the other side.
    safe fn clock() -> i64;
}

fn parent(i: u32) -> Option<NodeId> {
    if i == 0 { None } else { Some(NodeId((i - 1) / 8, 1)) }
}

fn bounds(k: u32) -> Rect {
    let shift = f64::from(k % 2);
    Rect::new(shift, 0.0, shift + 15.0, 15.0)
}

fn moved(x: u32, y: u32) -> Affine {
    Affine::new([1.0, 0.0, 0.0, 1.0, f64::from(x), f64::from(y)])
}

fn clip(i: u32) -> Option<RoundedRect> {
    match i % 4 {
        1 => Some(RoundedRect::new(-100.0, -100.0, 100.0, 100.0, 0.0)),
        2 => Some(RoundedRect::new(-100.0, -100.0, 100.0, 100.0, 5.0)),
        _ => None,
    }
}

fn local(i: u32) -> LocalNode {
    LocalNode {
        local_bounds: bounds(0),
        hit_slop: Insets::uniform(1.0),
        local_transform: moved(i % 8 * 10, i / 8 % 8 * 10),
        local_clip: clip(i),
        z_index: 0,
        flags: NodeFlags::from_bits_retain(3),
    }
}

fn point(k: u32) -> Point {
    Point::new(f64::from(k % 17 * 8), f64::from(k % 13 * 8))
}

fn rect(k: u32) -> Rect {
    let p = point(k);
    Rect::new(p.x, p.y, p.x + 20.0, p.y + 20.0)
}

fn filter() -> QueryFilter {
    QueryFilter { required_flags: NodeFlags::from_bits_retain(3) }
}

fn node(id: NodeId) -> u64 {
    u64::from(id.0) + 1
}

fn filled(n: u32, sum: &mut u64) -> Tree {
    let mut t = Tree::new();
    for i in 0..n {
        *sum += node(black_box(t.insert(parent(i), local(i))));
    }
    t
}

fn committed(n: u32) -> Tree {
    let mut t = filled(n, &mut 0);
    t.commit();
    t
}

fn damage(t: &mut Tree) -> u64 {
    black_box(t.commit()).dirty_rects.len() as u64
}

fn phase(name: &str, n: u32, calls: u32, work: impl FnOnce() -> u64) {
    let began = clock();
    let sum = work();
    let ended = clock();
    println!("{name} {n} {sum}");
    eprintln!("{name} {n} {calls} {}", ended - began);
}

/// The same call for each number from `calls` down to 1, on a tree of `n` committed nodes.
fn calls(name: &str, n: u32, calls: u32, mut call: impl FnMut(&mut Tree, u32) -> u64) {
    let mut t = committed(n);
    phase(name, n, calls, || (1..=calls).rev().map(|k| call(black_box(&mut t), k)).sum());
}

fn all(n: u32, rounds: u32) {
    phase("inserts", n, rounds, || {
        let mut sum = 0;
        for _ in 0..rounds {
            black_box(filled(n, &mut sum));
        }
        sum
    });
    let leaf = NodeId(n - 1, 1);
    let root = NodeId(0, 1);
    let count = rounds * 64;
    calls("setter", n, count, |t, k| {
        t.set_local_bounds(leaf, bounds(k));
        1
    });
    calls("setter_commit", n, count, |t, k| {
        t.set_local_bounds(leaf, bounds(k));
        damage(t)
    });
    calls("root", n, count, |t, k| {
        t.set_local_transform(root, moved(k % 2, 0));
        1
    });
    calls("root_commit", n, count, |t, k| {
        t.set_local_transform(root, moved(k % 2, 0));
        damage(t)
    });
    let mut last = leaf;
    calls("remove_insert_commit", n, count, |t, _| {
        t.remove(last);
        last = t.insert(parent(n - 1), local(n - 1));
        node(last) + damage(t)
    });
    calls("is_alive", n, count, |t, k| u64::from(t.is_alive(NodeId(k % n, 1))));
    calls("tap", n, count, |t, k| match black_box(t.hit_test_point(point(k), filter())) {
        None => 0,
        Some(hit) => node(hit.node) + hit.path.len() as u64,
    });
    calls("point", n, count, |t, k| t.containing_point(point(k), filter()).count() as u64);
    calls("rect", n, count, |t, k| t.intersect_rect(rect(k), filter()).count() as u64);
}

pub fn main() {
    let mut input = String::new();
    std::io::stdin().read_to_string(&mut input).expect("standard input");
    let digits: String = input.chars().take_while(char::is_ascii_digit).take(4).collect();
    let rounds = digits.parse().unwrap_or(0).max(1);
    for n in [16, 64, 256] {
        all(n, rounds);
    }
}
