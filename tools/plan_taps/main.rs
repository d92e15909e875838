//! Plan sheets beside the Rust tree. `answer` reads a sheet on standard input and prints its taps' answers from the Rust tree; the sheet is
//! read as document 01 says. `sheets SEED COUNT FOLDER` writes random sheets, sound and damaged, one file each.

use std::fmt::Write as _;
use std::io::{self, Read as _, Write as _};

use kurbo::{Affine, Insets, Point, Rect, RoundedRect};

use crate::tree::{QueryFilter, Tree};
use crate::types::{LocalNode, NodeFlags, NodeId};

// ---- the sheet

/// A refusal and its line.
struct Refused(u32, usize);

struct Lines<'a> {
    rest: &'a [u8],
    line: usize,
}

/// A whole number of any length: its value where it is within ±10^17, else beyond every range.
fn number(word: &[u8]) -> Option<i64> {
    let (negative, digits) = match word {
        [b'-', digits @ ..] => (true, digits),
        digits => (false, digits),
    };
    if digits == b"0" {
        return (!negative).then_some(0);
    }
    if !matches!(digits.first(), Some(b'1'..=b'9')) || !digits.iter().all(u8::is_ascii_digit) {
        return None;
    }
    let size = if digits.len() > 17 { i64::MAX } else { digits.iter().fold(0, |n, d| n * 10 + i64::from(d - b'0')) };
    Some(if negative { -size } else { size })
}

impl Lines<'_> {
    fn next<const N: usize>(&mut self) -> Result<[i64; N], Refused> {
        self.line += 1;
        let bad = || Refused(21, self.line);
        let end = self.rest.iter().position(|&b| b == b'\n').ok_or_else(bad)?;
        let (line, rest) = (&self.rest[..end], &self.rest[end + 1..]);
        self.rest = rest;
        let mut row = [0; N];
        let mut words = line.split(|&b| b == b' ');
        for place in &mut row {
            *place = words.next().and_then(number).ok_or_else(bad)?;
        }
        if words.next().is_some() {
            return Err(bad());
        }
        Ok(row)
    }

    fn refuse<T>(&self, number: u32) -> Result<T, Refused> {
        Err(Refused(number, self.line))
    }

    fn count(&mut self, most: usize) -> Result<usize, Refused> {
        let [n] = self.next()?;
        if n < 0 || n > most as i64 {
            return self.refuse(22);
        }
        Ok(n as usize)
    }
}

fn coordinates(numbers: &[i64]) -> bool {
    numbers.iter().all(|n| (-1_000_000..=1_000_000).contains(n))
}

type Sheet = (Vec<[i64; 11]>, Vec<[i64; 6]>, Vec<[i64; 3]>);

fn read(bytes: &[u8]) -> Result<Sheet, Refused> {
    if bytes.len() > 65_536 {
        return Err(Refused(20, 0));
    }
    let mut lines = Lines { rest: bytes, line: 0 };
    let mut places = Vec::new();
    for k in 1..=lines.count(256)? {
        let row: [i64; 11] = lines.next()?;
        let [parent, orientation, .., slop, level, flags] = row;
        let fits = (0..8).contains(&orientation)
            && coordinates(&row[2..8])
            && (0..=1000).contains(&slop)
            && i32::try_from(level).is_ok()
            && (0..8).contains(&flags);
        if !fits {
            return lines.refuse(22);
        }
        if parent < 0 || parent >= k as i64 {
            return lines.refuse(23);
        }
        places.push(row);
    }
    let mut clips: Vec<[i64; 6]> = Vec::new();
    for _ in 0..lines.count(places.len())? {
        let row: [i64; 6] = lines.next()?;
        if !coordinates(&row[1..5]) || !(0..=1_000_000).contains(&row[5]) {
            return lines.refuse(22);
        }
        if row[0] < 1 || row[0] > places.len() as i64 || clips.iter().any(|c| c[0] == row[0]) {
            return lines.refuse(23);
        }
        clips.push(row);
    }
    let mut taps = Vec::new();
    for _ in 0..lines.count(1000)? {
        let row: [i64; 3] = lines.next()?;
        if !coordinates(&row[..2]) || !(0..8).contains(&row[2]) {
            return lines.refuse(22);
        }
        taps.push(row);
    }
    if !lines.rest.is_empty() {
        lines.line += 1;
        return lines.refuse(24);
    }
    Ok((places, clips, taps))
}

// ---- its tree

/// From 4 up, first x becomes −x; then k mod 4 times (x, y) becomes (−y, x); the shift last.
fn transform(k: i64, x: i64, y: i64) -> Affine {
    let turn = |(x, y): (i64, i64)| (0..k % 4).fold((if k < 4 { x } else { -x }, y), |(x, y), _| (-y, x));
    let ((a, b), (c, d)) = (turn((1, 0)), turn((0, 1)));
    Affine::new([a as f64, b as f64, c as f64, d as f64, x as f64, y as f64])
}

fn rect(e: &[i64]) -> Rect {
    Rect::new(e[0] as f64, e[1] as f64, e[2] as f64, e[3] as f64)
}

fn build((places, clips, _): &Sheet) -> (Tree, Vec<NodeId>) {
    let mut clip_of = vec![None; places.len() + 1];
    for c in clips {
        if c[1] != c[3] || c[2] != c[4] {
            clip_of[c[0] as usize] = Some(RoundedRect::from_rect(rect(&c[1..5]), c[5] as f64));
        }
    }
    let mut tree = Tree::new();
    let mut ids = Vec::new();
    for (k, p) in places.iter().enumerate() {
        let parent = (p[0] > 0).then(|| ids[p[0] as usize - 1]);
        let local = LocalNode {
            local_bounds: rect(&p[4..8]),
            hit_slop: Insets::uniform(p[8] as f64),
            local_transform: transform(p[1], p[2], p[3]),
            local_clip: clip_of[k + 1],
            z_index: p[9] as i32,
            flags: NodeFlags::from_bits_retain(p[10] as u8),
        };
        ids.push(tree.insert(parent, local));
    }
    tree.commit();
    (tree, ids)
}

fn answer(bytes: &[u8]) -> String {
    let sheet = match read(bytes) {
        Ok(sheet) => sheet,
        Err(Refused(number, line)) => return format!("refused {number} {line}\n"),
    };
    let (tree, ids) = build(&sheet);
    let mut out = format!("{}\n", sheet.2.len());
    for (n, t) in sheet.2.iter().enumerate() {
        let filter = QueryFilter { required_flags: NodeFlags::from_bits_retain(t[2] as u8) };
        let (place, depth) = match tree.hit_test_point(Point::new(t[0] as f64, t[1] as f64), filter) {
            Some(hit) => (ids.iter().position(|&id| id == hit.node).unwrap() + 1, hit.path.len()),
            None => (0, 0),
        };
        writeln!(out, "{} {place} {depth}", n + 1).unwrap();
    }
    out
}

// ---- random sheets

struct Random(u64);

impl Random {
    fn below(&mut self, n: i64) -> i64 {
        self.0 = self.0.wrapping_mul(6_364_136_223_846_793_005).wrapping_add(1_442_695_040_888_963_407);
        ((self.0 >> 33) as i64) % n
    }

    fn between(&mut self, low: i64, high: i64) -> i64 {
        low + self.below(high - low + 1)
    }

    fn one(&mut self, n: i64) -> bool {
        self.below(n) == 0
    }

    fn pick<'a>(&mut self, words: &[&'a str]) -> &'a str {
        words[self.below(words.len() as i64) as usize]
    }

    /// A coordinate: near 0 mostly, so that places meet; at times an edge of the range.
    fn coordinate(&mut self, near: i64) -> i64 {
        if self.one(60) { [-1_000_000, 1_000_000, 0, 1][self.below(4) as usize] } else { self.between(-near, near) }
    }

    fn sheet(&mut self) -> Vec<u8> {
        let near = [6, 20, 60, 1000][self.below(4) as usize];
        let most = [0, 1, 2, 4, 8, 20, 60, 256][self.below(8) as usize];
        let n = self.between(most / 2, most);
        let mut text = format!("{n}\n");
        for k in 0..n {
            let parent = if self.one(3) { 0 } else { self.between(0, k) };
            let edges: Vec<i64> = (0..6).map(|_| self.coordinate(near)).collect();
            let slop = if self.one(2) { 0 } else { self.between(0, 3) };
            let level = if self.one(4) { self.between(-2, 2) } else { 0 };
            let flags = if self.one(4) { self.below(8) } else { 3 };
            let words: Vec<String> = edges.iter().map(i64::to_string).collect();
            writeln!(text, "{parent} {} {} {slop} {level} {flags}", self.below(8), words.join(" ")).unwrap();
        }
        let mut open: Vec<i64> = (1..=n).filter(|_| self.one(3)).collect();
        if self.one(2) {
            open.reverse();
        }
        writeln!(text, "{}", open.len()).unwrap();
        for k in open {
            let (x, y) = (self.coordinate(near), self.coordinate(near));
            let (x1, y1) = if self.one(6) { (x, y) } else { (self.coordinate(near), self.coordinate(near)) };
            let radius = if self.one(2) { 0 } else { self.between(0, near) };
            writeln!(text, "{k} {x} {y} {x1} {y1} {radius}").unwrap();
        }
        let taps = [0, 1, 10, 100, 1000][self.below(5) as usize];
        writeln!(text, "{taps}").unwrap();
        for _ in 0..taps {
            let asked = if self.one(3) { self.below(8) } else { 3 };
            writeln!(text, "{} {} {asked}", self.coordinate(near), self.coordinate(near)).unwrap();
        }
        text.into_bytes()
    }

    /// One word or byte made wrong, or one line doubled or taken out.
    fn damage(&mut self, sheet: Vec<u8>) -> Vec<u8> {
        let text = String::from_utf8_lossy(&sheet).into_owned();
        if text.is_empty() {
            return text.into_bytes();
        }
        if self.one(3) {
            let mut bytes = text.into_bytes();
            let at = self.below(bytes.len() as i64) as usize;
            match self.below(4) {
                0 => drop(bytes.remove(at)),
                1 => bytes.insert(at, b"0123456789- \n\r\t+x\0"[self.below(18) as usize]),
                2 => bytes[at] = b"0123456789- \n\r\t+x\0"[self.below(18) as usize],
                _ => bytes.truncate(at),
            }
            return bytes;
        }
        let mut lines: Vec<String> = text.lines().map(String::from).collect();
        let at = self.below(lines.len().max(1) as i64) as usize;
        if lines.is_empty() {
            return text.into_bytes();
        }
        match self.below(8) {
            0 => drop(lines.remove(at)),
            1 => lines.insert(at, lines[at].clone()),
            _ => {
                let mut words: Vec<&str> = lines[at].split(' ').collect();
                let k = self.below(words.len() as i64) as usize;
                words[k] = self.pick(&[
                    "0", "1", "-1", "2", "7", "8", "256", "257", "1000", "1001", "1000000", "1000001", "-1000000", "-1000001", "2147483647",
                    "2147483648", "-2147483648", "-2147483649", "-0", "+1", "01", "", "-", "--1", "1.0",
                    "9999999999999999999999999999999999999999", "-9999999999999999999999999999999999999999",
                    "18446744073709551616", "4294967296", "9223372036854775808", "340282366920938463463374607431768211456",
                ]);
                lines[at] = words.join(" ");
            }
        }
        (lines.join("\n") + "\n").into_bytes()
    }
}

fn sheets(seed: u64, count: usize, folder: &str) -> io::Result<()> {
    let mut random = Random(seed);
    for k in 0..count {
        let mut sheet = random.sheet();
        for _ in 0..[0, 0, 1, 1, 1, 2][random.below(6) as usize] {
            sheet = random.damage(sheet);
        }
        std::fs::write(format!("{folder}/{k}"), sheet)?;
    }
    Ok(())
}

pub fn main() -> io::Result<()> {
    let words: Vec<String> = std::env::args().skip(1).collect();
    let words: Vec<&str> = words.iter().map(String::as_str).collect();
    match words[..] {
        ["answer"] => {
            let mut bytes = Vec::new();
            io::stdin().read_to_end(&mut bytes)?;
            io::stdout().write_all(answer(&bytes).as_bytes())
        }
        ["sheets", seed, count, folder] => match (seed.parse(), count.parse()) {
            (Ok(seed), Ok(count)) => sheets(seed, count, folder),
            _ => Err(io::Error::other("SEED and COUNT are whole numbers")),
        },
        _ => Err(io::Error::other("usage: answer | sheets SEED COUNT FOLDER")),
    }
}
