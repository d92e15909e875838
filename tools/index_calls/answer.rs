//! Reads a call list for the index alone on standard input and writes one
//! answer per line, taken from the Rust `Index<f64, (u32, u32)>`.
//!
//! The Rust knows no refusals: it returns silently on a dead key and has no
//! limits. The refusals are judged here by document 01, beside the Rust:
//! 8 (room under 512), 10 (dead key) and 11 (512 slots in use). 1 does not
//! occur, since every list starts from a fresh index.

use std::fmt::Write as _;
use std::io::{self, BufRead, BufWriter, Write as _};
use std::mem::transmute;

use understory_index::{Aabb2D, Index, Key};

type Pair = (u32, u32);
type Rect = Aabb2D<f64>;

/// The number of slots, and the least room for a commit or a query.
const SLOTS: usize = 512;

// ---- keys ----

// The fields of `Key` are private. `check_keys` makes sure that a key lies in
// memory as its index and then its generation.

fn key_of(pair: Pair) -> Key {
    // SAFETY: both are 8 bytes of two u32, and any bits are valid.
    unsafe { transmute::<[u32; 2], Key>([pair.0, pair.1]) }
}

fn pair_of(key: Key) -> Pair {
    // SAFETY: as above.
    let [index, generation] = unsafe { transmute::<Key, [u32; 2]>(key) };
    (index, generation)
}

fn check_keys() {
    let key = key_of((7, 9));
    assert_eq!(format!("{key:?}"), "Key(7, 9)", "unknown layout of Key");
    assert_eq!(pair_of(key), (7, 9), "unknown layout of Key");
}

// ---- calls ----

enum Call {
    New,
    Clear,
    Room(u32),
    Insert(Rect, Pair),
    Update(Pair, Rect),
    Remove(Pair),
    Commit,
    QueryPoint(f64, f64),
    QueryRect(Rect),
}

/// A call, or nothing if the line is malformed.
fn parse(line: &[u8]) -> Option<Call> {
    let words: Vec<&[u8]> = line.split(|b| *b == b' ').collect();
    let call = match words.as_slice() {
        [b"new"] => Call::New,
        [b"clear"] => Call::Clear,
        [b"room", n] => Call::Room(decimal(n)?),
        [b"insert", a, b, c, d, payload] => Call::Insert(rect([a, b, c, d])?, pair(payload)?),
        [b"update", key, a, b, c, d] => Call::Update(pair(key)?, rect([a, b, c, d])?),
        [b"remove", key] => Call::Remove(pair(key)?),
        [b"commit"] => Call::Commit,
        [b"query_point", x, y] => Call::QueryPoint(number(x)?, number(y)?),
        [b"query_rect", a, b, c, d] => Call::QueryRect(rect([a, b, c, d])?),
        _ => return None,
    };
    Some(call)
}

/// A whole number of 32 bits, without sign or leading zeros.
fn decimal(word: &[u8]) -> Option<u32> {
    if word.is_empty() || !word.iter().all(u8::is_ascii_digit) {
        return None;
    }
    if word.len() > 1 && word[0] == b'0' {
        return None;
    }
    std::str::from_utf8(word).ok()?.parse().ok()
}

/// `index:generation`
fn pair(word: &[u8]) -> Option<Pair> {
    let colon = word.iter().position(|b| *b == b':')?;
    Some((decimal(&word[..colon])?, decimal(&word[colon + 1..])?))
}

/// The 16 lowercase hexadecimal digits of an f64.
fn number(word: &[u8]) -> Option<f64> {
    let lowercase = |b: &u8| matches!(b, b'0'..=b'9' | b'a'..=b'f');
    if word.len() != 16 || !word.iter().all(lowercase) {
        return None;
    }
    let bits = u64::from_str_radix(std::str::from_utf8(word).ok()?, 16).ok()?;
    Some(f64::from_bits(bits))
}

fn rect(words: [&[u8]; 4]) -> Option<Rect> {
    let [a, b, c, d] = words;
    Some(Rect::new(number(a)?, number(b)?, number(c)?, number(d)?))
}

// ---- what the refusals need ----

#[derive(Clone, Copy)]
enum Slot {
    Empty,
    /// Inserted since the last commit; the generation.
    New(u32),
    /// Committed; the generation.
    Kept(u32),
    /// Committed and then removed, freed by the next commit; the generation.
    Leaving(u32),
}

/// What the calls and the Rust's keys so far say about each slot.
#[derive(Default)]
struct Shadow {
    slots: Vec<Slot>,
}

impl Shadow {
    /// How many slots hold an entry.
    fn in_use(&self) -> usize {
        let held = |slot: &&Slot| !matches!(slot, Slot::Empty);
        self.slots.iter().filter(held).count()
    }

    /// The slot of a live key. A removed key lives until the commit.
    fn live(&mut self, key: Pair) -> Option<&mut Slot> {
        let slot = self.slots.get_mut(key.0 as usize)?;
        match *slot {
            Slot::New(g) | Slot::Kept(g) | Slot::Leaving(g) if g == key.1 => Some(slot),
            _ => None,
        }
    }

    fn inserted(&mut self, key: Pair) {
        let index = key.0 as usize;
        if self.slots.len() <= index {
            self.slots.resize(index + 1, Slot::Empty);
        }
        self.slots[index] = Slot::New(key.1);
    }

    /// Whether the key was live.
    fn updated(&mut self, key: Pair) -> bool {
        let Some(slot) = self.live(key) else {
            return false;
        };
        if let Slot::Leaving(g) = *slot {
            *slot = Slot::Kept(g);
        }
        true
    }

    /// Whether the key was live.
    fn removed(&mut self, key: Pair) -> bool {
        let Some(slot) = self.live(key) else {
            return false;
        };
        *slot = match *slot {
            Slot::Kept(g) | Slot::Leaving(g) => Slot::Leaving(g),
            Slot::New(_) | Slot::Empty => Slot::Empty,
        };
        true
    }

    fn committed(&mut self) {
        for slot in &mut self.slots {
            *slot = match *slot {
                Slot::New(g) | Slot::Kept(g) => Slot::Kept(g),
                Slot::Leaving(_) | Slot::Empty => Slot::Empty,
            };
        }
    }
}

// ---- answers ----

struct Program {
    index: Index<f64, Pair>,
    shadow: Shadow,
    room: usize,
}

impl Program {
    fn new() -> Self {
        Self {
            index: Index::new(),
            shadow: Shadow::default(),
            room: SLOTS,
        }
    }

    fn answer(&mut self, call: Call, out: &mut String) {
        match call {
            Call::New => {
                self.index = Index::new();
                self.shadow = Shadow::default();
                out.push_str("ok");
            }
            Call::Clear => {
                self.index.clear();
                self.shadow = Shadow::default();
                out.push_str("ok");
            }
            Call::Room(n) => {
                self.room = n as usize;
                out.push_str("ok");
            }
            Call::Insert(rect, payload) => {
                if self.shadow.in_use() >= SLOTS {
                    out.push_str("refused 11");
                    return;
                }
                let key = pair_of(self.index.insert(rect, payload));
                self.shadow.inserted(key);
                push_pair(out, key);
            }
            // The Rust is handed dead keys too: it has to leave them alone.
            Call::Update(key, rect) => {
                self.index.update(key_of(key), rect);
                let live = self.shadow.updated(key);
                out.push_str(if live { "ok" } else { "refused 10" });
            }
            Call::Remove(key) => {
                self.index.remove(key_of(key));
                let live = self.shadow.removed(key);
                out.push_str(if live { "ok" } else { "refused 10" });
            }
            Call::Commit => {
                if self.room < SLOTS {
                    out.push_str("refused 8");
                    return;
                }
                self.commit(out);
            }
            Call::QueryPoint(x, y) => {
                if self.room < SLOTS {
                    out.push_str("refused 8");
                    return;
                }
                push_found(out, self.index.query_point(x, y).collect());
            }
            Call::QueryRect(rect) => {
                if self.room < SLOTS {
                    out.push_str("refused 8");
                    return;
                }
                push_found(out, self.index.query_rect(rect).collect());
            }
        }
    }

    fn commit(&mut self, out: &mut String) {
        let damage = self.index.commit();
        self.shadow.committed();
        let _ = write!(out, "added {}", damage.added.len());
        for rect in &damage.added {
            push_rect(out, rect);
        }
        let _ = write!(out, " removed {}", damage.removed.len());
        for rect in &damage.removed {
            push_rect(out, rect);
        }
        let _ = write!(out, " moved {}", damage.moved.len());
        for (old, new) in &damage.moved {
            push_rect(out, old);
            push_rect(out, new);
        }
        out.push_str(" union");
        match damage.union() {
            Some(rect) => push_rect(out, &rect),
            None => out.push_str(" none"),
        }
    }
}

fn push_pair(out: &mut String, pair: Pair) {
    let _ = write!(out, "{}:{}", pair.0, pair.1);
}

fn push_rect(out: &mut String, rect: &Rect) {
    for value in [rect.min_x, rect.min_y, rect.max_x, rect.max_y] {
        if value.is_nan() {
            out.push_str(" nan");
        } else if value == 0.0 {
            out.push_str(" 0");
        } else {
            let _ = write!(out, " {:016x}", value.to_bits());
        }
    }
}

fn push_found(out: &mut String, found: Vec<(Key, Pair)>) {
    let _ = write!(out, "{}", found.len());
    for (key, payload) in found {
        out.push(' ');
        push_pair(out, pair_of(key));
        out.push(' ');
        push_pair(out, payload);
    }
}

fn main() -> io::Result<()> {
    check_keys();
    let mut input = io::stdin().lock();
    let mut output = BufWriter::new(io::stdout().lock());
    let mut program = Program::new();
    let mut line = Vec::new();
    let mut out = String::new();
    loop {
        line.clear();
        if input.read_until(b'\n', &mut line)? == 0 {
            break;
        }
        if line.last() == Some(&b'\n') {
            line.pop();
        }
        if line.is_empty() || line[0] == b'#' {
            continue;
        }
        out.clear();
        match parse(&line) {
            Some(call) => program.answer(call, &mut out),
            None => out.push_str("malformed"),
        }
        out.push('\n');
        output.write_all(out.as_bytes())?;
    }
    output.flush()
}
