//! Writes a random call list for the index alone. The same seed and count
//! give the same list. COUNT is the number of lines that have an answer;
//! comments and empty lines come on top.
//!
//! A small model of slots, generations and marks tells which keys are live,
//! so that most keys are. It decides no answer.

use std::io::{self, BufWriter, Write};

const SLOTS: usize = 512;

// ---- random numbers (splitmix64) ----

struct Random(u64);

impl Random {
    fn next(&mut self) -> u64 {
        self.0 = self.0.wrapping_add(0x9e37_79b9_7f4a_7c15);
        let mut z = self.0;
        z = (z ^ (z >> 30)).wrapping_mul(0xbf58_476d_1ce4_e5b9);
        z = (z ^ (z >> 27)).wrapping_mul(0x94d0_49bb_1331_11eb);
        z ^ (z >> 31)
    }

    /// 0 up to n - 1.
    fn below(&mut self, n: usize) -> usize {
        (self.next() % n as u64) as usize
    }

    fn between(&mut self, low: i64, high: i64) -> i64 {
        low + (self.next() % (high - low + 1) as u64) as i64
    }

    /// True in `percent` of a hundred cases.
    fn percent(&mut self, percent: usize) -> bool {
        self.below(100) < percent
    }

    fn one_of<T: Copy>(&mut self, list: &[T]) -> T {
        list[self.below(list.len())]
    }
}

// ---- the model ----

type Rect = [f64; 4];
type Pair = (u32, u32);

#[derive(Clone, Copy, PartialEq)]
enum State {
    Empty,
    Added,
    Kept,
    Updated,
    Removed,
}

#[derive(Clone, Copy)]
struct Slot {
    generation: u32,
    state: State,
    now: Rect,
    committed: Rect,
}

struct Model {
    slots: Vec<Slot>,
    free: Vec<usize>,
    queue: Vec<usize>,
    room: u32,
}

impl Model {
    fn fresh(&mut self) {
        self.slots.clear();
        self.free.clear();
        self.queue.clear();
    }

    fn in_use(&self) -> usize {
        self.slots
            .iter()
            .filter(|s| s.state != State::Empty)
            .count()
    }

    fn live(&mut self, key: Pair) -> Option<&mut Slot> {
        let slot = self.slots.get_mut(key.0 as usize)?;
        (slot.state != State::Empty && slot.generation == key.1).then_some(slot)
    }

    fn insert(&mut self, rect: Rect) {
        if self.in_use() >= SLOTS {
            return;
        }
        let index = match self.free.pop() {
            Some(index) => index,
            None => {
                self.slots.push(Slot {
                    generation: 0,
                    state: State::Empty,
                    now: rect,
                    committed: rect,
                });
                self.slots.len() - 1
            }
        };
        let slot = &mut self.slots[index];
        slot.generation = slot.generation.wrapping_add(1).max(1);
        slot.state = State::Added;
        slot.now = rect;
        slot.committed = rect;
        self.queue.push(index);
    }

    fn update(&mut self, key: Pair, rect: Rect) {
        let Some(slot) = self.live(key) else {
            return;
        };
        let queue = slot.state == State::Kept;
        slot.now = rect;
        if slot.state != State::Added {
            slot.state = State::Updated;
        }
        if queue {
            self.queue.push(key.0 as usize);
        }
    }

    fn remove(&mut self, key: Pair) {
        let Some(slot) = self.live(key) else {
            return;
        };
        if slot.state == State::Added {
            slot.state = State::Empty;
            self.free.push(key.0 as usize);
            return;
        }
        let queue = slot.state == State::Kept;
        slot.state = State::Removed;
        if queue {
            self.queue.push(key.0 as usize);
        }
    }

    fn commit(&mut self) {
        if (self.room as usize) < SLOTS {
            return;
        }
        for index in std::mem::take(&mut self.queue) {
            let slot = &mut self.slots[index];
            match slot.state {
                State::Added | State::Updated => {
                    slot.state = State::Kept;
                    slot.committed = slot.now;
                }
                State::Removed => {
                    slot.state = State::Empty;
                    self.free.push(index);
                }
                State::Empty | State::Kept => {}
            }
        }
    }
}

// ---- the list ----

/// How a stretch of the list looks.
#[derive(Clone, Copy)]
struct Style {
    /// Whole numbers lie between these.
    low: i64,
    high: i64,
    /// Percentage of numbers that are not small whole numbers.
    special: usize,
    /// A commit comes once in so many calls.
    commit: usize,
    /// About so many entries.
    size: usize,
}

const SPECIAL: [u64; 24] = [
    0x7ff8_0000_0000_0000, // NaN
    0xfff8_0000_0000_0000, // NaN, sign set
    0x7ff0_0000_0000_0001, // NaN, signalling
    0x7fff_ffff_ffff_ffff, // NaN, all bits
    0x7ff0_0000_0000_0000, // infinity
    0xfff0_0000_0000_0000, // -infinity
    0x7ff0_0000_0000_0000,
    0xfff0_0000_0000_0000,
    0x0000_0000_0000_0000, // 0
    0x8000_0000_0000_0000, // -0
    0x0000_0000_0000_0000,
    0x8000_0000_0000_0000,
    0x0000_0000_0000_0001, // the least subnormal
    0x8000_0000_0000_0001, // and its negative
    0x000f_ffff_ffff_ffff, // the largest subnormal
    0x800f_ffff_ffff_ffff, // and its negative
    0x0010_0000_0000_0000, // the least normal
    0x7fef_ffff_ffff_ffff, // the largest finite
    0xffef_ffff_ffff_ffff, // and its negative
    0x3ff0_0000_0000_0001, // next above 1
    0x3fef_ffff_ffff_ffff, // next below 1
    0x3fb9_9999_9999_999a, // 0.1
    0x4010_0000_0000_0001, // next above 4
    0x400f_ffff_ffff_ffff, // next below 4
];

struct List<W: Write> {
    random: Random,
    model: Model,
    style: Style,
    /// The slot used last, if any.
    last: Option<usize>,
    written: u64,
    count: u64,
    out: W,
}

impl<W: Write> List<W> {
    fn done(&self) -> bool {
        self.written >= self.count
    }

    fn line(&mut self, text: &str) -> io::Result<()> {
        writeln!(self.out, "{text}")
    }

    /// A line that has an answer; nothing once there are enough.
    fn call(&mut self, text: &str) -> io::Result<()> {
        if self.done() {
            return Ok(());
        }
        self.written += 1;
        self.line(text)
    }

    // ---- numbers, boxes, keys ----

    fn new_style(&mut self) {
        let (low, high) = self
            .random
            .one_of(&[(0, 4), (0, 6), (-3, 8), (-20, 20), (0, 60)]);
        self.style = Style {
            low,
            high,
            special: self.random.one_of(&[0, 2, 5, 10, 35]),
            commit: self.random.one_of(&[3, 6, 12, 25, 80]),
            size: self.random.one_of(&[2, 5, 10, 20, 60, 150]),
        };
    }

    fn whole(&mut self) -> f64 {
        let value = self.random.between(self.style.low, self.style.high) as f64;
        if value == 0.0 && self.random.percent(30) {
            -0.0
        } else {
            value
        }
    }

    fn number(&mut self) -> f64 {
        if self.random.percent(self.style.special) {
            if self.random.percent(8) {
                f64::from_bits(self.random.next())
            } else {
                f64::from_bits(self.random.one_of(&SPECIAL))
            }
        } else {
            self.whole()
        }
    }

    /// The box of some entry, as it is or as it was committed.
    fn known_rect(&mut self) -> Option<Rect> {
        if self.model.slots.is_empty() {
            return None;
        }
        let slot = self.model.slots[self.random.below(self.model.slots.len())];
        Some(if self.random.percent(50) {
            slot.now
        } else {
            slot.committed
        })
    }

    fn rect(&mut self) -> Rect {
        match self.random.below(100) {
            0..8 => {
                // Equal to a known box as numbers, perhaps with other zeros.
                if let Some(mut rect) = self.known_rect() {
                    for edge in &mut rect {
                        if *edge == 0.0 && self.random.percent(50) {
                            *edge = -*edge;
                        }
                    }
                    return rect;
                }
            }
            8..14 => {
                // Touches a known box at an edge or a corner.
                if let Some(r) = self.known_rect() {
                    let (w, h) = (self.small(), self.small());
                    return match self.random.below(4) {
                        0 => [r[2], r[1], plus(r[2], w), r[3]],
                        1 => [plus(r[0], -w), r[1], r[0], r[3]],
                        2 => [r[2], r[3], plus(r[2], w), plus(r[3], h)],
                        _ => [r[0], r[3], r[2], plus(r[3], h)],
                    };
                }
            }
            14..22 => {
                // In no order.
                return [self.number(), self.number(), self.number(), self.number()];
            }
            _ => {}
        }
        let (x, y) = (self.number(), self.number());
        let (w, h) = (self.small(), self.small());
        let mut rect = [x, y, plus(x, w), plus(y, h)];
        if self.random.percent(self.style.special) {
            rect[2] = self.number();
        }
        if self.random.percent(self.style.special) {
            rect[3] = self.number();
        }
        if self.random.percent(4) {
            rect.swap(0, 2);
        }
        if self.random.percent(4) {
            rect.swap(1, 3);
        }
        rect
    }

    fn small(&mut self) -> f64 {
        self.random.one_of(&[0.0, 1.0, 1.0, 2.0, 2.0, 3.0, 5.0])
    }

    fn payload(&mut self) -> Pair {
        let any = self.random.next();
        match self.random.below(20) {
            0 => (0, 0),
            1 => (u32::MAX, u32::MAX),
            2 => (any as u32, (any >> 32) as u32),
            _ => ((any % 256) as u32, 1 + (any >> 32) as u32 % 3),
        }
    }

    fn key(&self, index: usize) -> Pair {
        (index as u32, self.model.slots[index].generation)
    }

    /// A live key, often the one used last.
    fn live_key(&mut self) -> Option<Pair> {
        if let Some(index) = self.last
            && self.random.percent(35)
            && index < self.model.slots.len()
            && self.model.slots[index].state != State::Empty
        {
            return Some(self.key(index));
        }
        let held: Vec<usize> = (0..self.model.slots.len())
            .filter(|i| self.model.slots[*i].state != State::Empty)
            .collect();
        if held.is_empty() {
            return None;
        }
        let index = self.random.one_of(&held);
        self.last = Some(index);
        Some(self.key(index))
    }

    /// A key that is dead in nearly all cases.
    fn odd_key(&mut self) -> Pair {
        let used = self.model.slots.len();
        let far = [512, 513, 600, 65_535, 65_536, 4_294_967_295_usize];
        if used == 0 || self.random.percent(25) {
            let index = if self.random.percent(40) {
                used
            } else {
                self.random.one_of(&far)
            };
            return (index as u32, self.random.one_of(&[0, 1, 1, 2, u32::MAX]));
        }
        let index = match self.last {
            Some(index) if index < used && self.random.percent(40) => index,
            _ => self.random.below(used),
        };
        let (index, g) = self.key(index);
        match self.random.below(8) {
            // Dead if the slot is empty.
            0 | 1 => (index, g),
            2 => (index, g.wrapping_sub(1)),
            3 => (index, g.wrapping_add(1)),
            4 => (index, self.random.one_of(&[0, 1, u32::MAX])),
            // The same slot under a mask.
            5 => (index + 512, g),
            6 => (index + 65_536, g),
            _ => (index | 0x8000_0000, g),
        }
    }

    // ---- calls ----

    fn insert(&mut self) -> io::Result<()> {
        let rect = self.rect();
        self.insert_rect(rect)
    }

    fn insert_rect(&mut self, rect: Rect) -> io::Result<()> {
        let payload = self.payload();
        self.last = Some(
            self.model
                .free
                .last()
                .copied()
                .unwrap_or(self.model.slots.len()),
        );
        self.model.insert(rect);
        self.call(&format!(
            "insert {} {}:{}",
            text(&rect),
            payload.0,
            payload.1
        ))
    }

    fn update(&mut self, key: Pair, rect: Rect) -> io::Result<()> {
        self.model.update(key, rect);
        self.call(&format!("update {}:{} {}", key.0, key.1, text(&rect)))
    }

    fn remove(&mut self, key: Pair) -> io::Result<()> {
        self.model.remove(key);
        self.call(&format!("remove {}:{}", key.0, key.1))
    }

    fn commit(&mut self) -> io::Result<()> {
        self.model.commit();
        self.call("commit")
    }

    fn room(&mut self, room: u32) -> io::Result<()> {
        self.model.room = room;
        self.call(&format!("room {room}"))
    }

    /// A new box, the committed one or the present one.
    fn next_rect(&mut self, key: Pair) -> Rect {
        let choice = self.random.below(100);
        if let Some(slot) = self.model.live(key) {
            match choice {
                0..25 => return slot.committed,
                25..32 => return slot.now,
                32..38 => return slot.committed.map(|e| if e == 0.0 { -e } else { e }),
                _ => {}
            }
        }
        self.rect()
    }

    fn query_point(&mut self) -> io::Result<()> {
        let mut point = [self.number(), self.number()];
        if self.random.percent(60)
            && let Some(rect) = self.known_rect()
        {
            point = [
                rect[self.random.one_of(&[0, 2])],
                rect[self.random.one_of(&[1, 3])],
            ];
            if self.random.percent(25) {
                point[self.random.below(2)] = self.number();
            }
        }
        if self.random.percent(4) {
            point[self.random.below(2)] = f64::from_bits(SPECIAL[0]);
        }
        self.call(&format!("query_point {}", text(&point)))
    }

    fn query_rect(&mut self) -> io::Result<()> {
        let (low, high) = (self.style.low as f64, self.style.high as f64);
        let rect = match self.random.below(20) {
            0 => [
                f64::NEG_INFINITY,
                f64::NEG_INFINITY,
                f64::INFINITY,
                f64::INFINITY,
            ],
            1 => [low - 1.0, low - 1.0, high + 9.0, high + 9.0],
            2 => [high, high, low, low],
            _ => self.rect(),
        };
        self.call(&format!("query_rect {}", text(&rect)))
    }

    fn query(&mut self) -> io::Result<()> {
        if self.random.percent(50) {
            self.query_point()
        } else {
            self.query_rect()
        }
    }

    fn dead(&mut self) -> io::Result<()> {
        let key = self.odd_key();
        if self.random.percent(50) {
            self.remove(key)
        } else {
            let rect = self.rect();
            self.update(key, rect)
        }
    }

    /// A malformed line; where it names a key, a live one if there is one.
    fn malformed(&mut self) -> io::Result<()> {
        let key = self.live_key().unwrap_or((0, 1));
        let k = format!("{}:{}", key.0, key.1);
        let rect = self.rect();
        let b = text(&rect);
        let three = text(&rect[..3]);
        let line = match self.random.below(42) {
            0 => "insert".to_string(),
            1 => format!("insert {b}"),
            2 => format!("insert {three} 1:1"),
            3 => format!("insert {b} 0000000000000000 1:1"),
            4 => format!("insert {b} 1"),
            5 => format!("insert {b} 1:"),
            6 => format!("insert {b} :1"),
            7 => format!("insert {b} 1:1:1"),
            8 => format!("insert {b} 4294967296:1"),
            9 => format!("insert {b} 1:4294967296"),
            10 => format!("insert {b} -1:1"),
            11 => format!("insert {three} 3FF0000000000000 1:1"),
            12 => format!("insert {three} 3ff000000000000 1:1"),
            13 => format!("insert {three} 3ff00000000000000 1:1"),
            14 => format!("insert {three} 3ff000000000000g 1:1"),
            15 => format!("insert {three} 0x3ff00000000000 1:1"),
            16 => format!("insert {three} 1.0 1:1"),
            17 => format!("insert {three} nan 1:1"),
            18 => format!("insert 1:1 {b}"),
            19 => "update".to_string(),
            20 => format!("update {k}"),
            21 => format!("update {k} {three}"),
            22 => format!("update {k} {b} 0000000000000000"),
            23 => format!("update {b} {k}"),
            24 => format!("update {} {b}", key.0),
            25 => "remove".to_string(),
            26 => format!("remove {}", key.0),
            27 => format!("remove {k} {k}"),
            28 => format!("remove {}:{}x", key.0, key.1),
            29 => "commit now".to_string(),
            30 => "clear all".to_string(),
            31 => "new 1".to_string(),
            32 => "room".to_string(),
            33 => "room -1".to_string(),
            34 => "room many".to_string(),
            35 => "room 0 0".to_string(),
            36 => "query_point 3ff0000000000000".to_string(),
            37 => format!("query_point {three}"),
            38 => format!("query_rect {three}"),
            39 => format!("query_rect {b} 1:1"),
            40 => "COMMIT".to_string(),
            _ => format!("delete {k}"),
        };
        self.call(&line)
    }

    fn no_answer(&mut self) -> io::Result<()> {
        match self.random.below(4) {
            0 => self.line(""),
            1 => self.line("#"),
            2 => self.line("# a comment"),
            _ => self.line("#commit"),
        }
    }

    // ---- stretches ----

    fn mixed(&mut self) -> io::Result<()> {
        self.new_style();
        let length = self.random.between(20, 160);
        for _ in 0..length {
            if self.done() {
                return Ok(());
            }
            if self.random.below(self.style.commit) == 0 {
                self.commit()?;
                continue;
            }
            let many = self.model.in_use() >= self.style.size;
            match self.random.below(100) {
                0..30 if !many => self.insert()?,
                0..8 => self.insert()?,
                8..45 => match self.live_key() {
                    Some(key) if self.random.percent(if many { 60 } else { 35 }) => {
                        self.remove(key)?;
                    }
                    Some(key) => {
                        let rect = self.next_rect(key);
                        self.update(key, rect)?;
                    }
                    None => self.insert()?,
                },
                45..75 => self.query()?,
                75..82 => self.dead()?,
                82..84 => self.malformed()?,
                84..85 => self.no_answer()?,
                _ => match self.live_key() {
                    Some(key) => {
                        let rect = self.next_rect(key);
                        self.update(key, rect)?;
                    }
                    None => self.insert()?,
                },
            }
        }
        Ok(())
    }

    /// A short history of one committed entry, then a commit and queries.
    fn history(&mut self) -> io::Result<()> {
        self.new_style();
        if self.model.in_use() >= SLOTS {
            return Ok(());
        }
        self.insert()?;
        let index = self.last.unwrap_or(0);
        let key = self.key(index);
        if self.random.percent(85) {
            self.commit()?;
        }
        for _ in 0..self.random.between(1, 6) {
            match self.random.below(8) {
                0..4 => self.remove(key)?,
                4..7 => {
                    let rect = self.next_rect(key);
                    self.update(key, rect)?;
                }
                _ => self.query()?,
            }
        }
        self.commit()?;
        self.query_rect()?;
        self.query_point()
    }

    /// Inserts until every slot is in use and beyond, then makes some space.
    fn fill(&mut self) -> io::Result<()> {
        self.new_style();
        let rarely = self.random.one_of(&[0, 1, 4]);
        while self.model.in_use() < SLOTS {
            if self.done() {
                return Ok(());
            }
            self.insert()?;
            if self.random.percent(rarely) {
                self.commit()?;
            }
            if self.random.percent(rarely) {
                self.query_point()?;
            }
            if self.random.percent(rarely)
                && let Some(key) = self.live_key()
            {
                let rect = self.next_rect(key);
                self.update(key, rect)?;
            }
        }
        for _ in 0..self.random.between(1, 5) {
            self.insert()?;
        }
        if self.random.percent(60) {
            self.commit()?;
            self.insert()?;
        }
        for _ in 0..self.random.between(1, 4) {
            if let Some(key) = self.live_key() {
                self.remove(key)?;
                self.insert()?;
            }
        }
        self.query_rect()?;
        self.commit()?;
        for _ in 0..self.random.between(1, 8) {
            self.insert()?;
        }
        self.query_point()
    }

    /// Removes every entry, in random order.
    fn empty(&mut self) -> io::Result<()> {
        let mut held: Vec<usize> = (0..self.model.slots.len())
            .filter(|i| self.model.slots[*i].state != State::Empty)
            .collect();
        let rarely = self.random.one_of(&[0, 2]);
        while !held.is_empty() {
            if self.done() {
                return Ok(());
            }
            let index = held.swap_remove(self.random.below(held.len()));
            let key = self.key(index);
            self.remove(key)?;
            if self.random.percent(rarely) {
                self.commit()?;
            }
        }
        self.query_rect()?;
        self.commit()?;
        self.query_rect()
    }

    /// Inserts and removes without a commit, over and over.
    fn churn(&mut self) -> io::Result<()> {
        self.new_style();
        // Long ones only in long lists.
        let long = self.count >= 10_000 && self.random.percent(10);
        let rounds = self.random.between(3, if long { 700 } else { 40 });
        for _ in 0..rounds {
            if self.done() || self.model.in_use() >= SLOTS {
                break;
            }
            self.insert()?;
            let index = self.last.unwrap_or(0);
            let key = self.key(index);
            if long || self.random.percent(95) {
                self.remove(key)?;
            }
        }
        self.commit()
    }

    /// Some calls with another room.
    fn rooms(&mut self) -> io::Result<()> {
        self.new_style();
        let room = self.random.one_of(&[511, 0, 512, 600, 511, 1, 513]);
        self.room(room)?;
        for _ in 0..self.random.between(2, 14) {
            match self.random.below(10) {
                0..3 => self.commit()?,
                3..6 => self.query()?,
                6 => self.dead()?,
                7 => self.insert()?,
                8 if self.random.percent(25) => self.restart()?,
                _ => match self.live_key() {
                    Some(key) if self.random.percent(50) => self.remove(key)?,
                    Some(key) => {
                        let rect = self.next_rect(key);
                        self.update(key, rect)?;
                    }
                    None => self.insert()?,
                },
            }
        }
        let room = self.random.one_of(&[512, 512, 600]);
        self.room(room)?;
        if self.random.percent(50) {
            self.commit()
        } else {
            self.query()
        }
    }

    /// `clear` or `new`, then calls with keys from before.
    fn restart(&mut self) -> io::Result<()> {
        // Something to forget: entries marked in no order.
        for _ in 0..self.random.below(5) {
            match self.live_key() {
                Some(key) if self.random.percent(50) => self.remove(key)?,
                Some(key) => {
                    let rect = self.rect();
                    self.update(key, rect)?;
                }
                None => self.insert()?,
            }
        }
        let old = self.live_key();
        self.model.fresh();
        if self.random.percent(70) {
            self.call("clear")?;
        } else {
            self.call("new")?;
        }
        if let Some(key) = old {
            self.remove(key)?;
        }
        if self.random.percent(30) {
            self.commit()?;
        }
        for _ in 0..self.random.between(1, 6) {
            self.insert()?;
        }
        if let Some(key) = old {
            let rect = self.rect();
            self.update(key, rect)?;
        }
        self.query_rect()?;
        self.commit()?;
        self.query()
    }

    fn write(&mut self) -> io::Result<()> {
        while !self.done() {
            match self.random.below(100) {
                0..44 => self.mixed()?,
                44..64 => self.history()?,
                64..67 => {
                    self.fill()?;
                    match self.random.below(4) {
                        0 => self.restart()?,
                        1 => self.mixed()?,
                        _ => self.empty()?,
                    }
                }
                67..71 => self.empty()?,
                71..76 => self.churn()?,
                76..91 => self.rooms()?,
                _ => self.restart()?,
            }
        }
        self.out.flush()
    }
}

fn text(numbers: &[f64]) -> String {
    let words: Vec<String> = numbers
        .iter()
        .map(|v| format!("{:016x}", v.to_bits()))
        .collect();
    words.join(" ")
}

/// The sum; a NaN as it is, so that its bits do not depend on the machine.
fn plus(a: f64, b: f64) -> f64 {
    if a.is_nan() { a } else { a + b }
}

fn main() -> io::Result<()> {
    let words: Vec<String> = std::env::args().skip(1).collect();
    let numbers: Vec<u64> = words.iter().filter_map(|w| w.parse().ok()).collect();
    let (2, &[seed, count]) = (words.len(), numbers.as_slice()) else {
        eprintln!("usage: calls SEED COUNT");
        eprintln!("  writes COUNT random calls to standard output; both are whole numbers");
        std::process::exit(2);
    };
    let mut list = List {
        random: Random(seed),
        model: Model {
            slots: Vec::new(),
            free: Vec::new(),
            queue: Vec::new(),
            room: SLOTS as u32,
        },
        style: Style {
            low: 0,
            high: 6,
            special: 5,
            commit: 10,
            size: 10,
        },
        last: None,
        written: 0,
        count,
        out: BufWriter::new(io::stdout().lock()),
    };
    list.write()
}
