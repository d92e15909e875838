//! Writes a random call list. The same seed, count and emphasis give the same list. COUNT is the number of lines that have an answer;
//! comments come on top.
//!
//! The list is a row of stretches, each after a `new` and in one style. The calls are made on the Rust tree as they are written, so
//! that ids are mostly live and taps fall near what is there. This decides no answer.

use std::io::{self, Write};

use kurbo::{Affine, Insets, Point, Rect};

use crate::answer::Program;
use crate::calls::{self, Call, Clip, Local, READINGS, Reading};
use crate::types::NodeId;

// ---- styles ----

/// Kinds of calls, and how often each is drawn.
#[derive(Clone, Copy)]
struct Weights {
    insert: usize,
    remove: usize,
    reparent: usize,
    geometry: usize,
    level: usize,
    commit: usize,
    links: usize,
    locals: usize,
    worlds: usize,
    tap: usize,
    listing: usize,
    room: usize,
    malformed: usize,
}

#[derive(Clone, Copy)]
struct Style {
    /// About so many live nodes, inserted at once if `filled`.
    size: usize,
    filled: bool,
    /// Each node below the one before, mostly.
    deep: bool,
    /// So many calls, about.
    length: usize,
    /// Whole numbers are drawn from -2 up to this less 3.
    spread: usize,
    /// Percentages: of numbers that are no small whole numbers, of arguments that are refused, of transforms that do more than shift,
    /// of nodes with a clip.
    wild: usize,
    odd: usize,
    turned: usize,
    clipped: usize,
    weights: Weights,
}

const WEIGHTS: Weights = Weights {
    insert: 14,
    remove: 4,
    reparent: 5,
    geometry: 14,
    level: 4,
    commit: 6,
    links: 8,
    locals: 5,
    worlds: 6,
    tap: 18,
    listing: 14,
    room: 0,
    malformed: 0,
};

const PLAIN: Style = Style {
    size: 12,
    filled: false,
    deep: false,
    length: 160,
    spread: 18,
    wild: 1,
    odd: 2,
    turned: 15,
    clipped: 20,
    weights: WEIGHTS,
};

pub const EMPHASES: [&str; 10] =
    ["plain", "wild", "links", "clips", "full", "deep", "order", "turned", "room", "long"];

fn style(emphasis: &str) -> Style {
    let w = WEIGHTS;
    match emphasis {
        // Numbers of every size, overflow, zero determinants.
        "wild" => {
            Style { size: 8, wild: 22, odd: 4, turned: 50, clipped: 35, length: 120, ..PLAIN }
        }
        // Slots that are used again and again, moves, dead ids and parents.
        "links" => Style {
            size: 9,
            odd: 10,
            length: 240,
            weights: Weights { insert: 26, remove: 14, reparent: 22, links: 26, geometry: 6, ..w },
            ..PLAIN
        },
        // Rounded clips, one in the other, and taps near their edges and arcs.
        "clips" => Style {
            wild: 4,
            clipped: 70,
            turned: 15,
            spread: 9,
            weights: Weights { tap: 60, geometry: 20, ..w },
            ..PLAIN
        },
        // As many nodes as there may be, and one more.
        "full" => Style {
            size: 257,
            filled: true,
            turned: 5,
            clipped: 5,
            length: 600,
            weights: Weights { insert: 20, remove: 3, listing: 3, commit: 3, ..w },
            ..PLAIN
        },
        // Chains of up to 256.
        "deep" => Style {
            size: 257,
            filled: true,
            deep: true,
            length: 500,
            turned: 3,
            clipped: 2,
            ..PLAIN
        },
        // The order in which entries are taken and freed: many changes, a commit, all listed.
        "order" => Style {
            size: 16,
            spread: 9,
            length: 300,
            weights: Weights {
                insert: 24,
                remove: 8,
                reparent: 12,
                geometry: 16,
                listing: 10,
                tap: 4,
                locals: 0,
                commit: 8,
                ..w
            },
            ..PLAIN
        },
        // Transforms one above the other: turns, scales, shears, zero determinants, zeros of both signs.
        "turned" => {
            Style { turned: 90, wild: 3, weights: Weights { worlds: 20, tap: 40, ..w }, ..PLAIN }
        }
        // Short room, refused arguments, malformed lines.
        "room" => Style {
            odd: 25,
            weights: Weights { room: 10, malformed: 8, commit: 12, links: 16, ..w },
            ..PLAIN
        },
        // A long life: nodes and entries come and go for thousands of calls.
        "long" => Style {
            size: 60,
            length: 9000,
            turned: 5,
            clipped: 5,
            weights: Weights { insert: 40, remove: 20, reparent: 8, commit: 10, ..w },
            ..PLAIN
        },
        _ => PLAIN,
    }
}

pub fn is_emphasis(word: &str) -> bool {
    word == "mix" || EMPHASES.contains(&word)
}

// ---- random numbers (splitmix64) ----

struct Random(u64);

impl Random {
    fn next(&mut self) -> u64 {
        self.0 = self.0.wrapping_add(0x9e37_79b9_7f4a_7c15);
        let mut z = self.0;
        z = (z ^ (z >> 30)).wrapping_mul(0xbf58_476d_1ce4_e5b9);
        z = (z ^ (z >> 27)).wrapping_mul(0x94d0_49bb_1331_11eb);
        z ^ (z >> 31)
    }

    /// 0 up to n - 1.
    fn below(&mut self, n: usize) -> usize {
        (self.next() % n as u64) as usize
    }

    fn percent(&mut self, percent: usize) -> bool {
        self.below(100) < percent
    }

    fn one_of<T: Copy>(&mut self, list: &[T]) -> T {
        list[self.below(list.len())]
    }
}

const WILD: [f64; 30] = [
    0.1,
    0.3,
    0.5,
    2.5,
    1.0 / 3.0,
    7.75,
    -0.7,
    1e-3,
    1e5,
    -1e6,
    9_007_199_254_740_992.0,
    1e16,
    -1e16,
    1e-170,
    1e-200,
    -1e-200,
    1e200,
    -1e200,
    1e154,
    -1e154,
    1e308,
    -1e308,
    1.7e308,
    -1.7e308,
    f64::MAX,
    f64::MIN,
    f64::MIN_POSITIVE,
    -f64::MIN_POSITIVE,
    5e-324,
    -5e-324,
];

const NOT_FINITE: [u64; 6] = [
    0x7ff8_0000_0000_0000, // NaN
    0xfff8_0000_0000_0000, // NaN, sign set
    0x7ff0_0000_0000_0001, // NaN, signalling
    0x7fff_ffff_ffff_ffff, // NaN, all bits
    0x7ff0_0000_0000_0000, // infinity
    0xfff0_0000_0000_0000, // -infinity
];

fn is_extreme(scale: f64) -> bool {
    let size = scale.abs();
    size.is_finite() && size != 0.0 && !(1e-100..1e100).contains(&size)
}

// ---- the list ----

struct List<W: Write> {
    random: Random,
    style: Style,
    program: Program,
    /// Live nodes, the youngest last, and some dead ones.
    live: Vec<NodeId>,
    dead: Vec<NodeId>,
    /// The room that was lent last, if it is not that of the start.
    room: Option<u32>,
    written: u64,
    count: u64,
    out: W,
}

impl<W: Write> List<W> {
    fn done(&self) -> bool {
        self.written >= self.count
    }

    /// Writes a line and makes its call; nothing once there are enough.
    fn line(&mut self, text: &str) -> io::Result<()> {
        if self.done() {
            return Ok(());
        }
        self.written += 1;
        writeln!(self.out, "{text}")?;
        let Some(call) = calls::read(text.as_bytes()) else {
            return Ok(());
        };
        let answer = self.program.answer(call);
        match call {
            Call::Insert(..) => {
                if let Some(Call::Remove(id)) = calls::read(format!("remove {answer}").as_bytes()) {
                    self.live.push(id);
                }
            }
            Call::Remove(_) => {
                let tree = &self.program.tree;
                let (live, gone) = self.live.iter().partition(|id| tree.is_alive(**id));
                self.live = live;
                self.dead.extend::<Vec<NodeId>>(gone);
                let many = self.dead.len().saturating_sub(40);
                self.dead.drain(..many);
            }
            Call::New => {
                self.live.clear();
                self.dead.clear();
            }
            Call::Room(n) => self.room = Some(n),
            _ => {}
        }
        Ok(())
    }

    fn call(&mut self, call: Call) -> io::Result<()> {
        self.line(&calls::written(call))
    }

    // ---- numbers ----

    fn odd(&mut self) -> bool {
        let percent = self.style.odd;
        self.random.percent(percent)
    }

    /// A small whole number, zeros of both signs.
    fn whole(&mut self) -> f64 {
        let n = self.random.below(self.style.spread) as f64 - 2.0;
        if n == 0.0 && self.random.percent(40) { -0.0 } else { n }
    }

    /// A finite number.
    fn number(&mut self) -> f64 {
        if !self.random.percent(self.style.wild) {
            return self.whole();
        }
        let any = f64::from_bits(self.random.next());
        if any.is_finite() && self.random.percent(8) { any } else { self.random.one_of(&WILD) }
    }

    fn not_finite(&mut self) -> f64 {
        f64::from_bits(self.random.one_of(&NOT_FINITE))
    }

    /// The number, or one beside it.
    fn beside(&mut self, x: f64) -> f64 {
        match self.random.below(12) {
            0 => x.next_up(),
            1 => x.next_down(),
            2 => x + 0.5,
            3 => x - 0.5,
            4 if x == 0.0 => -x,
            _ => x,
        }
    }

    /// The same number: a zero of either sign.
    fn zero(&mut self, x: f64) -> f64 {
        if x == 0.0 && self.random.percent(50) { -x } else { x }
    }

    fn size(&mut self) -> f64 {
        self.random.one_of(&[0.0, 1.0, 2.0, 3.0, 5.0, 8.0, 10.0, 10.0, 12.0, 20.0, 20.0, 30.0])
    }

    fn four(&mut self) -> [f64; 4] {
        [self.number(), self.number(), self.number(), self.number()]
    }

    fn any_rect(&mut self) -> Rect {
        let [a, b, c, d] = self.four();
        match self.random.below(20) {
            0 | 1 => Rect::new(a, b, c, d),
            2 => Rect::new(a + self.size(), b + self.size(), a, b),
            4 => Rect::new(self.size(), self.size(), 0.0, 0.0),
            3 => Rect::new(a, b + self.size(), a + self.size(), b),
            _ => Rect::new(a, b, a + self.size(), b + self.size()),
        }
    }

    fn any_insets(&mut self) -> Insets {
        if self.random.percent(55) {
            let mut z = || if self.random.percent(15) { -0.0 } else { 0.0 };
            return Insets::new(z(), z(), z(), z());
        }
        let s = self.number();
        if self.random.percent(50) {
            return Insets::uniform(self.random.one_of(&[s, 1.0, 2.0, -1.0, -3.0, 5.0]));
        }
        let [a, b, c, d] = self.four();
        Insets::new(a, b, c, d)
    }

    fn any_affine(&mut self) -> Affine {
        let (e, f) = (self.number(), self.number());
        let mut m = if !self.random.percent(self.style.turned) {
            if self.random.percent(45) {
                [1.0, 0.0, 0.0, 1.0, 0.0, 0.0]
            } else {
                [1.0, 0.0, 0.0, 1.0, e, f]
            }
        } else {
            let s = self.number();
            let k = self.random.one_of(&[2.0, 0.5, 3.0, -1.0, 0.1, 1e3]);
            match self.random.below(17) {
                0 => [0.0, 1.0, -1.0, 0.0, e, f],
                1 => [-1.0, 0.0, 0.0, -1.0, e, f],
                2 => [0.0, -1.0, 1.0, 0.0, e, f],
                3 => [-1.0, 0.0, 0.0, 1.0, e, f],
                4 => [k, 0.0, 0.0, k, e, f],
                5 => [k, 0.0, 0.0, s, e, f],
                6 => [1.0, 0.0, k, 1.0, e, f],
                7 => [0.6, 0.8, -0.8, 0.6, e, f],
                8 => [0.0, 0.0, 0.0, 0.0, e, f],
                9 => [k, s, k, s, e, f],
                10 => [1.0, -1.0, -1.0, 1.0, e, f],
                11..=13 => {
                    let k = self.random.one_of(&[1e200, 1e-200, 1e-200, 1e308, 1e-308, 1e-170]);
                    [k, 0.0, 0.0, k, 0.0, 0.0]
                }
                _ => [s, self.number(), self.number(), self.number(), e, f],
            }
        };
        for x in &mut m {
            if *x == 0.0 && self.random.percent(8) {
                *x = -*x;
            }
        }
        Affine::new(m)
    }

    /// A clip that has something to do with the bounds, mostly. Where the transform scales by a lot, it has a size in the world too.
    fn any_clip(&mut self, bounds: Rect, transform: Affine) -> Clip {
        if !self.random.percent(self.style.clipped) {
            return Clip::None;
        }
        let s = self.size();
        let mut rect = match self.random.below(10) {
            0 | 1 => bounds,
            6..=9 => Rect::new(bounds.x0 - s, bounds.y0 - s, bounds.x1 + s, bounds.y1 + s),
            2 => Rect::new(bounds.x0, bounds.y0, bounds.x0 + self.size(), bounds.y0 + self.size()),
            3 => {
                let mut tenth = |x: f64| x + self.random.below(60) as f64 / 10.0;
                Rect::new(tenth(bounds.x0), tenth(bounds.y0), tenth(bounds.x0), tenth(bounds.y0))
            }
            _ => self.any_rect(),
        };
        let scale = transform.as_coeffs()[0];
        if is_extreme(scale) && self.random.percent(60) {
            let large =
                Rect::new(rect.x0 / scale, rect.y0 / scale, rect.x1 / scale, rect.y1 / scale);
            rect = if large.is_finite() { large } else { rect };
        }
        if self.random.percent(30) {
            return Clip::Square(rect);
        }
        let half = 0.5 * rect.width().abs().min(rect.height().abs());
        let mut radius = || match self.random.below(12) {
            0 => half,
            1 => -2.0,
            2 => 100.0,
            3 => half * 0.75 * 1.1102230246251565e-16,
            4 => self.random.one_of(&WILD),
            5 => -0.0,
            6 => 0.0,
            _ => self.random.below(7) as f64,
        };
        let q = radius();
        let q = if radius() > 3.0 { [q; 4] } else { [q, radius(), radius(), radius()] };
        Clip::Rounded(rect, q.map(|x| if x.is_finite() { x } else { 1.0 }))
    }

    /// The numbers, one of them not finite.
    fn spoilt<const N: usize>(&mut self, mut numbers: [f64; N]) -> [f64; N] {
        numbers[self.random.below(N)] = self.not_finite();
        numbers
    }

    fn spoil_rect(&mut self, r: Rect) -> Rect {
        let [a, b, c, d] = self.spoilt([r.x0, r.y0, r.x1, r.y1]);
        Rect::new(a, b, c, d)
    }

    fn spoil_insets(&mut self, s: Insets) -> Insets {
        let [a, b, c, d] = self.spoilt([s.x0, s.y0, s.x1, s.y1]);
        Insets::new(a, b, c, d)
    }

    fn spoil_clip(&mut self, clip: Clip) -> Clip {
        match clip {
            Clip::Square(r) => Clip::Square(self.spoil_rect(r)),
            Clip::Rounded(r, q) if self.random.percent(50) => Clip::Rounded(r, self.spoilt(q)),
            Clip::Rounded(r, q) => Clip::Rounded(self.spoil_rect(r), q),
            Clip::None => clip,
        }
    }

    fn flags(&mut self) -> u8 {
        if self.odd() {
            return self.random.one_of(&[8, 9, 11, 16, 128, 255]);
        }
        self.random.one_of(&[3, 3, 3, 3, 3, 3, 7, 7, 7, 1, 2, 0, 4])
    }

    fn asked(&mut self) -> u8 {
        if self.odd() {
            self.flags()
        } else {
            self.random.one_of(&[0, 0, 0, 3, 3, 3, 3, 1, 2, 4, 7])
        }
    }

    fn z(&mut self) -> i32 {
        self.random.one_of(&[0, 0, 0, 0, 0, 1, 1, -1, 2, -7, i32::MAX, i32::MIN])
    }

    // ---- ids ----

    fn live_id(&mut self) -> Option<NodeId> {
        if self.live.is_empty() {
            return None;
        }
        let i = self.random.below(self.live.len());
        // In a chain the youngest stand at the end.
        let i = if self.random.percent(25) { i.max(self.live.len().saturating_sub(4)) } else { i };
        Some(self.live[i])
    }

    /// An id that is dead in nearly all cases.
    fn odd_id(&mut self) -> NodeId {
        if !self.dead.is_empty() && self.random.percent(60) {
            return self.random.one_of(&self.dead);
        }
        let id = self.live_id().unwrap_or(NodeId::new(0, 1));
        match self.random.below(8) {
            0 => NodeId::new(id.0, id.1.wrapping_sub(1)),
            1 => NodeId::new(id.0, id.1.wrapping_add(1)),
            2 => NodeId::new(id.0, 0),
            3 => NodeId::new(id.0, u32::MAX),
            4 => NodeId::new(id.0 + 256, id.1),
            5 => NodeId::new(self.random.one_of(&[255, 256, 257, 65_536]), id.1),
            6 => NodeId::new(u32::MAX, id.1),
            _ => NodeId::new(id.0 | 0x8000_0000, id.1),
        }
    }

    fn id(&mut self) -> NodeId {
        if self.odd() {
            return self.odd_id();
        }
        self.live_id().unwrap_or(NodeId::new(0, 1))
    }

    fn parent(&mut self) -> Option<NodeId> {
        if self.odd() {
            return Some(self.odd_id());
        }
        if self.style.deep && self.random.percent(96) {
            return self.live.last().copied();
        }
        if self.random.percent(20) { None } else { self.live_id() }
    }

    /// The node, or one below it.
    fn under(&mut self, id: NodeId, further: usize) -> NodeId {
        let mut at = id;
        while self.random.percent(further) && self.program.tree.is_alive(at) {
            match self.program.tree.children_of(at) {
                [] => break,
                children => at = self.random.one_of(children),
            }
        }
        at
    }

    // ---- calls that change the tree ----

    fn insert(&mut self) -> io::Result<()> {
        let parent = self.parent();
        let bounds = self.any_rect();
        let mut transform = self.any_affine();
        // Below a node that scales by a lot, one that undoes it or does it again.
        if let Some(above) = parent.and_then(|id| self.program.tree.local_transform(id))
            && is_extreme(above.as_coeffs()[0])
        {
            match self.random.below(10) {
                0..5 => transform = Affine::scale(1.0 / above.as_coeffs()[0]),
                5..8 => transform = above,
                _ => {}
            }
        }
        let mut local = Local {
            bounds,
            slop: self.any_insets(),
            transform,
            clip: self.any_clip(bounds, transform),
            z: self.z(),
            flags: self.flags(),
        };
        if self.odd() {
            match self.random.below(4) {
                0 => local.bounds = self.spoil_rect(bounds),
                1 => local.slop = self.spoil_insets(local.slop),
                2 => local.transform = Affine::new(self.spoilt(transform.as_coeffs())),
                _ => local.clip = self.spoil_clip(local.clip),
            }
        }
        self.call(Call::Insert(parent, local))
    }

    fn remove(&mut self) -> io::Result<()> {
        let mut id = self.id();
        // Mostly a leaf, or near one.
        if self.random.percent(90) {
            id = self.under(id, 85);
        }
        self.call(Call::Remove(id))
    }

    fn reparent(&mut self) -> io::Result<()> {
        let id = self.id();
        let parent = match self.random.below(10) {
            0 => Some(self.under(id, 60)),
            1 | 2 => self.program.tree.parent_of(id),
            3 => None,
            _ => self.parent(),
        };
        self.call(Call::Reparent(id, parent))
    }

    /// One of the four setters that may call for a commit; now and then a value that is there already, or the old value after it.
    fn geometry(&mut self) -> io::Result<()> {
        let id = self.id();
        let tree = &self.program.tree;
        let (Some(r), Some(s), Some(t), Some(clip)) = (
            tree.local_bounds(id),
            tree.hit_slop(id),
            tree.local_transform(id),
            tree.local_clip(id),
        ) else {
            let call = match self.random.below(4) {
                0 => Call::SetLocalBounds(id, self.any_rect()),
                1 => Call::SetHitSlop(id, self.any_insets()),
                2 => Call::SetLocalTransform(id, self.any_affine()),
                _ => Call::SetLocalClip(id, Clip::Square(self.any_rect())),
            };
            return self.call(call);
        };
        let clip = Clip::of(clip);
        let (same, odd) = (self.random.percent(12), self.odd());
        let (old, new) = match self.random.below(4) {
            0 => {
                let same_rect =
                    Rect::new(self.zero(r.x0), self.zero(r.y0), self.zero(r.x1), self.zero(r.y1));
                let any = self.any_rect();
                let r2 = if same { same_rect } else { any };
                let r2 = if odd { self.spoil_rect(r2) } else { r2 };
                (Call::SetLocalBounds(id, r), Call::SetLocalBounds(id, r2))
            }
            1 => {
                let same_insets =
                    Insets::new(self.zero(s.x0), self.zero(s.y0), self.zero(s.x1), self.zero(s.y1));
                let any = self.any_insets();
                let s2 = if same { same_insets } else { any };
                let s2 = if odd { self.spoil_insets(s2) } else { s2 };
                (Call::SetHitSlop(id, s), Call::SetHitSlop(id, s2))
            }
            2 => {
                let same_affine = Affine::new(t.as_coeffs().map(|x| self.zero(x)));
                let any = self.any_affine();
                let t2 = if same { same_affine } else { any };
                let t2 = if odd { Affine::new(self.spoilt(t2.as_coeffs())) } else { t2 };
                (Call::SetLocalTransform(id, t), Call::SetLocalTransform(id, t2))
            }
            _ => {
                // The same clip by other corners and negative radii.
                let turn = |r: Rect| Rect::new(r.x1, r.y0, r.x0, r.y1);
                let same_clip = match clip {
                    Clip::None => Clip::None,
                    Clip::Square(r) => Clip::Rounded(turn(r), [0.0; 4]),
                    Clip::Rounded(r, q) => Clip::Rounded(turn(r), q.map(|x| -x)),
                };
                let any = self.any_clip(r, t);
                let clip2 = if same { same_clip } else { any };
                let clip2 = if odd { self.spoil_clip(clip2) } else { clip2 };
                (Call::SetLocalClip(id, clip), Call::SetLocalClip(id, clip2))
            }
        };
        self.call(new)?;
        if self.random.percent(12) {
            self.call(old)?;
        }
        Ok(())
    }

    fn level(&mut self) -> io::Result<()> {
        let id = self.id();
        let call = if self.random.percent(40) {
            Call::SetZIndex(id, self.z())
        } else {
            Call::SetFlags(id, self.flags())
        };
        self.call(call)
    }

    /// Before a request: mostly a tree that needs no commit.
    fn committed(&mut self) -> io::Result<()> {
        if self.program.judge.needs_commit() && self.random.percent(88) {
            self.call(Call::Commit)?;
        }
        Ok(())
    }

    // ---- requests ----

    /// A coordinate on an edge or in the middle of a side, or beside it.
    fn on_side(&mut self, low: f64, high: f64) -> f64 {
        let x = match self.random.below(10) {
            0 | 1 => low,
            2 => high,
            3..=5 => 0.5 * (low + high),
            6 => low + 1.0,
            7 => high - 1.0,
            _ => low + 0.25 * (high - low),
        };
        self.beside(x)
    }

    fn in_rect(&mut self, r: Rect) -> Point {
        let (x, y) = (0.5 * (r.x0 + r.x1), 0.5 * (r.y0 + r.y1));
        match self.random.below(10) {
            0 => Point::new(self.random.one_of(&[r.x0, r.x1]), y),
            1 => Point::new(x, self.random.one_of(&[r.y0, r.y1])),
            _ => Point::new(self.on_side(r.x0, r.x1), self.on_side(r.y0, r.y1)),
        }
    }

    /// On or near the arc of a corner, or near a side.
    fn in_clip(&mut self, clip: Clip) -> Point {
        let (r, q) = match clip {
            Clip::None => (Rect::ZERO, [0.0; 4]),
            Clip::Square(r) => (r, [0.0; 4]),
            Clip::Rounded(r, q) => (r, q),
        };
        let corner = self.random.below(4);
        let q = q[corner];
        if q == 0.0 || self.random.percent(30) {
            return self.in_rect(r);
        }
        let (u, v) =
            self.random.one_of(&[(0.6, 0.8), (0.8, 0.6), (1.0, 0.0), (0.0, 1.0), (0.7, 0.7)]);
        let s = self.random.one_of(&[1.0, 1.0, 0.99, 1.01, 1.0 + f64::EPSILON, 1.0 - f64::EPSILON]);
        let x =
            if corner == 0 || corner == 3 { r.x0 + q - q * u * s } else { r.x1 - q + q * u * s };
        let y = if corner < 2 { r.y0 + q - q * v * s } else { r.y1 - q + q * v * s };
        Point::new(x, y)
    }

    fn point(&mut self) -> Point {
        if self.random.percent(3) {
            let (x, y) = (self.not_finite(), self.number());
            return if self.random.percent(50) { Point::new(x, y) } else { Point::new(y, x) };
        }
        let tree = &self.program.tree;
        let node = (!self.live.is_empty()).then(|| self.live[self.random.below(self.live.len())]);
        let Some(id) = node else {
            return Point::new(self.number(), self.number());
        };
        let (Some(box_), Some(hit_box), Some(to_world), Some(bounds), Some(slop), Some(clip)) = (
            tree.world_bounds(id),
            tree.world_hit_bounds(id),
            tree.world_transform(id),
            tree.local_bounds(id),
            tree.hit_slop(id),
            tree.local_clip(id),
        ) else {
            return Point::new(self.number(), self.number());
        };
        match self.random.below(10) {
            0 | 1 => self.in_rect(box_),
            2 => self.in_rect(hit_box),
            3..=5 => to_world * self.in_rect(bounds + slop),
            6 | 7 => to_world * self.in_clip(Clip::of(clip)),
            8 => Point::new(self.whole(), self.whole()),
            _ => Point::new(self.number(), self.number()),
        }
    }

    fn tap(&mut self) -> io::Result<()> {
        self.committed()?;
        let call = Call::HitTestPoint(self.point(), self.asked());
        self.call(call)
    }

    fn listing(&mut self) -> io::Result<()> {
        self.committed()?;
        let asked = self.asked();
        if self.random.percent(45) {
            let call = Call::ContainingPoint(self.point(), asked);
            return self.call(call);
        }
        let a = self.point();
        let mut r = match self.random.below(6) {
            0 | 1 => Rect::new(-1e9, -1e9, 1e9, 1e9),
            2 => {
                let b = self.point();
                Rect::new(a.x, a.y, b.x, b.y)
            }
            3 => Rect::new(a.x - self.size(), a.y - self.size(), a.x, a.y),
            4 => self.any_rect(),
            _ => Rect::new(a.x, a.y, a.x + self.size(), a.y + self.size()),
        };
        if self.random.percent(3) {
            r.x1 = self.not_finite();
        }
        self.call(Call::IntersectRect(r, asked))
    }

    // ---- readings ----

    fn read(&mut self, list: &[Reading]) -> io::Result<()> {
        let reading = self.random.one_of(list);
        let call = Call::Read(reading, self.id());
        self.call(call)
    }

    fn links(&mut self) -> io::Result<()> {
        if self.random.percent(20) {
            return self.call(Call::NeedsCommit);
        }
        let list: Vec<Reading> = READINGS[..5].iter().map(|r| r.0).collect();
        self.read(&list)
    }

    fn locals(&mut self) -> io::Result<()> {
        let list: Vec<Reading> = READINGS[5..11].iter().map(|r| r.0).collect();
        self.read(&list)
    }

    fn worlds(&mut self) -> io::Result<()> {
        self.committed()?;
        let list: Vec<Reading> = READINGS[11..].iter().map(|r| r.0).collect();
        self.read(&list)
    }

    // ---- room and malformed lines ----

    fn new_room(&mut self) -> io::Result<()> {
        let n = if self.random.percent(45) {
            self.random.one_of(&[512, 512, 513, 1000, 70_000, u32::MAX])
        } else {
            self.random.one_of(&[0, 1, 128, 254, 255, 256, 257, 300, 510, 511])
        };
        self.call(Call::Room(n))
    }

    fn malformed(&mut self) -> io::Result<()> {
        let (id, r, z) = (self.id(), self.any_rect(), self.z());
        let call = match self.random.below(8) {
            0 => Call::SetLocalBounds(id, r),
            1 => Call::SetZIndex(id, z),
            2 => Call::SetFlags(id, 3),
            3 => Call::Reparent(id, None),
            4 => Call::IntersectRect(r, 3),
            5 => Call::SetLocalClip(id, Clip::Square(r)),
            6 => Call::Room(512),
            _ => Call::Commit,
        };
        let text = calls::written(call);
        let (i, end) = (self.random.below(text.len()), text.len());
        let text = match self.random.below(16) {
            0 => format!("{text} "),
            1 => format!(" {text}"),
            2 => text.replacen(' ', "  ", 1),
            3 => format!("{text} 0"),
            4 => text[..text.rfind(' ').unwrap_or(end - 1)].to_string(),
            5 => text.to_uppercase(),
            6 => text.replacen(':', "", 1),
            7 => text.replacen(':', ":0", 1),
            8 => text.replacen(':', ":+", 1),
            9 => text.replacen(' ', "\t", 1),
            10 => format!("{}{}", &text[..i], &text[i + 1..]),
            11 => format!("{}x{}", &text[..i], &text[i..]),
            12 => format!("{text}\r"),
            13 => format!("set_flags {}:{} 256", id.0, id.1),
            14 => {
                let z =
                    self.random.one_of(&["2147483648", "-2147483649", "-0", "+1", "01", "-", ""]);
                format!("set_z_index {}:{} {z}", id.0, id.1)
            }
            _ => format!(
                "remove {}",
                self.random.one_of(&["4294967296:1", "0:4294967296", "-", "0", "", ":"])
            ),
        };
        self.line(&text)
    }

    // ---- stretches ----

    fn one(&mut self) -> io::Result<()> {
        let w = self.style.weights;
        let full = self.live.len() >= self.style.size;
        let draws: [(usize, fn(&mut Self) -> io::Result<()>); 13] = [
            (w.insert, if full { Self::remove } else { Self::insert }),
            (w.remove, Self::remove),
            (w.reparent, Self::reparent),
            (w.geometry, Self::geometry),
            (w.level, Self::level),
            (w.commit, |list| list.call(Call::Commit)),
            (w.links, Self::links),
            (w.locals, Self::locals),
            (w.worlds, Self::worlds),
            (w.tap, Self::tap),
            (w.listing, Self::listing),
            (w.room, Self::new_room),
            (w.malformed, Self::malformed),
        ];
        let mut left = self.random.below(draws.iter().map(|d| d.0).sum());
        for (weight, draw) in draws {
            if left < weight {
                return draw(self);
            }
            left -= weight;
        }
        Ok(())
    }

    /// Removes every node and fills the tree again, before one commit.
    fn exchange(&mut self) -> io::Result<()> {
        self.call(Call::Commit)?;
        while let Some(id) = self.live.first().copied()
            && !self.done()
        {
            self.call(Call::Remove(id))?;
        }
        self.fill(self.style.size)?;
        self.call(Call::Commit)?;
        self.call(Call::IntersectRect(Rect::new(-1e9, -1e9, 1e9, 1e9), 0))
    }

    fn fill(&mut self, size: usize) -> io::Result<()> {
        for _ in 0..size {
            self.insert()?;
        }
        Ok(())
    }

    fn stretch(&mut self, emphasis: &str) -> io::Result<()> {
        self.style = style(emphasis);
        let half = self.style.length / 2;
        let length = half + self.random.below(self.style.length);
        if self.style.filled {
            // One in three as full as can be.
            if self.random.percent(65) {
                self.style.size = 60 + self.random.below(197);
            }
        } else {
            self.style.size = 3 + self.random.below(2 * self.style.size);
        }
        if self.written > 0 {
            self.call(Call::New)?;
        }
        if !self.done() {
            writeln!(self.out, "# {emphasis}")?;
        }
        if self.room.is_some_and(|n| n != 512) {
            self.call(Call::Room(512))?;
        }
        self.fill(if self.style.filled { self.style.size } else { self.style.size / 2 })?;
        let end = self.written + length as u64;
        while self.written < end && !self.done() {
            self.one()?;
        }
        if emphasis == "full" && self.random.percent(30) {
            self.exchange()?;
        }
        Ok(())
    }
}

pub fn list<W: Write>(seed: u64, count: u64, emphasis: &str, out: W) -> io::Result<()> {
    let mut list = List {
        random: Random(seed),
        style: PLAIN,
        program: Program::new(),
        live: Vec::new(),
        dead: Vec::new(),
        room: None,
        written: 0,
        count,
        out,
    };
    while !list.done() {
        let one = if emphasis == "mix" { list.random.one_of(&EMPHASES) } else { emphasis };
        list.stretch(one)?;
    }
    list.out.flush()
}
