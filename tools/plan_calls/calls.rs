//! The text of call lists: a call read from its line and written as one, and the words of answers.

use std::fmt::Write as _;

use kurbo::{Affine, Insets, Point, Rect, RoundedRect, RoundedRectRadii};

use crate::types::NodeId;

/// A clip as it is handed over, before kurbo's constructor; the radii from the top left clockwise.
#[derive(Clone, Copy)]
pub enum Clip {
    None,
    Square(Rect),
    Rounded(Rect, [f64; 4]),
}

impl Clip {
    pub fn construct(self) -> Option<RoundedRect> {
        match self {
            Clip::None => None,
            Clip::Square(r) => Some(RoundedRect::from_rect(r, 0.0)),
            Clip::Rounded(r, [a, b, c, d]) => {
                Some(RoundedRect::from_rect(r, RoundedRectRadii::new(a, b, c, d)))
            }
        }
    }

    /// A constructed clip, with the kind that its radii tell.
    pub fn of(constructed: Option<RoundedRect>) -> Self {
        let Some(r) = constructed else {
            return Clip::None;
        };
        let q = r.radii();
        let radii = [q.top_left, q.top_right, q.bottom_right, q.bottom_left];
        if radii.iter().all(|x| *x == 0.0) {
            Clip::Square(r.rect())
        } else {
            Clip::Rounded(r.rect(), radii)
        }
    }

    pub fn is_finite(self) -> bool {
        match self {
            Clip::None => true,
            Clip::Square(r) => r.is_finite(),
            Clip::Rounded(r, q) => r.is_finite() && q.iter().all(|x| x.is_finite()),
        }
    }
}

/// A node's record as it is handed over.
#[derive(Clone, Copy)]
pub struct Local {
    pub bounds: Rect,
    pub slop: Insets,
    pub transform: Affine,
    pub clip: Clip,
    pub z: i32,
    pub flags: u8,
}

/// What is read of one node.
#[derive(Clone, Copy, PartialEq)]
pub enum Reading {
    IsAlive,
    ParentOf,
    NextDepthFirst,
    PrevDepthFirst,
    ChildrenOf,
    ZIndex,
    Flags,
    LocalBounds,
    HitSlop,
    LocalTransform,
    LocalClip,
    WorldBounds,
    WorldHitBounds,
    WorldTransform,
}

pub const READINGS: [(Reading, &str); 14] = [
    (Reading::IsAlive, "is_alive"),
    (Reading::ParentOf, "parent_of"),
    (Reading::NextDepthFirst, "next_depth_first"),
    (Reading::PrevDepthFirst, "prev_depth_first"),
    (Reading::ChildrenOf, "children_of"),
    (Reading::ZIndex, "z_index"),
    (Reading::Flags, "flags"),
    (Reading::LocalBounds, "local_bounds"),
    (Reading::HitSlop, "hit_slop"),
    (Reading::LocalTransform, "local_transform"),
    (Reading::LocalClip, "local_clip"),
    (Reading::WorldBounds, "world_bounds"),
    (Reading::WorldHitBounds, "world_hit_bounds"),
    (Reading::WorldTransform, "world_transform"),
];

#[derive(Clone, Copy)]
pub enum Call {
    New,
    Room(u32),
    Insert(Option<NodeId>, Local),
    Remove(NodeId),
    Reparent(NodeId, Option<NodeId>),
    SetLocalBounds(NodeId, Rect),
    SetHitSlop(NodeId, Insets),
    SetLocalTransform(NodeId, Affine),
    SetLocalClip(NodeId, Clip),
    SetZIndex(NodeId, i32),
    SetFlags(NodeId, u8),
    Commit,
    NeedsCommit,
    Read(Reading, NodeId),
    HitTestPoint(Point, u8),
    IntersectRect(Rect, u8),
    ContainingPoint(Point, u8),
}

// ---- reading ----

/// The words of a line that are left to read.
struct Words<'a> {
    left: std::slice::Split<'a, u8, fn(&u8) -> bool>,
}

impl<'a> Words<'a> {
    fn of(line: &'a [u8]) -> Self {
        Self { left: line.split(|b| *b == b' ') }
    }

    fn word(&mut self) -> Option<&'a [u8]> {
        self.left.next()
    }

    /// Decimal digits without leading zeros, up to `most`.
    fn decimal(&mut self, most: u32) -> Option<u32> {
        decimal(self.word()?, most)
    }

    fn z(&mut self) -> Option<i32> {
        let word = self.word()?;
        if let Some(digits) = word.strip_prefix(b"-") {
            let n = decimal(digits, 1 << 31)?;
            return if n == 0 { None } else { Some((-i64::from(n)) as i32) };
        }
        Some(decimal(word, i32::MAX as u32)? as i32)
    }

    fn flags(&mut self) -> Option<u8> {
        Some(self.decimal(255)? as u8)
    }

    /// `index:generation`
    fn id(&mut self) -> Option<NodeId> {
        id(self.word()?)
    }

    fn parent(&mut self) -> Option<Option<NodeId>> {
        match self.word()? {
            b"-" => Some(None),
            word => Some(Some(id(word)?)),
        }
    }

    /// The 16 lowercase hexadecimal digits of an f64.
    fn number(&mut self) -> Option<f64> {
        let word = self.word()?;
        let lowercase = |b: &u8| matches!(b, b'0'..=b'9' | b'a'..=b'f');
        if word.len() != 16 || !word.iter().all(lowercase) {
            return None;
        }
        let bits = u64::from_str_radix(std::str::from_utf8(word).ok()?, 16).ok()?;
        Some(f64::from_bits(bits))
    }

    fn numbers<const N: usize>(&mut self) -> Option<[f64; N]> {
        let mut all = [0.0; N];
        for x in &mut all {
            *x = self.number()?;
        }
        Some(all)
    }

    fn point(&mut self) -> Option<Point> {
        let [x, y] = self.numbers()?;
        Some(Point::new(x, y))
    }

    fn rect(&mut self) -> Option<Rect> {
        let [a, b, c, d] = self.numbers()?;
        Some(Rect::new(a, b, c, d))
    }

    fn insets(&mut self) -> Option<Insets> {
        let [a, b, c, d] = self.numbers()?;
        Some(Insets::new(a, b, c, d))
    }

    fn affine(&mut self) -> Option<Affine> {
        Some(Affine::new(self.numbers()?))
    }

    fn clip(&mut self) -> Option<Clip> {
        match self.word()? {
            b"none" => Some(Clip::None),
            b"square" => Some(Clip::Square(self.rect()?)),
            b"rounded" => Some(Clip::Rounded(self.rect()?, self.numbers()?)),
            _ => None,
        }
    }

    fn local(&mut self) -> Option<Local> {
        Some(Local {
            bounds: self.rect()?,
            slop: self.insets()?,
            transform: self.affine()?,
            clip: self.clip()?,
            z: self.z()?,
            flags: self.flags()?,
        })
    }

    fn call(&mut self) -> Option<Call> {
        let call = match self.word()? {
            b"new" => Call::New,
            b"room" => Call::Room(self.decimal(u32::MAX)?),
            b"insert" => Call::Insert(self.parent()?, self.local()?),
            b"remove" => Call::Remove(self.id()?),
            b"reparent" => Call::Reparent(self.id()?, self.parent()?),
            b"set_local_bounds" => Call::SetLocalBounds(self.id()?, self.rect()?),
            b"set_hit_slop" => Call::SetHitSlop(self.id()?, self.insets()?),
            b"set_local_transform" => Call::SetLocalTransform(self.id()?, self.affine()?),
            b"set_local_clip" => Call::SetLocalClip(self.id()?, self.clip()?),
            b"set_z_index" => Call::SetZIndex(self.id()?, self.z()?),
            b"set_flags" => Call::SetFlags(self.id()?, self.flags()?),
            b"commit" => Call::Commit,
            b"needs_commit" => Call::NeedsCommit,
            b"hit_test_point" => Call::HitTestPoint(self.point()?, self.flags()?),
            b"intersect_rect" => Call::IntersectRect(self.rect()?, self.flags()?),
            b"containing_point" => Call::ContainingPoint(self.point()?, self.flags()?),
            name => {
                let (reading, _) = READINGS.iter().find(|r| r.1.as_bytes() == name)?;
                Call::Read(*reading, self.id()?)
            }
        };
        self.word().is_none().then_some(call)
    }
}

fn decimal(word: &[u8], most: u32) -> Option<u32> {
    if !word.iter().all(u8::is_ascii_digit) || (word.len() > 1 && word[0] == b'0') {
        return None;
    }
    let n: u32 = std::str::from_utf8(word).ok()?.parse().ok()?;
    (n <= most).then_some(n)
}

fn id(word: &[u8]) -> Option<NodeId> {
    let colon = word.iter().position(|b| *b == b':')?;
    let (index, generation) = (&word[..colon], &word[colon + 1..]);
    Some(NodeId::new(decimal(index, u32::MAX)?, decimal(generation, u32::MAX)?))
}

/// A call, or nothing if the line is malformed.
pub fn read(line: &[u8]) -> Option<Call> {
    Words::of(line).call()
}

// ---- writing ----

/// A line in the making: words, one space apart.
#[derive(Default)]
pub struct Line(pub String);

impl Line {
    pub fn word(&mut self, word: &str) -> &mut Self {
        if !self.0.is_empty() {
            self.0.push(' ');
        }
        self.0.push_str(word);
        self
    }

    pub fn whole(&mut self, n: i64) -> &mut Self {
        self.word("");
        let _ = write!(self.0, "{n}");
        self
    }

    pub fn id(&mut self, id: NodeId) -> &mut Self {
        self.word("");
        let _ = write!(self.0, "{}:{}", id.0, id.1);
        self
    }

    pub fn some_id(&mut self, id: Option<NodeId>, none: &str) -> &mut Self {
        match id {
            Some(id) => self.id(id),
            None => self.word(none),
        }
    }

    pub fn ids(&mut self, ids: &[NodeId]) -> &mut Self {
        self.whole(ids.len() as i64);
        for id in ids {
            self.id(*id);
        }
        self
    }

    /// The bits of a number.
    pub fn bits(&mut self, x: f64) -> &mut Self {
        self.word("");
        let _ = write!(self.0, "{:016x}", x.to_bits());
        self
    }

    /// A number of an answer whose zeros have no sign: an edge or a radius.
    pub fn edge(&mut self, x: f64) -> &mut Self {
        match x {
            _ if x.is_nan() => self.word("nan"),
            _ if x == 0.0 => self.word("0"),
            _ => self.bits(x),
        }
    }

    /// A number of an answer whose zeros have a sign: a coefficient or an inset.
    pub fn signed(&mut self, x: f64) -> &mut Self {
        if x == 0.0 && x.is_sign_negative() { self.word("-0") } else { self.edge(x) }
    }

    pub fn each(&mut self, put: fn(&mut Line, f64) -> &mut Line, numbers: &[f64]) -> &mut Self {
        for x in numbers {
            put(self, *x);
        }
        self
    }

    pub fn rect(&mut self, put: fn(&mut Line, f64) -> &mut Line, r: Rect) -> &mut Self {
        self.each(put, &[r.x0, r.y0, r.x1, r.y1])
    }

    pub fn insets(&mut self, put: fn(&mut Line, f64) -> &mut Line, s: Insets) -> &mut Self {
        self.each(put, &[s.x0, s.y0, s.x1, s.y1])
    }

    pub fn clip(&mut self, put: fn(&mut Line, f64) -> &mut Line, clip: Clip) -> &mut Self {
        match clip {
            Clip::None => self.word("none"),
            Clip::Square(r) => self.word("square").rect(put, r),
            Clip::Rounded(r, q) => self.word("rounded").rect(put, r).each(put, &q),
        }
    }
}

/// The line of a call.
pub fn written(call: Call) -> String {
    let mut l = Line::default();
    let bits = Line::bits;
    match call {
        Call::New => l.word("new"),
        Call::Room(n) => l.word("room").whole(i64::from(n)),
        Call::Insert(parent, n) => l
            .word("insert")
            .some_id(parent, "-")
            .rect(bits, n.bounds)
            .insets(bits, n.slop)
            .each(bits, &n.transform.as_coeffs())
            .clip(bits, n.clip)
            .whole(i64::from(n.z))
            .whole(i64::from(n.flags)),
        Call::Remove(id) => l.word("remove").id(id),
        Call::Reparent(id, parent) => l.word("reparent").id(id).some_id(parent, "-"),
        Call::SetLocalBounds(id, r) => l.word("set_local_bounds").id(id).rect(bits, r),
        Call::SetHitSlop(id, s) => l.word("set_hit_slop").id(id).insets(bits, s),
        Call::SetLocalTransform(id, t) => {
            l.word("set_local_transform").id(id).each(bits, &t.as_coeffs())
        }
        Call::SetLocalClip(id, clip) => l.word("set_local_clip").id(id).clip(bits, clip),
        Call::SetZIndex(id, z) => l.word("set_z_index").id(id).whole(i64::from(z)),
        Call::SetFlags(id, flags) => l.word("set_flags").id(id).whole(i64::from(flags)),
        Call::Commit => l.word("commit"),
        Call::NeedsCommit => l.word("needs_commit"),
        Call::Read(reading, id) => {
            let name = READINGS.iter().find(|r| r.0 == reading).unwrap().1;
            l.word(name).id(id)
        }
        Call::HitTestPoint(p, flags) => {
            l.word("hit_test_point").each(bits, &[p.x, p.y]).whole(i64::from(flags))
        }
        Call::IntersectRect(r, flags) => {
            l.word("intersect_rect").rect(bits, r).whole(i64::from(flags))
        }
        Call::ContainingPoint(p, flags) => {
            l.word("containing_point").each(bits, &[p.x, p.y]).whole(i64::from(flags))
        }
    };
    l.0
}
