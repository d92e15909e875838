// Writes vectors of kurbo's geometry: on each line an operation's name, its inputs and its results, as bit patterns.
// usage: kurbo_vectors SEED COUNT
// docs/VECTORS.md has the format. The operations come in rotation. Built with `--cfg one_radius` it serves a kurbo whose
// rounded rectangles have one radius and that has no `is_finite`: the four radii are then equal, and those operations are left out.
use kurbo::{Affine, Insets, Point, Rect, RoundedRect, Shape};
use std::io::Write;

const NAN: u64 = 0x7ff8_0000_0000_0000;

// A clip as it is handed over: kind 0 none, 1 square, 2 rounded; the radii from the top left clockwise.
#[derive(Clone, Copy)]
struct Clip {
    kind: u64,
    rect: Rect,
    radii: [f64; 4],
}

impl Clip {
    const NONE: Clip = Clip { kind: 0, rect: Rect::ZERO, radii: [0.0; 4] };

    fn made(self) -> Option<RoundedRect> {
        match self.kind {
            0 => None,
            1 => Some(rounded(self.rect, [0.0; 4])),
            _ => Some(rounded(self.rect, self.radii)),
        }
    }

    // A made clip, with the kind that its radii tell.
    fn of(made: Option<RoundedRect>) -> Clip {
        let Some(r) = made else { return Clip::NONE };
        let radii = radii_of(&r);
        let kind = if radii.iter().all(|x| *x == 0.0) { 1 } else { 2 };
        Clip { kind, rect: r.rect(), radii }
    }
}

#[cfg(not(one_radius))]
mod version {
    use kurbo::{Rect, RoundedRect, RoundedRectRadii};

    pub fn rounded(r: Rect, q: [f64; 4]) -> RoundedRect {
        RoundedRect::from_rect(r, RoundedRectRadii::new(q[0], q[1], q[2], q[3]))
    }

    pub fn radii_of(r: &RoundedRect) -> [f64; 4] {
        let q = r.radii();
        [q.top_left, q.top_right, q.bottom_right, q.bottom_left]
    }

    pub fn identity() -> kurbo::Affine {
        kurbo::Affine::IDENTITY
    }

    pub fn finite_radii(q: [f64; 4]) -> bool {
        RoundedRectRadii::new(q[0], q[1], q[2], q[3]).is_finite()
    }

    pub fn finite_rect(r: Rect) -> bool {
        r.is_finite()
    }

    pub fn finite_insets(s: kurbo::Insets) -> bool {
        s.is_finite()
    }

    pub fn finite_affine(t: kurbo::Affine) -> bool {
        t.is_finite()
    }

    pub fn finite_rounded(r: RoundedRect) -> bool {
        r.is_finite()
    }
}

#[cfg(one_radius)]
mod version {
    use kurbo::{Rect, RoundedRect};

    pub fn rounded(r: Rect, q: [f64; 4]) -> RoundedRect {
        RoundedRect::from_rect(r, q[0])
    }

    pub fn radii_of(r: &RoundedRect) -> [f64; 4] {
        [r.radius(); 4]
    }

    pub fn identity() -> kurbo::Affine {
        kurbo::Affine::default()
    }

    pub fn finite_radii(_: [f64; 4]) -> bool {
        unreachable!()
    }

    pub fn finite_rect(_: Rect) -> bool {
        unreachable!()
    }

    pub fn finite_insets(_: kurbo::Insets) -> bool {
        unreachable!()
    }

    pub fn finite_affine(_: kurbo::Affine) -> bool {
        unreachable!()
    }

    pub fn finite_rounded(_: RoundedRect) -> bool {
        unreachable!()
    }
}
use version::*;

const ONE_RADIUS: bool = cfg!(one_radius);

// The box tree's own function over kurbo's types: the box of a rectangle's image.
fn transform_rect_bbox(t: Affine, r: Rect) -> Rect {
    let [a, b, c, d, e, f] = t.as_coeffs();
    let low = |p: f64, q: f64| (p * r.x0).min(p * r.x1) + (q * r.y0).min(q * r.y1);
    let high = |p: f64, q: f64| (p * r.x0).max(p * r.x1) + (q * r.y0).max(q * r.y1);
    Rect::new(low(a, c) + e, low(b, d) + f, high(a, c) + e, high(b, d) + f)
}

// Random inputs. `style` says which numbers a vector is made of: 0 to 3 ordinary ones, 4 special ones, 5 large, 6 small, 7 any pattern,
// 8 few and near each other, 9 a mixture, 10 near the largest. `pool` holds the few of style 8.
struct Draw {
    state: u64,
    style: u64,
    pool: [f64; 3],
}

const SPECIAL: [f64; 20] = [
    f64::NAN,
    f64::INFINITY,
    f64::NEG_INFINITY,
    0.0,
    -0.0,
    5e-324,
    -5e-324,
    2.2250738585072009e-308,
    f64::MIN_POSITIVE,
    -f64::MIN_POSITIVE,
    f64::MAX,
    -f64::MAX,
    1.0,
    -1.0,
    0.5,
    1.5e154,
    -1.4e154,
    1.5e-162,
    9007199254740992.0,
    -9007199254740991.0,
];

impl Draw {
    // splitmix64
    fn next(&mut self) -> u64 {
        self.state = self.state.wrapping_add(0x9e37_79b9_7f4a_7c15);
        let mut z = self.state;
        z = (z ^ (z >> 30)).wrapping_mul(0xbf58_476d_1ce4_e5b9);
        z = (z ^ (z >> 27)).wrapping_mul(0x94d0_49bb_1331_11eb);
        z ^ (z >> 31)
    }

    fn below(&mut self, n: u64) -> u64 {
        (self.next() >> 11) % n
    }

    fn one_in(&mut self, n: u64) -> bool {
        self.below(n) == 0
    }

    // A whole number from -n to n.
    fn whole(&mut self, n: u64) -> f64 {
        let x = self.below(2 * n + 1) as f64 - n as f64;
        if x == 0.0 && self.one_in(3) { -0.0 } else { x }
    }

    fn signed(&mut self, x: f64) -> f64 {
        if self.one_in(2) { -x } else { x }
    }

    fn of_style(&mut self, style: u64) -> f64 {
        match style {
            0 => self.whole(3),
            1 => self.whole(16) / 2.0,
            2 => self.whole(1000),
            3 => self.whole(1_000_000) / 1000.0,
            4 => SPECIAL[self.below(20) as usize],
            5 => {
                let x = 10f64.powi(100 + self.below(209) as i32) * (self.below(17) as f64 / 10.0 + 0.1);
                self.signed(x)
            }
            6 => {
                let x = 10f64.powi(-100 - self.below(224) as i32) * (self.below(90) as f64 / 10.0 + 1.0);
                self.signed(x)
            }
            7 => {
                let x = f64::from_bits(self.next());
                if x.is_nan() { f64::NAN } else { x }
            }
            8 => self.near(),
            10 => {
                let x = (90 + self.below(90)) as f64 * 1e306;
                self.signed(x)
            }
            _ => {
                let s = self.below(9);
                self.of_style(s)
            }
        }
    }

    // One of the pool, or a neighbour of one.
    fn near(&mut self) -> f64 {
        let x = self.pool[self.below(3) as usize];
        self.beside(x)
    }

    fn beside(&mut self, x: f64) -> f64 {
        match self.below(12) {
            0 => x.next_up(),
            1 => x.next_down(),
            2 => -x,
            3 => x + 1.0,
            4 => x / 2.0,
            5 => 1.0 / x,
            _ => x,
        }
    }

    // Begins a vector. The kinds of operations differ in what tells a wrong one: roundings, special numbers, overflow.
    fn begin(&mut self, kind: &str, name: &str) {
        for i in 0..3 {
            let s = self.below(8);
            self.pool[i] = self.of_style(s);
        }
        let styles: [u64; 16] = match kind {
            "affine" | "transform" => [0, 0, 1, 2, 3, 3, 3, 3, 3, 4, 5, 6, 7, 8, 9, 10],
            "clip" => [0, 0, 1, 2, 3, 3, 3, 4, 4, 5, 8, 8, 9, 9, 10, 10],
            _ => [0, 0, 1, 2, 3, 3, 4, 4, 5, 6, 7, 8, 8, 8, 9, 10],
        };
        self.style = styles[self.below(16) as usize];
        if name.contains("is_finite") && self.one_in(3) {
            self.style = 4;
        }
    }

    fn number(&mut self) -> f64 {
        // A few numbers of a vector are of another style.
        let s = if self.one_in(16) { 9 } else { self.style };
        self.of_style(s)
    }

    fn rect(&mut self) -> Rect {
        let r = Rect::new(self.number(), self.number(), self.number(), self.number());
        match self.below(8) {
            0 | 1 => r.abs(),
            2 => Rect::new(r.x0, r.y0, r.x0, r.y1),
            3 => Rect::new(r.x0, r.y0, r.x1, self.beside(r.y0)),
            _ => r,
        }
    }

    fn insets(&mut self) -> Insets {
        let s = self.number();
        match self.below(6) {
            0 => Insets::new(s, s, s, s),
            1 => Insets::new(self.zero(), self.zero(), self.zero(), self.zero()),
            _ => Insets::new(s, self.number(), self.number(), self.number()),
        }
    }

    fn zero(&mut self) -> f64 {
        if self.one_in(12) {
            return self.number();
        }
        self.signed(0.0)
    }

    fn affine(&mut self) -> Affine {
        let mut m = [0.0; 6];
        for x in &mut m {
            *x = self.number();
        }
        match self.below(8) {
            0 => m = [1.0, 0.0, 0.0, 1.0, m[4], m[5]],
            1 => m = [m[0], 0.0, 0.0, m[3], m[4], m[5]],
            2 => m = [m[0], m[1], m[0], m[1], m[4], m[5]],
            3 => m = [0.0, m[1], -m[1], 0.0, m[4], m[5]],
            4 => m[self.below(6) as usize] = -0.0,
            _ => {}
        }
        Affine::new(m)
    }

    // A coordinate on an edge or in the middle of the side from `low` to `high`, or beside it, or anywhere.
    fn on_side(&mut self, low: f64, high: f64, radius: f64) -> f64 {
        let x = match self.below(12) {
            0 | 1 => low,
            2 | 3 => high,
            4 => 0.5 * (low + high),
            5 => low + radius,
            6 => high - radius,
            7 => low + 0.4 * radius,
            8 => high - 0.2 * radius,
            9 => f64::NAN,
            _ => return self.number(),
        };
        if self.one_in(4) { self.beside(x) } else { x }
    }

    fn point_near(&mut self, r: Rect, radius: f64) -> Point {
        let r = r.abs();
        Point::new(self.on_side(r.x0, r.x1, radius), self.on_side(r.y0, r.y1, radius))
    }

    // A point for a made clip: near its sides; on an edge, at the middle of a side or with a NaN; on or near a corner's arc.
    fn point_of(&mut self, r: Rect, radii: [f64; 4]) -> Point {
        let corner = self.below(4) as usize;
        let q = radii[corner];
        match self.below(8) {
            0..=2 => {
                let edge = [r.x0, r.x1, r.y0, r.y1][corner];
                let (x, y) = if self.one_in(2) { (0.5 * (r.x0 + r.x1), 0.5 * (r.y0 + r.y1)) } else { (f64::NAN, f64::NAN) };
                if corner < 2 { Point::new(edge, y) } else { Point::new(x, edge) }
            }
            3 | 4 => {
                let (u, v) = [(0.6, 0.8), (0.8, 0.6), (5.0 / 13.0, 12.0 / 13.0), (1.0, 0.0), (0.0, 1.0)][self.below(5) as usize];
                let s = [1.0, 1.0, 1.0f64.next_up(), 1.0f64.next_down(), 0.99, 1.01][self.below(6) as usize];
                let x = if corner == 0 || corner == 3 { r.x0 + q - q * u * s } else { r.x1 - q + q * u * s };
                let y = if corner < 2 { r.y0 + q - q * v * s } else { r.y1 - q + q * v * s };
                Point::new(x, y)
            }
            _ => self.point_near(r, q),
        }
    }

    fn point(&mut self) -> Point {
        Point::new(self.number(), self.number())
    }

    fn radius(&mut self, r: Rect) -> f64 {
        let side = r.width().abs().min(r.height().abs());
        match self.below(13) {
            0 => self.zero(),
            1 => side / 2.0,
            2 => side,
            3 => -side / 4.0,
            4 | 10 | 11 | 12 => side * (self.below(64) as f64 / 100.0),
            5 => side * 0.75 * 1.1102230246251565e-16,
            6 => self.below(1000) as f64 / 100.0,
            7 => self.of_style(4),
            _ => self.number(),
        }
    }

    fn clip(&mut self) -> Clip {
        let mut rect = self.rect();
        if self.one_in(24) {
            rect.x0 = self.signed(f64::INFINITY);
            rect.x1 = rect.x0;
        }
        let kind = [0, 1, 1, 2, 2, 2, 2, 2][self.below(8) as usize];
        let one = self.radius(rect);
        let mut radii = [one; 4];
        let equal = ONE_RADIUS || self.one_in(3);
        for q in &mut radii {
            *q = if equal { one } else { self.radius(rect) };
        }
        match kind {
            0 => Clip::NONE,
            1 => Clip { kind, rect, radii: [0.0; 4] },
            _ => Clip { kind, rect, radii },
        }
    }

    // The same number, most often; a zero of either sign; else one beside it.
    fn again(&mut self, x: f64) -> f64 {
        match self.below(16) {
            0 => self.beside(x),
            1 => self.number(),
            2..=7 if x == 0.0 => -x,
            _ => x,
        }
    }

    fn rect_again(&mut self, r: Rect) -> Rect {
        Rect::new(self.again(r.x0), self.again(r.y0), self.again(r.x1), self.again(r.y1))
    }

    // A second clip to compare with: the same shape by other corners or another kind, a changed one, or any.
    fn clip_again(&mut self, c: Clip) -> Clip {
        let mut k = c;
        match self.below(6) {
            0 => return self.clip(),
            1 => k.rect = self.rect_again(c.rect),
            2 => k.rect = Rect::new(c.rect.x1, c.rect.y0, c.rect.x0, c.rect.y1),
            3 if !ONE_RADIUS => k.radii[self.below(4) as usize] = self.radius(c.rect),
            4 => k.radii = c.radii.map(|q| -q),
            _ => {}
        }
        if k.kind == 1 && self.one_in(2) {
            k.kind = 2;
            k.radii = [self.signed(0.0); 4];
        }
        if k.kind == 0 { Clip::NONE } else { k }
    }
}

// A made clip, or, where its radii are all 0, perhaps the rounded kind with these radii.
fn as_is(d: &mut Draw, c: Clip) -> Clip {
    let mut k = Clip::of(c.made());
    if k.kind == 1 && d.one_in(2) {
        k.kind = 2;
    }
    k
}

struct Line {
    bytes: Vec<u8>,
}

impl Line {
    fn name(&mut self, name: &str) {
        self.bytes.extend_from_slice(name.as_bytes());
    }

    fn word(&mut self, n: u64) {
        self.bytes.push(b' ');
        for i in 0..16 {
            self.bytes.push(b"0123456789abcdef"[(n >> (60 - 4 * i)) as usize & 15]);
        }
    }

    fn flag(&mut self, b: bool) {
        self.word(b as u64);
    }

    fn number(&mut self, x: f64) {
        self.word(if x.is_nan() { NAN } else { x.to_bits() });
    }

    fn numbers(&mut self, xs: &[f64]) {
        for x in xs {
            self.number(*x);
        }
    }

    fn rect(&mut self, r: Rect) {
        self.numbers(&[r.x0, r.y0, r.x1, r.y1]);
    }

    fn insets(&mut self, s: Insets) {
        self.numbers(&[s.x0, s.y0, s.x1, s.y1]);
    }

    fn affine(&mut self, t: Affine) {
        self.numbers(&t.as_coeffs());
    }

    fn point(&mut self, p: Point) {
        self.numbers(&[p.x, p.y]);
    }

    fn clip(&mut self, c: Clip) {
        self.word(c.kind);
        self.rect(c.rect);
        self.numbers(&c.radii);
    }
}

// The rotation. `clip_contains`, which has the most to tell, stands in it three times.
const NAMES: [&str; 33] = [
    "min",
    "max",
    "abs",
    "is_finite",
    "rect_width",
    "rect_height",
    "rect_abs",
    "clip_contains",
    "rect_intersect",
    "rect_union",
    "rect_contains",
    "rect_add",
    "rect_has_area",
    "rect_eq",
    "rect_is_finite",
    "insets_eq",
    "insets_is_zero",
    "insets_is_finite",
    "clip_contains",
    "affine_identity",
    "affine_mul",
    "affine_inverse",
    "affine_map_point",
    "affine_eq",
    "affine_is_finite",
    "clip_construct",
    "clip_rect",
    "clip_contains",
    "clip_eq",
    "clip_eq_as_is",
    "clip_is_finite",
    "clip_is_finite_as_is",
    "transform_rect_bbox",
];

fn number_vector(name: &str, d: &mut Draw, l: &mut Line) {
    let x = d.number();
    l.number(x);
    match name {
        "abs" => l.number(x.abs()),
        "is_finite" => l.flag(x.is_finite()),
        _ => {
            let y = if d.one_in(3) { d.again(x) } else { d.number() };
            l.number(y);
            l.number(if name == "min" { x.min(y) } else { x.max(y) });
        }
    }
}

fn rect_vector(name: &str, d: &mut Draw, l: &mut Line) {
    let r = d.rect();
    l.rect(r);
    match name {
        "rect_width" => l.number(r.width()),
        "rect_height" => l.number(r.height()),
        "rect_abs" => l.rect(r.abs()),
        "rect_has_area" => l.flag(r.width() > 0.0 && r.height() > 0.0),
        "rect_is_finite" => l.flag(finite_rect(r)),
        "rect_contains" => {
            let p = d.point_near(r, 1.0);
            l.point(p);
            l.flag(r.contains(p));
        }
        "rect_add" => {
            let s = d.insets();
            l.insets(s);
            l.rect(r + s);
        }
        _ => {
            let q = if d.one_in(2) { d.rect_again(r) } else { d.rect() };
            l.rect(q);
            match name {
                "rect_intersect" => l.rect(r.intersect(q)),
                "rect_union" => l.rect(r.union(q)),
                _ => l.flag(r == q),
            }
        }
    }
}

fn insets_vector(name: &str, d: &mut Draw, l: &mut Line) {
    let s = d.insets();
    l.insets(s);
    match name {
        "insets_is_zero" => l.flag(s == Insets::ZERO),
        "insets_is_finite" => l.flag(finite_insets(s)),
        _ => {
            let q = d.insets();
            let q = if d.one_in(3) { q } else { Insets::new(d.again(s.x0), d.again(s.y0), d.again(s.x1), d.again(s.y1)) };
            l.insets(q);
            l.flag(s == q);
        }
    }
}

fn affine_vector(name: &str, d: &mut Draw, l: &mut Line) {
    if name == "affine_identity" {
        l.affine(identity());
        return;
    }
    let t = d.affine();
    l.affine(t);
    match name {
        "affine_inverse" => l.affine(t.inverse()),
        "affine_is_finite" => l.flag(finite_affine(t)),
        "affine_map_point" => {
            let p = d.point();
            l.point(p);
            l.point(t * p);
        }
        "affine_mul" => {
            let u = d.affine();
            l.affine(u);
            l.affine(t * u);
        }
        _ => {
            let u = if d.one_in(3) { d.affine() } else { Affine::new(t.as_coeffs().map(|x| d.again(x))) };
            l.affine(u);
            l.flag(t == u);
        }
    }
}

fn clip_vector(name: &str, d: &mut Draw, l: &mut Line) {
    let c = d.clip();
    match name {
        "clip_eq" => {
            let k = d.clip_again(c);
            l.clip(c);
            l.clip(k);
            l.flag(c.made() == k.made());
        }
        "clip_eq_as_is" => {
            let k = d.clip_again(c);
            l.clip(as_is(d, c));
            l.clip(as_is(d, k));
            l.flag(c.made() == k.made());
        }
        _ => {
            l.clip(c);
            one_clip(name, d, c, l);
        }
    }
}

fn one_clip(name: &str, d: &mut Draw, c: Clip, l: &mut Line) {
    let made = c.made();
    match name {
        "clip_construct" => l.clip(Clip::of(made)),
        "clip_rect" => {
            l.flag(made.is_some());
            l.rect(made.map_or(Rect::ZERO, |r| r.rect()));
        }
        "clip_contains" => {
            let p = made.map_or(Point::ZERO, |r| d.point_of(r.rect(), radii_of(&r)));
            l.point(p);
            l.flag(made.is_none_or(|r| r.contains(p)));
        }
        "clip_is_finite" => l.flag(made.is_none_or(finite_rounded)),
        _ => l.flag(c.kind == 0 || finite_rect(c.rect) && (c.kind == 1 || finite_radii(c.radii))),
    }
}

fn vector(name: &str, d: &mut Draw, l: &mut Line) {
    let kind = name.split('_').next().unwrap();
    d.begin(kind, name);
    l.name(name);
    match kind {
        "rect" => rect_vector(name, d, l),
        "insets" => insets_vector(name, d, l),
        "affine" => affine_vector(name, d, l),
        "clip" => clip_vector(name, d, l),
        "transform" => {
            let t = d.affine();
            let r = d.rect();
            l.affine(t);
            l.rect(r);
            l.rect(transform_rect_bbox(t, r));
        }
        _ => number_vector(name, d, l),
    }
    l.bytes.push(b'\n');
}

fn main() {
    let words: Vec<Option<u64>> = std::env::args().skip(1).map(|w| w.parse().ok()).collect();
    let [Some(seed), Some(count)] = words[..] else {
        eprintln!("usage: kurbo_vectors SEED COUNT: two whole numbers");
        std::process::exit(2);
    };
    let left_out = |name: &str| ONE_RADIUS && name.contains("is_finite") && name != "is_finite";
    let names: Vec<&str> = NAMES.into_iter().filter(|name| !left_out(name)).collect();
    let mut draw = Draw { state: seed, style: 0, pool: [0.0; 3] };
    let mut line = Line { bytes: Vec::new() };
    let mut out = std::io::BufWriter::with_capacity(1 << 16, std::io::stdout().lock());
    for i in 0..count {
        line.bytes.clear();
        vector(names[(i % names.len() as u64) as usize], &mut draw, &mut line);
        out.write_all(&line.bytes).unwrap();
    }
    out.flush().unwrap();
}
