//! `planner plan` in plain Rust over i128, for comparison: the same loops on the same document, which is taken to be
//! lawful. It reads the document on standard input and prints the lines of `plan`. With a number of runs it prints on
//! standard error the times of the parts, the least of so many runs, and what was counted.
//! usage: plan [RUNS] < DOCUMENT
use std::cmp::Ordering;
use std::io::{Read, Write};
use std::ops::Range;
use std::time::Instant;
use std::{env, io};

const MOST_SIZE: usize = 131_072;

// ---- numbers and points

#[derive(Clone, Copy, PartialEq, Eq, PartialOrd, Ord)]
struct Spot {
    x: i32,
    y: i32,
}

#[derive(Clone, Copy)]
struct Frame {
    low: Spot,
    high: Spot,
}

// A fraction in lowest terms.
#[derive(Clone, Copy)]
struct Ratio {
    num: i64,
    den: i64,
}

// A point in lowest terms.
#[derive(Clone, Copy)]
struct Point {
    x: i64,
    y: i64,
    w: i64,
}

// A point that need not be in lowest terms.
#[derive(Clone, Copy)]
struct Triple {
    x: i128,
    y: i128,
    w: i128,
}

const fn at(x: i32, y: i32) -> Spot {
    Spot { x, y }
}

// The cross product of `b - a` and `c - a`.
fn turn(a: Spot, b: Spot, c: Spot) -> i128 {
    let (bx, by) = (b.x as i128 - a.x as i128, b.y as i128 - a.y as i128);
    let (cx, cy) = (c.x as i128 - a.x as i128, c.y as i128 - a.y as i128);
    bx * cy - by * cx
}

fn gcd(a: u64, b: u64) -> u64 {
    if a == 0 {
        return b;
    }
    if b == 0 {
        return a;
    }
    let twos = a.trailing_zeros().min(b.trailing_zeros());
    let (mut x, mut y) = (odd_part(a), odd_part(b));
    while x != y {
        (x, y) = (odd_part(x.abs_diff(y)), x.min(y));
    }
    x << twos
}

fn odd_part(n: u64) -> u64 {
    n >> n.trailing_zeros()
}

fn lcm(a: u64, b: u64) -> u64 {
    a / gcd(a, b) * b
}

fn fraction_order(a: i64, b: i64, c: i64, d: i64) -> Ordering {
    (a as i128 * d as i128).cmp(&(c as i128 * b as i128))
}

impl Ord for Ratio {
    fn cmp(&self, other: &Ratio) -> Ordering {
        fraction_order(self.num, self.den, other.num, other.den)
    }
}

impl Ratio {
    fn new(num: i128, den: i128) -> Ratio {
        let (num, den) = (num as i64, den as i64);
        let d = gcd(num.unsigned_abs(), den.unsigned_abs()) as i64;
        Ratio { num: num / d, den: den / d }
    }

    // The numerator over a multiple of the denominator.
    fn over(self, l: u64) -> i128 {
        self.num as i128 * (l / self.den as u64) as i128
    }
}

impl Ord for Point {
    fn cmp(&self, other: &Point) -> Ordering {
        fraction_order(self.x, self.w, other.x, other.w).then_with(|| fraction_order(self.y, self.w, other.y, other.w))
    }
}

impl Point {
    fn of(spot: Spot) -> Point {
        Point { x: spot.x as i64, y: spot.y as i64, w: 1 }
    }

    fn lowest(x: i64, y: i64, w: i64) -> Point {
        let d = gcd(gcd(x.unsigned_abs(), y.unsigned_abs()), w.unsigned_abs()) as i64;
        Point { x: x / d, y: y / d, w: w / d }
    }

    fn at(x: Ratio, y: Ratio) -> Point {
        let l = lcm(x.den as u64, y.den as u64);
        Point::lowest(x.over(l) as i64, y.over(l) as i64, l as i64)
    }
}

macro_rules! ordered {
    ($($name:ident)*) => {$(
        impl PartialOrd for $name {
            fn partial_cmp(&self, other: &$name) -> Option<Ordering> {
                Some(self.cmp(other))
            }
        }

        impl PartialEq for $name {
            fn eq(&self, other: &$name) -> bool {
                self.cmp(other).is_eq()
            }
        }

        impl Eq for $name {}
    )*};
}

ordered!(Ratio Point Level);

fn middle(a: Ratio, b: Ratio) -> Ratio {
    let l = lcm(a.den as u64, b.den as u64);
    Ratio::new(a.over(l) + b.over(l), 2 * l as i128)
}

// The y of the segment from `a` to `b` at `x`.
fn height(a: Spot, b: Spot, x: Ratio) -> Ratio {
    let way_to = |a: i32| x.num as i128 - a as i128 * x.den as i128;
    let (past, left) = (way_to(a.x), -way_to(b.x));
    Ratio::new(a.y as i128 * left + b.y as i128 * past, past + left)
}

impl Triple {
    // Whether it is strictly right of the line from `a` to `b`.
    fn is_right(self, a: Spot, b: Spot) -> bool {
        let (run, rise) = (b.x as i128 - a.x as i128, b.y as i128 - a.y as i128);
        run * (self.y - a.y as i128 * self.w) < rise * (self.x - a.x as i128 * self.w)
    }
}

// ---- polygons and their sums

type Triangle = [Spot; 3];

#[derive(Clone, Copy)]
struct Convex {
    spots: [Spot; 6],
    count: usize,
}

fn edge(spots: &[Spot], i: usize) -> (Spot, Spot) {
    (spots[i], spots[(i + 1) % spots.len()])
}

fn turn_to_least(spots: &mut [Spot]) {
    let mut least = spots.len() - 1;
    for i in (0..spots.len() - 1).rev() {
        if spots[least] >= spots[i] {
            least = i;
        }
    }
    spots.rotate_left(least);
}

// Counterclockwise from the least vertex.
fn counterclockwise(mut spots: Vec<Spot>) -> Vec<Spot> {
    turn_to_least(&mut spots);
    if turn(spots[spots.len() - 1], spots[0], spots[1]) < 0 {
        spots.reverse();
        spots.rotate_right(1);
    }
    spots
}

// The vertex in the ear that is farthest from the line through the neighbours, the first of several.
fn farthest(v: Spot, w: Spot, u: Spot, spots: &[Spot]) -> Option<usize> {
    let mut found: Option<usize> = None;
    for i in (0..spots.len()).rev() {
        let z = spots[i];
        if turn(v, w, z) >= 0 && turn(w, u, z) >= 0 && turn(u, v, z) >= 0 {
            found = match found {
                Some(k) if turn(w, u, z) < turn(w, u, spots[k]) => Some(k),
                _ => Some(i),
            };
        }
    }
    found
}

fn cut(mut spots: Vec<Spot>, list: &mut Vec<Triangle>) {
    if spots.len() < 3 {
        return;
    }
    turn_to_least(&mut spots);
    let last = spots.len() - 1;
    let (v, w, u) = (spots[0], spots[1], spots[last]);
    match farthest(v, w, u, &spots[2..last]) {
        None => {
            spots.remove(0);
            list.push([v, w, u]);
            cut(spots, list);
        }
        Some(k) => {
            let first = spots[..k + 3].to_vec();
            let mut second = spots[k + 2..].to_vec();
            second.push(v);
            cut(first, list);
            cut(second, list);
        }
    }
}

fn triangulate(spots: &[Spot]) -> Vec<Triangle> {
    let mut list = Vec::with_capacity(spots.len());
    cut(counterclockwise(spots.to_vec()), &mut list);
    list
}

// The sum of a triangle and the reflected robot, as the hull of the nine differences.
fn sum(obstacle: Triangle, robot: Triangle) -> Convex {
    let mut all: Vec<_> = obstacle.iter().flat_map(|o| robot.map(|r| at(o.x - r.x, o.y - r.y))).collect();
    all.sort_unstable();
    all.dedup();
    let half = |spots: &mut dyn Iterator<Item = &Spot>| {
        let mut chain: Vec<Spot> = Vec::new();
        for spot in spots {
            while chain.len() > 1 && turn(chain[chain.len() - 2], chain[chain.len() - 1], *spot) <= 0 {
                chain.pop();
            }
            chain.push(*spot);
        }
        chain.pop();
        chain
    };
    let mut hull = half(&mut all.iter());
    hull.extend(half(&mut all.iter().rev()));
    let mut spots = [at(0, 0); 6];
    spots[..hull.len()].copy_from_slice(&hull);
    Convex { spots, count: hull.len() }
}

impl Convex {
    fn spots(&self) -> &[Spot] {
        &self.spots[..self.count]
    }

    fn edges(&self) -> impl Iterator<Item = (Spot, Spot)> + '_ {
        (0..self.count).map(|i| edge(self.spots(), i))
    }

    // Whether it holds the spot, its boundary included.
    fn holds(&self, z: Spot) -> bool {
        self.edges().all(|(a, b)| turn(a, b, z) >= 0)
    }

    fn holds_at(&self, z: Triple, tally: &mut impl Tally) -> bool {
        self.edges().all(|(a, b)| {
            tally.side();
            !z.is_right(a, b)
        })
    }

    fn covers(&self, z: Spot) -> bool {
        self.edges().all(|(a, b)| turn(a, b, z) > 0)
    }
}

fn bounds(spots: &[Spot]) -> Frame {
    let (mut low, mut high) = (spots[0], spots[0]);
    for spot in spots {
        low = at(low.x.min(spot.x), low.y.min(spot.y));
        high = at(high.x.max(spot.x), high.y.max(spot.y));
    }
    Frame { low, high }
}

// A floor with the sums of its obstacles and who they are of.
struct Scene {
    sums: Vec<Convex>,
    boxes: Vec<Frame>,
    owners: Vec<i64>,
    room: Frame,
}

impl Scene {
    fn of(document: &Document) -> Scene {
        let robot = triangulate(&document.robot);
        let mut obstacles: Vec<_> = document.obstacles.iter().collect();
        obstacles.sort_by_key(|obstacle| obstacle.0);
        let (mut sums, mut owners) = (Vec::new(), Vec::new());
        for (id, shape) in obstacles {
            for t in triangulate(shape) {
                sums.extend(robot.iter().map(|r| sum(t, *r)));
                owners.resize(sums.len(), *id);
            }
        }
        let (frame, robot) = (document.frame, bounds(&document.robot));
        let room = Frame {
            low: at(frame.low.x - robot.low.x, frame.low.y - robot.low.y),
            high: at(frame.high.x - robot.high.x, frame.high.y - robot.high.y),
        };
        let boxes = sums.iter().map(|sum: &Convex| bounds(sum.spots())).collect();
        Scene { sums, boxes, owners, room }
    }

    // What the spot touches: 0 for the frame, else the obstacle.
    fn touches(&self, z: Spot) -> Option<i64> {
        let Frame { low, high } = self.room;
        if z.x <= low.x || high.x <= z.x || z.y <= low.y || high.y <= z.y {
            return Some(0);
        }
        let holds = |i: &usize| !are_apart(self.boxes[*i], Frame { low: z, high: z }) && self.sums[*i].holds(z);
        (0..self.sums.len()).find(holds).map(|i| self.owners[i])
    }
}

// ---- uncovered pieces

#[derive(Clone, Copy)]
struct Parameter {
    num: i128,
    den: i128,
}

#[derive(Clone, Copy)]
struct Part {
    from: Parameter,
    to: Parameter,
}

#[derive(Clone, Copy)]
struct Piece {
    edge: u32,
    a: Point,
    b: Point,
}

const ZERO: Parameter = Parameter { num: 0, den: 1 };
const ONE: Parameter = Parameter { num: 1, den: 1 };

fn balance(first: i128, second: i128) -> Parameter {
    Parameter { num: first, den: first + second }
}

fn at_most(p: Parameter, q: Parameter) -> bool {
    p.num * q.den <= q.num * p.den
}

fn lowest(p: Parameter) -> Parameter {
    let ratio = Ratio::new(p.num, p.den);
    Parameter { num: ratio.num as i128, den: ratio.den as i128 }
}

impl Part {
    fn starting_at(self, p: Parameter) -> Part {
        if at_most(p, self.from) {
            self
        } else {
            Part { from: p, ..self }
        }
    }

    fn ending_at(self, p: Parameter) -> Part {
        if at_most(self.to, p) {
            self
        } else {
            Part { to: p, ..self }
        }
    }

    fn where_not_negative(self, at_a: i128, at_b: i128) -> Part {
        if at_a < 0 {
            if at_b < 0 {
                Part { from: ONE, to: ZERO }
            } else {
                self.starting_at(balance(-at_a, at_b))
            }
        } else if at_b < 0 {
            self.ending_at(balance(at_a, -at_b))
        } else {
            self
        }
    }
}

impl Convex {
    fn clip(&self, a: Spot, b: Spot) -> Option<Part> {
        let mut part = Part { from: ZERO, to: ONE };
        for (u, v) in self.edges() {
            let (at_a, at_b) = (turn(u, v, a), turn(u, v, b));
            part = if at_a > 0 {
                if at_b < 0 {
                    part.ending_at(balance(at_a, -at_b))
                } else {
                    part
                }
            } else if at_b > 0 {
                part.starting_at(balance(-at_a, at_b))
            } else {
                return None;
            };
        }
        if at_most(part.to, part.from) {
            return None;
        }
        Some(Part { from: lowest(part.from), to: lowest(part.to) })
    }
}

fn are_apart(f: Frame, g: Frame) -> bool {
    f.high.x < g.low.x || f.high.y < g.low.y || g.high.x < f.low.x || g.high.y < f.low.y
}

impl Scene {
    fn edge_count(&self) -> usize {
        4 + self.sums.iter().map(|sum| sum.count).sum::<usize>()
    }

    // The edge of that number: those of the sums, then the sides of the room.
    fn edge_of(&self, number: usize) -> (Spot, Spot) {
        let mut left = number;
        for sum in &self.sums {
            if left < sum.count {
                return edge(sum.spots(), left);
            }
            left -= sum.count;
        }
        let Frame { low, high } = self.room;
        let (lower_right, upper_left) = (at(high.x, low.y), at(low.x, high.y));
        [(low, lower_right), (lower_right, high), (upper_left, high), (low, upper_left)][left]
    }

    fn part_in_room(&self, a: Spot, b: Spot) -> Part {
        let Frame { low, high } = self.room;
        let way = |p: i32, q: i32| q as i128 - p as i128;
        Part { from: ZERO, to: ONE }
            .where_not_negative(way(low.x, a.x), way(low.x, b.x))
            .where_not_negative(way(a.x, high.x), way(b.x, high.x))
            .where_not_negative(way(low.y, a.y), way(low.y, b.y))
            .where_not_negative(way(a.y, high.y), way(b.y, high.y))
    }

    fn pieces_of(&self, number: usize) -> Vec<Piece> {
        let (p, q) = self.edge_of(number);
        let (a, b) = if q < p { (q, p) } else { (p, q) };
        let within = self.part_in_room(a, b);
        let edge_box = bounds(&[a, b]);
        let (mut parts, mut first, mut last) = (Vec::new(), false, false);
        for (sum, bounds) in self.sums.iter().zip(&self.boxes) {
            if are_apart(edge_box, *bounds) {
                continue;
            }
            if let Some(part) = sum.clip(a, b) {
                parts.push(part);
                first |= sum.covers(a);
                last |= sum.covers(b);
            }
        }
        parts.sort_unstable_by(|p, q| (p.from.num * q.from.den).cmp(&(q.from.num * p.from.den)));
        let mut found = Vec::new();
        for gap in gaps(within, &parts) {
            if !(first && at_most(gap.to, ZERO)) && !(last && at_most(ONE, gap.from)) {
                found.push(Piece { edge: number as u32, a: along(gap.from, a, b), b: along(gap.to, a, b) });
            }
        }
        found
    }

    fn uncovered(&self) -> Vec<Piece> {
        if self.room.high.x <= self.room.low.x || self.room.high.y <= self.room.low.y {
            return Vec::new();
        }
        let lists: Vec<_> = (0..self.edge_count()).map(|number| self.pieces_of(number)).collect();
        lists.concat()
    }
}

// What the parts, in the order of where they begin, leave.
fn gaps(within: Part, parts: &[Part]) -> Vec<Part> {
    let mut found = Vec::new();
    let mut from = within.from;
    for part in parts {
        if !at_most(part.from, within.to) {
            break;
        }
        if !at_most(part.to, from) {
            if at_most(from, part.from) {
                found.push(Part { from, to: part.from });
            }
            from = part.to;
        }
    }
    if at_most(from, within.to) {
        found.push(Part { from, to: within.to });
    }
    found
}

// The point of the edge from `a` to `b` that is so far along it.
fn along(p: Parameter, a: Spot, b: Spot) -> Point {
    let mean = |a: i32, b: i32| ((p.den - p.num) * a as i128 + p.num * b as i128) as i64;
    Point::lowest(mean(a.x, b.x), mean(a.y, b.y), p.den as i64)
}

// ---- slabs

// An edge from left to right.
#[derive(Clone, Copy)]
struct Strand {
    a: Spot,
    b: Spot,
}

#[derive(Clone, Copy)]
struct Bar {
    number: u32,
    piece: Piece,
    strand: Strand,
}

// A height that need not be in lowest terms.
#[derive(Clone, Copy)]
struct Level {
    num: i128,
    den: i128,
}

#[derive(Clone, Copy)]
struct Rung {
    level: Level,
    number: u32,
    strand: Strand,
}

#[derive(Clone, Copy, PartialEq)]
enum Lot {
    Cell { slab: u32, at: u32 },
    Wall { line: u32, at: u32 },
}

struct Row {
    left: Range<u32>,
    right: Range<u32>,
}

struct Slabs {
    lines: Vec<Ratio>,
    spans: Vec<Vec<Strand>>,
    marks: Vec<Vec<Ratio>>,
    lots: Vec<Lot>,
    ends: Vec<Vec<(u32, u32)>>,
    rows: Vec<Row>,
}

// The spans of each slab and the marks of each line.
#[derive(Default)]
struct Swept {
    spans: Vec<Vec<Strand>>,
    marks: Vec<Vec<Ratio>>,
    size: usize,
    lines: usize,
    active: usize,
    most_active: usize,
    is_whole: bool,
}

impl Ord for Level {
    fn cmp(&self, other: &Level) -> Ordering {
        (self.num * other.den).cmp(&(other.num * self.den))
    }
}

fn lines_of(pieces: &[Piece]) -> Vec<Ratio> {
    let x_of = |p: Point| Ratio::new(p.x as i128, p.w as i128);
    let mut lines = Vec::new();
    for piece in pieces {
        lines.push(x_of(piece.a));
        lines.push(x_of(piece.b));
    }
    lines.sort_unstable();
    lines.dedup();
    lines
}

fn is_by(p: Point, line: Ratio) -> bool {
    p.x as i128 * line.den as i128 <= line.num as i128 * p.w as i128
}

fn is_from(p: Point, line: Ratio) -> bool {
    line.num as i128 * p.w as i128 <= p.x as i128 * line.den as i128
}

impl Piece {
    fn is_upright(&self) -> bool {
        self.a.x as i128 * self.b.w as i128 == self.b.x as i128 * self.a.w as i128
    }
}

fn bars_of(scene: &Scene, pieces: &[Piece]) -> Vec<Bar> {
    let mut bars = Vec::new();
    for (i, piece) in pieces.iter().enumerate() {
        let (p, q) = scene.edge_of(piece.edge as usize);
        let strand = if q.x < p.x { Strand { a: q, b: p } } else { Strand { a: p, b: q } };
        bars.push(Bar { number: i as u32, piece: *piece, strand });
    }
    bars.sort_unstable_by_key(|bar| bar.piece.a);
    bars
}

fn marks_at(bars: &[Bar], line: Ratio) -> Vec<Ratio> {
    let mut marks = Vec::new();
    for bar in bars {
        if bar.piece.is_upright() {
            let (low, high) = (bar.piece.a, bar.piece.b);
            marks.push(Ratio::new(low.y as i128, low.w as i128));
            marks.push(Ratio::new(high.y as i128, high.w as i128));
        } else {
            marks.push(height(bar.strand.a, bar.strand.b, line));
        }
    }
    marks.sort_unstable();
    marks.dedup();
    marks
}

// A point strictly between two lines.
fn between_lines(left: Ratio, right: Ratio) -> Triple {
    Triple { x: left.num as i128 + right.num as i128, y: 0, w: left.den as i128 + right.den as i128 }
}

// The point of the strand's line at the x of `z`.
fn foot(s: Strand, z: Triple) -> Triple {
    let left = s.b.x as i128 * z.w - z.x;
    let past = z.x - s.a.x as i128 * z.w;
    Triple {
        x: left * s.a.x as i128 + past * s.b.x as i128,
        y: left * s.a.y as i128 + past * s.b.y as i128,
        w: left + past,
    }
}

fn spans_between(bars: &[Bar], left: Ratio, right: Ratio) -> Vec<Strand> {
    let x = between_lines(left, right);
    let mut rungs = Vec::new();
    for bar in bars {
        let foot = foot(bar.strand, x);
        rungs.push(Rung { level: Level { num: foot.y, den: foot.w }, number: bar.number, strand: bar.strand });
    }
    rungs.sort_unstable_by_key(|rung| (rung.level, rung.number));
    rungs.dedup_by_key(|rung| rung.level);
    rungs.iter().map(|rung| rung.strand).collect()
}

// Adds the bars that begin on the line or on its left, and keeps those that end on it or on its right.
fn take_up(bars: &[Bar], next: usize, line: Ratio, active: &mut Vec<Bar>) -> usize {
    let mut upto = next;
    while upto < bars.len() && is_by(bars[upto].piece.a, line) {
        active.push(bars[upto]);
        upto += 1;
    }
    active.retain(|bar| is_from(bar.piece.b, line));
    upto
}

fn sweep(scene: &Scene, pieces: &[Piece], lines: &[Ratio]) -> Swept {
    let bars = bars_of(scene, pieces);
    let mut swept = Swept::default();
    let (mut next, mut active) = (0, Vec::new());
    for (k, line) in lines.iter().enumerate() {
        next = take_up(&bars, next, *line, &mut active);
        let marks = marks_at(&active, *line);
        swept.size += marks.len();
        swept.marks.push(marks);
        swept.lines += 1;
        if swept.size > MOST_SIZE {
            return swept;
        }
        let Some(right) = lines.get(k + 1) else { break };
        active.retain(|bar| is_from(bar.piece.b, *right));
        swept.active += active.len();
        swept.most_active = swept.most_active.max(active.len());
        let spans = spans_between(&active, *line, *right);
        swept.size += spans.len();
        swept.spans.push(spans);
        if swept.size > MOST_SIZE {
            return swept;
        }
    }
    swept.is_whole = true;
    swept
}

// ---- free lots

// What free tests look at.
trait Tally {
    fn test(&mut self) {}
    fn side(&mut self) {}
}

impl Tally for () {}

#[derive(Default)]
struct Tests {
    boxes: u64,
    sides: u64,
}

impl Tally for Tests {
    fn test(&mut self) {
        self.boxes += 1;
    }

    fn side(&mut self) {
        self.sides += 1;
    }
}

fn halfway(u: Triple, v: Triple) -> Triple {
    Triple { x: u.x * v.w + v.x * u.w, y: u.y * v.w + v.y * u.w, w: 2 * (u.w * v.w) }
}

// The point on a line halfway between two marks.
fn between_marks(line: Ratio, low: Ratio, high: Ratio) -> Triple {
    let sum = low.num as i128 * high.den as i128 + high.num as i128 * low.den as i128;
    let both = 2 * (low.den as i128 * high.den as i128);
    Triple { x: line.num as i128 * both, y: line.den as i128 * sum, w: line.den as i128 * both }
}

fn is_between(low: i32, a: i128, high: i32, w: i128) -> bool {
    low as i128 * w <= a && a <= high as i128 * w
}

fn is_inside(low: i32, a: i128, high: i32, w: i128) -> bool {
    (low as i128 * w) < a && a < high as i128 * w
}

fn near(boxes: &[Frame], z: Triple) -> Vec<usize> {
    let mut numbers = Vec::new();
    for (i, bounds) in boxes.iter().enumerate() {
        if is_between(bounds.low.x, z.x, bounds.high.x, z.w) {
            numbers.push(i);
        }
    }
    numbers
}

fn is_clear(scene: &Scene, near: &[usize], z: Triple, tally: &mut impl Tally) -> bool {
    let Frame { low, high } = scene.room;
    if !is_inside(low.x, z.x, high.x, z.w) || !is_inside(low.y, z.y, high.y, z.w) {
        return false;
    }
    for i in near {
        tally.test();
        let bounds = scene.boxes[*i];
        if is_between(bounds.low.y, z.y, bounds.high.y, z.w) && scene.sums[*i].holds_at(z, tally) {
            return false;
        }
    }
    true
}

// The free cells of the slab, then the free walls of the line on its right.
fn free_of_slab(scene: &Scene, lines: &[Ratio], swept: &Swept, k: usize, tally: &mut impl Tally) -> Vec<Lot> {
    let x = between_lines(lines[k], lines[k + 1]);
    let close = near(&scene.boxes, x);
    let mut found = Vec::new();
    for (i, pair) in swept.spans[k].windows(2).enumerate() {
        let z = halfway(foot(pair[0], x), foot(pair[1], x));
        if is_clear(scene, &close, z, tally) {
            found.push(Lot::Cell { slab: k as u32, at: i as u32 });
        }
    }
    let line = lines[k + 1];
    let close = near(&scene.boxes, Triple { x: line.num as i128, y: 0, w: line.den as i128 });
    let mut walls = Vec::new();
    for (i, pair) in swept.marks[k + 1].windows(2).enumerate() {
        let z = between_marks(line, pair[0], pair[1]);
        if is_clear(scene, &close, z, tally) {
            walls.push(Lot::Wall { line: k as u32 + 1, at: i as u32 });
        }
    }
    found.extend_from_slice(&walls);
    found
}

fn free_lots(scene: &Scene, lines: &[Ratio], swept: &Swept, tally: &mut impl Tally) -> Vec<Lot> {
    let lists: Vec<_> = (0..swept.spans.len()).map(|k| free_of_slab(scene, lines, swept, k, tally)).collect();
    lists.concat()
}

// ---- neighbours

impl Lot {
    fn key(self) -> u64 {
        match self {
            Lot::Cell { slab, at } => (2 * slab as u64 + 1) * 131_072 + at as u64,
            Lot::Wall { line, at } => 2 * line as u64 * 131_072 + at as u64,
        }
    }
}

// Of each span the number of the mark in which it meets the line.
fn numbers_on(spans: &[Strand], line: Ratio, marks: &[Ratio]) -> Vec<u32> {
    let mut numbers = Vec::new();
    let mut at = 0;
    for span in spans {
        let is_below = |mark: Ratio| {
            let (line, mark) = ((line.num as i128, line.den as i128), (mark.num as i128, mark.den as i128));
            Triple { x: line.0 * mark.1, y: mark.0 * line.1, w: line.1 * mark.1 }.is_right(span.a, span.b)
        };
        while at < marks.len() && is_below(marks[at]) {
            at += 1;
        }
        numbers.push(at as u32);
    }
    numbers
}

fn ends_of(lines: &[Ratio], spans: &[Vec<Strand>], marks: &[Vec<Ratio>]) -> Vec<Vec<(u32, u32)>> {
    let ends_of_slab = |k: usize| {
        let lefts = numbers_on(&spans[k], lines[k], &marks[k]);
        let rights = numbers_on(&spans[k], lines[k + 1], &marks[k + 1]);
        lefts.into_iter().zip(rights).collect()
    };
    (0..spans.len()).map(ends_of_slab).collect()
}

fn are_below(lots: &[Lot], number: u32, least: u64) -> bool {
    if number == 0 {
        return true;
    }
    let last = number as usize - 1;
    last < lots.len() && lots[last].key() < least
}

// The number of the first lot of that key or a greater one, by a walk from `near` on where the lots before it have
// lesser keys.
fn first_from_near(lots: &[Lot], near: u32, least: u64) -> usize {
    if !are_below(lots, near, least) {
        return lots.partition_point(|lot| lot.key() < least);
    }
    for at in near as usize..lots.len() {
        if least <= lots[at].key() {
            return at;
        }
    }
    lots.len()
}

fn between(lots: &[Lot], near: u32, from: Lot, to: Lot) -> Range<u32> {
    let start = first_from_near(lots, near, from.key());
    let limit = to.key();
    for end in start..lots.len() {
        if limit <= lots[end].key() {
            return start as u32..end as u32;
        }
    }
    start as u32..lots.len() as u32
}

fn walls(lots: &[Lot], near: u32, line: u32, low: u32, high: u32) -> Range<u32> {
    between(lots, near, Lot::Wall { line, at: low }, Lot::Wall { line, at: high })
}

fn cell_before(lots: &[Lot], near: u32, slab: u32, span: usize) -> Range<u32> {
    let from = span.saturating_sub(1) as u32;
    between(lots, near, Lot::Cell { slab, at: from }, Lot::Cell { slab, at: span as u32 })
}

// The neighbours of a cell or a wall, which may be sought from `near_left` and from `near_right` on.
fn row_of(lots: &[Lot], ends: &[Vec<(u32, u32)>], near_left: u32, near_right: u32, lot: Lot) -> Row {
    match lot {
        Lot::Cell { slab, at } => {
            let (low, high) = (ends[slab as usize][at as usize], ends[slab as usize][at as usize + 1]);
            Row {
                left: walls(lots, near_left, slab, low.0, high.0),
                right: walls(lots, near_right, slab + 1, low.1, high.1),
            }
        }
        Lot::Wall { line, at } => {
            let left = &ends[line as usize - 1];
            let right = &ends[line as usize];
            Row {
                left: cell_before(lots, near_left, line - 1, left.partition_point(|end| end.1 <= at)),
                right: cell_before(lots, near_right, line, right.partition_point(|end| end.0 <= at)),
            }
        }
    }
}

// ---- the map

// The point halfway between two spans at the x of `z`.
fn cell_point(low: Strand, high: Strand, z: Triple) -> Point {
    let run = |s: Strand| s.b.x as i128 - s.a.x as i128;
    let (p, q) = (run(low), run(high));
    let doubled = |a: i128| (2 * (a * (p * q))) as i64;
    Point::lowest(doubled(z.x), (foot(low, z).y * q + foot(high, z).y * p) as i64, doubled(z.w))
}

const NOWHERE: u32 = u32::MAX;

fn visit(seen: &mut Vec<u32>, distances: &mut [Option<u32>], region: u32, steps: u32) {
    if distances[region as usize].is_none() {
        distances[region as usize] = Some(steps);
        seen.push(region);
    }
}

impl Row {
    fn spread(&self, seen: &mut Vec<u32>, distances: &mut [Option<u32>], steps: u32) {
        for region in self.left.clone() {
            visit(seen, distances, region, steps);
        }
        for region in self.right.clone() {
            visit(seen, distances, region, steps);
        }
    }
}

impl Slabs {
    fn labels(&self) -> Vec<u32> {
        let mut labels = vec![None; self.rows.len()];
        let mut seen = Vec::new();
        for region in 0..self.rows.len() as u32 {
            let mut head = seen.len();
            visit(&mut seen, &mut labels, region, region);
            while head < seen.len() {
                let here: u32 = seen[head];
                self.rows[here as usize].spread(&mut seen, &mut labels, region);
                head += 1;
            }
        }
        labels.into_iter().map(|label| label.unwrap_or(NOWHERE)).collect()
    }

    fn distances(&self, goal: u32) -> Vec<Option<u32>> {
        let mut distances = vec![None; self.rows.len()];
        distances[goal as usize] = Some(0);
        let mut seen = vec![goal];
        let mut head = 0;
        while head < seen.len() {
            let region = seen[head];
            if let Some(steps) = distances[region as usize] {
                self.rows[region as usize].spread(&mut seen, &mut distances, steps + 1);
            }
            head += 1;
        }
        distances
    }

    fn walk(&self, from: u32, to: u32) -> Option<Vec<u32>> {
        let distances = self.distances(to);
        let mut left = distances[from as usize]?;
        let (mut taken, mut here) = (vec![from], from);
        while left > 0 {
            let row = &self.rows[here as usize];
            let nearer = |region: &u32| distances[*region as usize] == Some(left - 1);
            here = row.left.clone().find(nearer).or_else(|| row.right.clone().find(nearer))?;
            taken.push(here);
            left -= 1;
        }
        Some(taken)
    }

    fn component(&self, region: u32) -> Vec<u32> {
        let distances = self.distances(region);
        (0..distances.len() as u32).filter(|i| distances[*i as usize].is_some()).collect()
    }

    fn number(&self, lot: Lot) -> Option<u32> {
        let at = self.lots.partition_point(|other| other.key() < lot.key());
        (self.lots.get(at) == Some(&lot)).then_some(at as u32)
    }

    fn locate(&self, spot: Spot) -> Option<u32> {
        let before = |found: Result<usize, usize>, count: usize| match found {
            Err(after) if 0 < after && after < count => Some(after as u32 - 1),
            _ => None,
        };
        let lines = &self.lines;
        let found = lines.binary_search(&Ratio { num: spot.x as i64, den: 1 });
        if let Ok(line) = found {
            let marks = &self.marks[line];
            let at = before(marks.binary_search(&Ratio { num: spot.y as i64, den: 1 }), marks.len())?;
            return self.number(Lot::Wall { line: line as u32, at });
        }
        let slab = before(found, lines.len())?;
        let spans = &self.spans[slab as usize];
        let at = before(spans.binary_search_by(|span| 0.cmp(&turn(span.a, span.b, spot))), spans.len())?;
        self.number(Lot::Cell { slab, at })
    }

    // The point of a region.
    fn spot_of(&self, region: u32) -> Point {
        match self.lots[region as usize] {
            Lot::Cell { slab, at } => {
                let (slab, at) = (slab as usize, at as usize);
                cell_point(
                    self.spans[slab][at],
                    self.spans[slab][at + 1],
                    between_lines(self.lines[slab], self.lines[slab + 1]),
                )
            }
            Lot::Wall { line, at } => {
                let marks = &self.marks[line as usize];
                Point::at(self.lines[line as usize], middle(marks[at as usize], marks[at as usize + 1]))
            }
        }
    }

    fn path_along(&self, start: Spot, goal: Spot, walk: &[u32]) -> Vec<Point> {
        let mut points = vec![Point::of(start)];
        if walk.len() > 1 {
            points.extend(walk.iter().map(|region| self.spot_of(*region)));
        }
        points.push(Point::of(goal));
        points.dedup();
        points
    }

    fn mark(&self, line: u32, at: u32) -> Point {
        Point::at(self.lines[line as usize], self.marks[line as usize][at as usize])
    }

    // The parts of a line from one mark to another that are no free walls.
    fn keep_parts(&self, chain: &mut Vec<(Point, Point)>, line: u32, from: u32, to: u32) {
        for at in from..to {
            if self.number(Lot::Wall { line, at }).is_none() {
                chain.push((self.mark(line, at), self.mark(line, at + 1)));
            }
        }
    }

    fn ring(&self, region: u32) -> Vec<(Point, Point)> {
        let mut chain = Vec::new();
        for number in self.component(region) {
            if let Lot::Cell { slab, at } = self.lots[number as usize] {
                let ends = &self.ends[slab as usize];
                let (low, high) = (ends[at as usize], ends[at as usize + 1]);
                chain.push((self.mark(slab, low.0), self.mark(slab + 1, low.1)));
                self.keep_parts(&mut chain, slab + 1, low.1, high.1);
                chain.push((self.mark(slab, high.0), self.mark(slab + 1, high.1)));
                self.keep_parts(&mut chain, slab, low.0, high.0);
            }
        }
        chain
    }
}

// ---- answers

enum Answer {
    StartTouches(i64),
    GoalTouches(i64),
    Path(Vec<Point>),
    Chain(Vec<(Point, Point)>),
}

fn answer(scene: &Scene, slabs: &Slabs, start: Spot, goal: Spot) -> Answer {
    if let Some(who) = scene.touches(start) {
        return Answer::StartTouches(who);
    }
    if let Some(who) = scene.touches(goal) {
        return Answer::GoalTouches(who);
    }
    let (from, to) = (slabs.locate(start).unwrap(), slabs.locate(goal).unwrap());
    match slabs.walk(from, to) {
        Some(walk) => Answer::Path(slabs.path_along(start, goal, &walk)),
        None => Answer::Chain(slabs.ring(from)),
    }
}

fn put_number(text: &mut Vec<u8>, number: i64) {
    let mut digits = [0; 20];
    let (mut left, mut at) = (number.unsigned_abs(), digits.len());
    loop {
        at -= 1;
        digits[at] = b'0' + (left % 10) as u8;
        left /= 10;
        if left == 0 {
            break;
        }
    }
    if number < 0 {
        text.push(b'-');
    }
    text.extend_from_slice(&digits[at..]);
}

fn put_list(text: &mut Vec<u8>, numbers: &[i64]) {
    for (i, number) in numbers.iter().enumerate() {
        text.push(if i == 0 { b'[' } else { b',' });
        put_number(text, *number);
    }
    text.push(b']');
}

// Appends a list in brackets, of texts that the function appends.
fn put_all<T>(text: &mut Vec<u8>, items: &[T], put: impl Fn(&mut Vec<u8>, &T)) {
    text.push(b'[');
    for (i, item) in items.iter().enumerate() {
        if i > 0 {
            text.push(b',');
        }
        put(text, item);
    }
    text.push(b']');
}

fn put_answer(text: &mut Vec<u8>, answer: &Answer) {
    match answer {
        Answer::StartTouches(who) => {
            text.extend_from_slice(b"{\"start\":");
            put_number(text, *who);
        }
        Answer::GoalTouches(who) => {
            text.extend_from_slice(b"{\"goal\":");
            put_number(text, *who);
        }
        Answer::Path(points) => {
            text.extend_from_slice(b"{\"path\":");
            put_all(text, points, |text, p| put_list(text, &[p.x, p.y, p.w]));
        }
        Answer::Chain(segments) => {
            text.extend_from_slice(b"{\"chain\":");
            put_all(text, segments, |text, (a, b)| put_list(text, &[a.x, a.y, a.w, b.x, b.y, b.w]));
        }
    }
    text.push(b'}');
}

// ---- documents

enum Value {
    Number(i64),
    Text,
    List(Vec<Value>),
    Object(Vec<(String, Value)>),
}

struct Document {
    frame: Frame,
    robot: Vec<Spot>,
    obstacles: Vec<(i64, Vec<Spot>)>,
    queries: Vec<(Spot, Spot)>,
}

// A reader of JSON of whole numbers, plain texts, lists and objects.
struct Reader<'a> {
    bytes: &'a [u8],
}

impl Reader<'_> {
    fn skip(&mut self, byte: u8) -> bool {
        self.bytes = self.bytes.trim_ascii_start();
        let is_there = self.bytes.first() == Some(&byte);
        if is_there {
            self.bytes = &self.bytes[1..];
        }
        is_there
    }

    fn until(&mut self, is_end: impl Fn(&u8) -> bool) -> String {
        let end = self.bytes.iter().position(is_end).unwrap_or(self.bytes.len());
        let (text, rest) = self.bytes.split_at(end);
        self.bytes = rest;
        String::from_utf8_lossy(text).into_owned()
    }

    fn text(&mut self) -> String {
        let text = self.until(|byte| *byte == b'"');
        self.skip(b'"');
        text
    }

    fn value(&mut self) -> Value {
        if self.skip(b'[') {
            let mut items = Vec::new();
            while !self.skip(b']') {
                items.push(self.value());
                self.skip(b',');
            }
            return Value::List(items);
        }
        if self.skip(b'{') {
            let mut members = Vec::new();
            while !self.skip(b'}') {
                self.skip(b'"');
                let name = self.text();
                self.skip(b':');
                members.push((name, self.value()));
                self.skip(b',');
            }
            return Value::Object(members);
        }
        if self.skip(b'"') {
            self.text();
            return Value::Text;
        }
        Value::Number(self.until(|byte| !byte.is_ascii_digit() && *byte != b'-').parse().expect("a number"))
    }
}

impl Value {
    fn member(&self, name: &str) -> &Value {
        let Value::Object(members) = self else { panic!("no object") };
        &members.iter().find(|member| member.0 == name).expect(name).1
    }

    fn list(&self) -> &[Value] {
        let Value::List(items) = self else { panic!("no list") };
        items
    }

    fn number(&self) -> i64 {
        let Value::Number(number) = self else { panic!("no number") };
        *number
    }

    // Two spots that stand in a list of four numbers.
    fn pair(&self) -> (Spot, Spot) {
        let numbers: Vec<i32> = self.list().iter().map(|value| value.number() as i32).collect();
        (at(numbers[0], numbers[1]), at(numbers[2], numbers[3]))
    }

    fn spots(&self) -> Vec<Spot> {
        self.list().iter().map(|spot| at(spot.list()[0].number() as i32, spot.list()[1].number() as i32)).collect()
    }
}

impl Document {
    fn read(bytes: &[u8]) -> Document {
        let whole = Reader { bytes }.value();
        let (low, high) = whole.member("frame").pair();
        let obstacle = |value: &Value| (value.member("id").number(), value.member("shape").spots());
        Document {
            frame: Frame { low, high },
            robot: whole.member("robot").spots(),
            obstacles: whole.member("obstacles").list().iter().map(obstacle).collect(),
            queries: whole.member("queries").list().iter().map(Value::pair).collect(),
        }
    }
}

// ---- times

const PARTS: [&str; 9] =
    ["reading", "sums", "pieces", "sweep", "free lots", "neighbours", "labels", "answers", "printing"];

// The microseconds of the parts.
struct Times {
    spent: [u128; 9],
    at: usize,
    start: Instant,
}

impl Times {
    // Ends a part.
    fn end(&mut self) {
        self.spent[self.at] += self.start.elapsed().as_micros();
        self.at += 1;
        self.start = Instant::now();
    }
}

#[derive(Default)]
struct Counts {
    sums: usize,
    edges: usize,
    pieces: usize,
    lines: usize,
    swept: usize,
    active: usize,
    most_active: usize,
    marks: usize,
    spans: usize,
    regions: usize,
    parts: usize,
    blocked: usize,
    paths: usize,
    points: usize,
    segments: usize,
    tests: Tests,
}

struct Run {
    lines: Vec<u8>,
    times: Times,
    counts: Counts,
}

fn run(bytes: &[u8], is_counted: bool) -> Run {
    let mut times = Times { spent: [0; 9], at: 0, start: Instant::now() };
    let document = Document::read(bytes);
    times.end();
    let scene = Scene::of(&document);
    times.end();
    let pieces = scene.uncovered();
    times.end();
    let lines = lines_of(&pieces);
    let swept = sweep(&scene, &pieces, &lines);
    times.end();
    let mut counts = Counts {
        sums: scene.sums.len(),
        edges: scene.edge_count(),
        pieces: pieces.len(),
        lines: lines.len(),
        swept: swept.lines,
        active: swept.active,
        most_active: swept.most_active,
        marks: swept.marks.iter().map(Vec::len).sum(),
        spans: swept.spans.iter().map(Vec::len).sum(),
        ..Counts::default()
    };
    if !swept.is_whole {
        return Run { lines: b"refused: too many regions\n".to_vec(), times, counts };
    }
    if is_counted {
        free_lots(&scene, &lines, &swept, &mut counts.tests);
    }
    times.start = Instant::now();
    let lots = free_lots(&scene, &lines, &swept, &mut ());
    times.end();
    let ends = ends_of(&lines, &swept.spans, &swept.marks);
    let mut rows = Vec::new();
    let (mut left, mut right) = (0, 0);
    for lot in &lots {
        let row = row_of(&lots, &ends, left, right, *lot);
        left = row.left.start;
        right = row.right.start;
        rows.push(row);
    }
    let slabs = Slabs { lines, spans: swept.spans, marks: swept.marks, lots, ends, rows };
    times.end();
    let labels = slabs.labels();
    times.end();
    counts.regions = slabs.lots.len();
    counts.parts = labels.iter().enumerate().filter(|(i, label)| *i == **label as usize).count();
    let mut text = Vec::new();
    for (k, (start, goal)) in document.queries.iter().enumerate() {
        times.at = 7;
        times.start = Instant::now();
        let answer = answer(&scene, &slabs, *start, *goal);
        times.end();
        let mut line = Vec::new();
        line.extend_from_slice(b"query ");
        put_number(&mut line, k as i64 + 1);
        line.push(b' ');
        put_answer(&mut line, &answer);
        line.push(b'\n');
        text.extend_from_slice(&line);
        times.end();
        match answer {
            Answer::Path(points) => {
                counts.paths += 1;
                counts.points += points.len();
            }
            Answer::Chain(segments) => {
                counts.blocked += 1;
                counts.segments += segments.len();
            }
            _ => {}
        }
    }
    text.extend_from_slice(b"end\n");
    Run { lines: text, times, counts }
}

// The milliseconds of so many microseconds.
fn milliseconds(spent: u128) -> String {
    format!("{:.2}", spent as f64 / 1000.0)
}

fn report(least: &[u128; 9], whole: u128, c: &Counts) {
    for (part, spent) in PARTS.iter().zip(least) {
        eprintln!("{part}: {} ms", milliseconds(*spent));
    }
    eprintln!("slabs: {} ms", milliseconds(least[3..6].iter().sum()));
    eprintln!("all: {} ms", milliseconds(whole));
    eprintln!("{} sums, {} edges, {} pieces, {} lines, {} of them swept", c.sums, c.edges, c.pieces, c.lines, c.swept);
    eprintln!("{} active in sum, {} at most, {} marks, {} spans", c.active, c.most_active, c.marks, c.spans);
    eprintln!("{} box tests, {} sides, {} regions, {} parts", c.tests.boxes, c.tests.sides, c.regions, c.parts);
    eprintln!("{} paths of {} points, {} chains of {} segments", c.paths, c.points, c.blocked, c.segments);
}

fn main() -> io::Result<()> {
    let runs = env::args().nth(1).and_then(|word| word.parse().ok()).unwrap_or(1);
    let mut bytes = Vec::new();
    io::stdin().read_to_end(&mut bytes)?;
    let first = run(&bytes, env::args().len() > 1);
    let (mut least, mut whole) = (first.times.spent, first.times.spent.iter().sum::<u128>());
    for _ in 1..runs {
        let spent = run(&bytes, false).times.spent;
        whole = whole.min(spent.iter().sum());
        for (least, spent) in least.iter_mut().zip(spent) {
            *least = spent.min(*least);
        }
    }
    if env::args().len() > 1 {
        report(&least, whole, &first.counts);
    }
    io::stdout().write_all(&first.lines)
}
