//! The calls of pieces.rattle in plain Rust over i128, for comparison: the same steps on the same data.
use std::cmp::Ordering;
use std::time::Instant;

#[derive(Clone, Copy, PartialEq, Eq, PartialOrd, Ord)]
struct Spot {
    x: i32,
    y: i32,
}

#[derive(Clone, Copy)]
struct Frame {
    low: Spot,
    high: Spot,
}

#[derive(Clone, Copy)]
struct Convex {
    spots: [Spot; 6],
    count: usize,
}

#[derive(Clone, Copy)]
struct Parameter {
    num: i128,
    den: i128,
}

#[derive(Clone, Copy)]
struct Part {
    from: Parameter,
    to: Parameter,
}

#[derive(Clone, Copy)]
#[allow(dead_code)]
struct Point {
    x: i64,
    y: i64,
    w: i64,
}

#[derive(Clone, Copy)]
#[allow(dead_code)]
struct Piece {
    edge: u32,
    a: Point,
    b: Point,
}

#[derive(Clone, Copy)]
struct Edge {
    a: Spot,
    b: Spot,
}

type Triangle = [Spot; 3];

const ROOM: Frame = Frame { low: at(-1020, -1020), high: at(1020, 1020) };
const ZERO: Parameter = Parameter { num: 0, den: 1 };
const ONE: Parameter = Parameter { num: 1, den: 1 };

struct Random(u64);

impl Random {
    fn below(&mut self, bound: u16) -> i32 {
        self.0 = self.0.wrapping_mul(6364136223846793005).wrapping_add(1442695040888963407);
        ((self.0 >> 33) % bound as u64) as i32
    }
}

const fn at(x: i32, y: i32) -> Spot {
    Spot { x, y }
}

// The cross product of `b - a` and `c - a`.
fn turn(a: Spot, b: Spot, c: Spot) -> i128 {
    let (bx, by) = (b.x as i128 - a.x as i128, b.y as i128 - a.y as i128);
    let (cx, cy) = (c.x as i128 - a.x as i128, c.y as i128 - a.y as i128);
    bx * cy - by * cx
}

// The sum of a triangle and the reflected robot, as the hull of the nine differences.
fn sum(obstacle: Triangle, robot: Triangle) -> Convex {
    let mut all: Vec<_> = obstacle.iter().flat_map(|o| robot.map(|r| at(o.x - r.x, o.y - r.y))).collect();
    all.sort_unstable();
    all.dedup();
    let half = |spots: &mut dyn Iterator<Item = &Spot>| {
        let mut chain: Vec<Spot> = Vec::new();
        for spot in spots {
            while chain.len() > 1 && turn(chain[chain.len() - 2], chain[chain.len() - 1], *spot) <= 0 {
                chain.pop();
            }
            chain.push(*spot);
        }
        chain.pop();
        chain
    };
    let mut hull = half(&mut all.iter());
    hull.extend(half(&mut all.iter().rev()));
    let mut spots = [at(0, 0); 6];
    spots[..hull.len()].copy_from_slice(&hull);
    Convex { spots, count: hull.len() }
}

impl Convex {
    fn spots(&self) -> &[Spot] {
        &self.spots[..self.count]
    }

    // The edges of the polygon, from each vertex to the next.
    fn edges(&self) -> impl Iterator<Item = Edge> + '_ {
        let spots = self.spots();
        (0..spots.len()).map(move |i| Edge::of(spots, i))
    }

    fn clip(&self, a: Spot, b: Spot) -> Option<Part> {
        let mut part = Part { from: ZERO, to: ONE };
        for edge in self.edges() {
            let (at_a, at_b) = (turn(edge.a, edge.b, a), turn(edge.a, edge.b, b));
            part = if at_a > 0 {
                if at_b < 0 { part.ending_at(balance(at_a, -at_b)) } else { part }
            } else if at_b > 0 {
                part.starting_at(balance(-at_a, at_b))
            } else {
                return None;
            };
        }
        if at_most(part.to, part.from) {
            return None;
        }
        Some(Part { from: lowest(part.from), to: lowest(part.to) })
    }

    fn covers(&self, z: Spot) -> bool {
        self.edges().all(|edge| turn(edge.a, edge.b, z) > 0)
    }
}

fn balance(first: i128, second: i128) -> Parameter {
    Parameter { num: first, den: first + second }
}

fn at_most(p: Parameter, q: Parameter) -> bool {
    p.num * q.den <= q.num * p.den
}

fn gcd(a: u64, b: u64) -> u64 {
    if a == 0 {
        return b;
    }
    if b == 0 {
        return a;
    }
    let twos = a.trailing_zeros().min(b.trailing_zeros());
    let (mut x, mut y) = (odd_part(a), odd_part(b));
    while x != y {
        (x, y) = (odd_part(x.abs_diff(y)), x.min(y));
    }
    x << twos
}

fn odd_part(n: u64) -> u64 {
    n >> n.trailing_zeros()
}

fn lowest(p: Parameter) -> Parameter {
    let (num, den) = (p.num as i64, p.den as i64);
    let d = gcd(num.unsigned_abs(), den.unsigned_abs()) as i64;
    Parameter { num: (num / d) as i128, den: (den / d) as i128 }
}

impl Part {
    fn starting_at(self, p: Parameter) -> Part {
        if at_most(p, self.from) { self } else { Part { from: p, ..self } }
    }

    fn ending_at(self, p: Parameter) -> Part {
        if at_most(self.to, p) { self } else { Part { to: p, ..self } }
    }

    fn where_not_negative(self, at_a: i128, at_b: i128) -> Part {
        if at_a < 0 {
            if at_b < 0 { Part { from: ONE, to: ZERO } } else { self.starting_at(balance(-at_a, at_b)) }
        } else if at_b < 0 {
            self.ending_at(balance(at_a, -at_b))
        } else {
            self
        }
    }
}

fn bounds(spots: &[Spot]) -> Frame {
    let (mut low, mut high) = (spots[0], spots[0]);
    for spot in spots {
        low = at(low.x.min(spot.x), low.y.min(spot.y));
        high = at(high.x.max(spot.x), high.y.max(spot.y));
    }
    Frame { low, high }
}

fn are_apart(f: Frame, g: Frame) -> bool {
    f.high.x < g.low.x || f.high.y < g.low.y || g.high.x < f.low.x || g.high.y < f.low.y
}

fn edge_count(sums: &[Convex]) -> usize {
    4 + sums.iter().map(|sum| sum.count).sum::<usize>()
}

// The edge of that number: those of the sums, then the sides of the room.
fn edge_of(sums: &[Convex], edge: usize) -> (Spot, Spot) {
    let mut left = edge;
    for sum in sums {
        let spots = sum.spots();
        if left < spots.len() {
            return (spots[left], spots[(left + 1) % spots.len()]);
        }
        left -= spots.len();
    }
    let (lower_right, upper_left) = (at(ROOM.high.x, ROOM.low.y), at(ROOM.low.x, ROOM.high.y));
    [(ROOM.low, lower_right), (lower_right, ROOM.high), (upper_left, ROOM.high), (ROOM.low, upper_left)][left]
}

fn part_in_room(a: Spot, b: Spot) -> Part {
    let way = |p: i32, q: i32| q as i128 - p as i128;
    Part { from: ZERO, to: ONE }
        .where_not_negative(way(ROOM.low.x, a.x), way(ROOM.low.x, b.x))
        .where_not_negative(way(a.x, ROOM.high.x), way(b.x, ROOM.high.x))
        .where_not_negative(way(ROOM.low.y, a.y), way(ROOM.low.y, b.y))
        .where_not_negative(way(a.y, ROOM.high.y), way(b.y, ROOM.high.y))
}

// What the parts, in the order of where they begin, leave.
fn gaps(within: Part, parts: &[Part]) -> Vec<Part> {
    let mut found = Vec::new();
    let mut from = within.from;
    for part in parts {
        if !at_most(part.from, within.to) {
            break;
        }
        if !at_most(part.to, from) {
            if at_most(from, part.from) {
                found.push(Part { from, to: part.from });
            }
            from = part.to;
        }
    }
    if at_most(from, within.to) {
        found.push(Part { from, to: within.to });
    }
    found
}

// The point of the edge from `a` to `b` that is so far along it, in lowest terms.
fn along(p: Parameter, a: Spot, b: Spot) -> Point {
    let mean = |a: i32, b: i32| ((p.den - p.num) * a as i128 + p.num * b as i128) as i64;
    let (x, y, w) = (mean(a.x, b.x), mean(a.y, b.y), p.den as i64);
    let d = gcd(gcd(x.unsigned_abs(), y.unsigned_abs()), w.unsigned_abs()) as i64;
    Point { x: x / d, y: y / d, w: w / d }
}

fn pieces_of(sums: &[Convex], boxes: &[Frame], edge: usize) -> Vec<Piece> {
    let (p, q) = edge_of(sums, edge);
    let (a, b) = if q < p { (q, p) } else { (p, q) };
    let within = part_in_room(a, b);
    let edge_box = bounds(&[a, b]);
    let (mut parts, mut first, mut last) = (Vec::new(), false, false);
    for (sum, bounds) in sums.iter().zip(boxes) {
        if are_apart(edge_box, *bounds) {
            continue;
        }
        if let Some(part) = sum.clip(a, b) {
            parts.push(part);
            first |= sum.covers(a);
            last |= sum.covers(b);
        }
    }
    parts.sort_unstable_by(|p, q| (p.from.num * q.from.den).cmp(&(q.from.num * p.from.den)));
    let mut found = Vec::new();
    for gap in gaps(within, &parts) {
        if !(first && at_most(gap.to, ZERO)) && !(last && at_most(ONE, gap.from)) {
            found.push(Piece { edge: edge as u32, a: along(gap.from, a, b), b: along(gap.to, a, b) });
        }
    }
    found
}

fn uncovered(sums: &[Convex]) -> Vec<Piece> {
    let boxes: Vec<_> = sums.iter().map(|sum| bounds(sum.spots())).collect();
    let lists: Vec<_> = (0..edge_count(sums)).map(|edge| pieces_of(sums, &boxes, edge)).collect();
    let mut all = Vec::new();
    for list in &lists {
        all.extend_from_slice(list);
    }
    all
}

impl Edge {
    fn of(spots: &[Spot], i: usize) -> Edge {
        Edge { a: spots[i], b: spots[(i + 1) % spots.len()] }
    }

    fn side(self, spot: Spot) -> Ordering {
        turn(self.a, self.b, spot).cmp(&0)
    }

    fn has(self, spot: Spot) -> bool {
        let between = |a: i32, b: i32, z: i32| (a <= z && z <= b) || (b <= z && z <= a);
        self.side(spot).is_eq() && between(self.a.x, self.b.x, spot.x) && between(self.a.y, self.b.y, spot.y)
    }

    // Whether the ends of the other edge are strictly on the two sides of this one's line.
    fn parts(self, t: Edge) -> bool {
        let on_sides = |left, right| self.side(left).is_gt() && self.side(right).is_lt();
        on_sides(t.a, t.b) || on_sides(t.b, t.a)
    }

    fn meets(self, t: Edge) -> bool {
        (self.parts(t) && t.parts(self)) || self.has(t.a) || self.has(t.b) || t.has(self.a) || t.has(self.b)
    }
}

fn folds_back(m: Spot, a: Spot, b: Spot) -> bool {
    let is_beyond = |a: Spot, b: Spot| Edge { a: m, b }.has(a) && a != m;
    is_beyond(a, b) || is_beyond(b, a)
}

fn meet_wrongly(spots: &[Spot], i: usize, j: usize) -> bool {
    let (first, second) = (Edge::of(spots, i), Edge::of(spots, j));
    let share = if j == i + 1 {
        folds_back(first.b, first.a, second.b)
    } else if i == 0 && j + 1 == spots.len() {
        folds_back(first.a, first.b, second.a)
    } else {
        first.meets(second)
    };
    share || (i == 0 && j == 1 && spots.len() == 3 && spots[0] == spots[1] && spots[1] == spots[2])
}

fn turn_to_least(spots: &mut [Spot]) {
    let mut least = spots.len() - 1;
    for i in (0..spots.len() - 1).rev() {
        if spots[least] >= spots[i] {
            least = i;
        }
    }
    spots.rotate_left(least);
}

// The list of a simple polygon counterclockwise from its least vertex.
fn read(mut spots: Vec<Spot>) -> Option<Vec<Spot>> {
    let n = spots.len();
    let in_range = |spot: &Spot| spot.x.unsigned_abs() <= 1023 && spot.y.unsigned_abs() <= 1023;
    if n < 3 || 32 < n || !spots.iter().all(in_range) {
        return None;
    }
    if (0..n).any(|i| (i + 1..n).any(|j| meet_wrongly(&spots, i, j))) {
        return None;
    }
    turn_to_least(&mut spots);
    if turn(spots[n - 1], spots[0], spots[1]) < 0 {
        spots.reverse();
        spots.rotate_right(1);
    }
    Some(spots)
}

// The vertex in the ear that is farthest from the line through the neighbours, the first of several.
fn farthest(v: Spot, w: Spot, u: Spot, spots: &[Spot]) -> Option<usize> {
    let mut found: Option<usize> = None;
    for i in (0..spots.len()).rev() {
        let z = spots[i];
        if turn(v, w, z) >= 0 && turn(w, u, z) >= 0 && turn(u, v, z) >= 0 {
            found = match found {
                Some(k) if turn(w, u, z) < turn(w, u, spots[k]) => Some(k),
                _ => Some(i),
            };
        }
    }
    found
}

fn cut(mut spots: Vec<Spot>, list: &mut Vec<Triangle>) {
    if spots.len() < 3 {
        return;
    }
    turn_to_least(&mut spots);
    let last = spots.len() - 1;
    let (v, w, u) = (spots[0], spots[1], spots[last]);
    match farthest(v, w, u, &spots[2..last]) {
        None => {
            spots.remove(0);
            list.push([v, w, u]);
            cut(spots, list);
        }
        Some(k) => {
            let first = spots[..k + 3].to_vec();
            let mut second = spots[k + 2..].to_vec();
            second.push(v);
            cut(first, list);
            cut(second, list);
        }
    }
}

fn triangulate(spots: &[Spot]) -> Vec<Triangle> {
    let mut list = Vec::with_capacity(spots.len());
    cut(spots.to_vec(), &mut list);
    list
}

fn triangles(spots: &[Spot]) -> Vec<Triangle> {
    read(spots.to_vec()).map_or(Vec::new(), |spots| triangulate(&spots))
}

fn add_sums(sums: &mut Vec<Convex>, obstacle: &[Triangle], robot: &[Triangle]) {
    for t in obstacle {
        sums.extend(robot.iter().map(|r| sum(*t, *r)));
    }
}

fn shelves() -> Vec<Convex> {
    let robot = triangles(&[at(0, 0), at(60, 0), at(60, 20), at(20, 20), at(20, 50), at(0, 50)]);
    let mut sums = Vec::new();
    for row in 0..6 {
        for column in 0..10 {
            let (x, y) = (column * 190 - 950, row * 310 - 930);
            let corners = [at(x, y), at(x + 140, y), at(x + 140, y + 260), at(x, y + 260)];
            add_sums(&mut sums, &triangles(&corners), &robot);
        }
    }
    sums
}

fn random_sums() -> Vec<Convex> {
    let robot = triangles(&[at(-10, -15), at(25, 0), at(0, 30)]);
    let mut random = Random(1);
    let mut sums = Vec::new();
    for _ in 0..512 {
        let (x, y) = (random.below(1800) - 1000, random.below(1800) - 1000);
        let corners: Triangle = std::array::from_fn(|_| at(x + random.below(200), y + random.below(200)));
        add_sums(&mut sums, &triangles(&corners), &robot);
    }
    sums
}

fn clips(sums: &[Convex]) -> (u64, u64) {
    let (mut meeting, mut covered) = (0, 0);
    for edge in 0..edge_count(sums) {
        let (a, b) = edge_of(sums, edge);
        for sum in sums {
            if !are_apart(bounds(&[a, b]), bounds(sum.spots())) {
                meeting += 1;
                covered += sum.clip(a, b).is_some() as u64;
            }
        }
    }
    (meeting, covered)
}

fn pieces(name: &str, sums: &[Convex]) {
    let (mut least, mut count) = (u128::MAX, 0);
    for _ in 0..15 {
        let start = Instant::now();
        let found = uncovered(sums);
        least = least.min(start.elapsed().as_micros());
        count = found.len();
    }
    let (meeting, covered) = clips(sums);
    let (n, edges) = (sums.len(), edge_count(sums));
    println!("uncovered, {name}: {least} us, {n} sums, {edges} edges, {meeting} clips, {covered} covered, {count} pieces");
}

#[rustfmt::skip]
fn star(random: &mut Random) -> Vec<Spot> {
    let rays = [
        (30, 1), (29, 8), (27, 13), (24, 19), (19, 24), (13, 27), (8, 29), (1, 30), (-1, 30), (-8, 29), (-13, 27),
        (-19, 24), (-24, 19), (-27, 13), (-29, 8), (-30, 1), (-30, -1), (-29, -8), (-27, -13), (-24, -19), (-19, -24),
        (-13, -27), (-8, -29), (-1, -30), (1, -30), (8, -29), (13, -27), (19, -24), (24, -19), (27, -13), (29, -8),
        (30, -1),
    ];
    let mut scaled = |(x, y)| {
        let scale = 4 + random.below(31);
        at(x * scale, y * scale)
    };
    rays.map(&mut scaled).to_vec()
}

fn comb(random: &mut Random) -> Vec<Spot> {
    let mut spots = vec![at(0, 0), at(1020, 0)];
    spots.extend((0..30).map(|i| at(1020 - 34 * i, 1 + random.below(1000))));
    spots
}

#[rustfmt::skip]
fn spiral(random: &mut Random) -> Vec<Spot> {
    let turns = [
        (0, 0), (15, 0), (15, 15), (1, 15), (1, 2), (13, 2), (13, 13), (3, 13), (3, 4), (11, 4), (11, 11), (5, 11),
        (5, 6), (9, 6), (9, 9), (7, 9), (7, 8), (8, 8), (8, 7), (6, 7), (6, 10), (10, 10), (10, 5), (4, 5), (4, 12),
        (12, 12), (12, 3), (2, 3), (2, 14), (14, 14), (14, 1), (0, 1),
    ];
    let (wide, tall) = (8 + random.below(60), 8 + random.below(60));
    turns.iter().map(|(x, y)| at(x * wide, y * tall)).collect()
}

// Triangulates each polygon; the answer is a digest of the second corners of all triangles, in their order.
fn triangulate_all(polygons: &[Vec<Spot>]) -> u64 {
    let mut digest = 0u64;
    for polygon in polygons {
        for t in triangulate(polygon) {
            digest = digest.wrapping_mul(31).wrapping_add(t[1].x.unsigned_abs() as u64);
        }
    }
    digest
}

fn main() {
    pieces("60 shelves", &shelves());
    pieces("random", &random_sums());
    let mut random = Random(1);
    let kinds = [star, comb, spiral];
    let lists: Vec<_> = (0..31_250).map(|i| kinds[i % 3](&mut random)).collect();
    let start = Instant::now();
    let polygons: Vec<_> = lists.into_iter().filter_map(read).collect();
    println!("read: {} ms, {}", start.elapsed().as_millis(), polygons.len());
    let start = Instant::now();
    let digest = triangulate_all(&polygons);
    println!("triangulate: {} ms, {digest}", start.elapsed().as_millis());
}
