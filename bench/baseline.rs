//! The loops of planner.rattle in plain Rust over i128, for comparison.
use std::cmp::Ordering;
use std::time::Instant;

#[derive(Clone, Copy)]
struct Point {
    x: i64,
    y: i64,
    w: i64,
}

struct Random(u64);

impl Random {
    fn below(&mut self, bound: u64) -> u64 {
        self.0 = self.0.wrapping_mul(6364136223846793005).wrapping_add(1442695040888963407);
        (self.0 >> 3) % bound
    }

    fn point(&mut self) -> Point {
        let w = (1 << 50) + self.below(1 << 50);
        let x = self.below(4092 * w + 1) as i64 - (2046 * w) as i64;
        let y = self.below(4092 * w + 1) as i64 - (2046 * w) as i64;
        Point { x, y, w: w as i64 }
    }

    fn corner(&mut self) -> (i32, i32) {
        let x = self.below(4093) as i32 - 2046;
        let y = self.below(4093) as i32 - 2046;
        (x, y)
    }
}

fn turn(a: &Point, b: &Point, c: (i32, i32)) -> i128 {
    let way = |p: &Point| {
        let x = p.x as i128 - c.0 as i128 * p.w as i128;
        let y = p.y as i128 - c.1 as i128 * p.w as i128;
        (x, y)
    };
    let ((ax, ay), (bx, by)) = (way(a), way(b));
    ax * by - ay * bx
}

fn compare(a: &Point, b: &Point) -> Ordering {
    let x = (a.x as i128 * b.w as i128).cmp(&(b.x as i128 * a.w as i128));
    x.then_with(|| (a.y as i128 * b.w as i128).cmp(&(b.y as i128 * a.w as i128)))
}

fn turn_at(a: (i32, i32), b: (i32, i32), z: &Point) -> i128 {
    let (ux, uy) = ((b.0 - a.0) as i128, (b.1 - a.1) as i128);
    let vx = z.x as i128 - a.0 as i128 * z.w as i128;
    let vy = z.y as i128 - a.1 as i128 * z.w as i128;
    ux * vy - uy * vx
}

fn meets(polygon: &[(i32, i32)], p: &Point, q: &Point) -> bool {
    let n = polygon.len();
    let beyond = (0..n).any(|i| {
        let (a, b) = (polygon[i], polygon[(i + 1) % n]);
        turn_at(a, b, p) < 0 && turn_at(a, b, q) < 0
    });
    !beyond && !polygon.iter().all(|v| turn(p, q, *v) > 0) && !polygon.iter().all(|v| turn(p, q, *v) < 0)
}

fn closed(segments: &[(Point, Point)]) -> bool {
    let mut ends: Vec<_> = segments.iter().flat_map(|(a, b)| [(a.x, a.y, a.w), (b.x, b.y, b.w)]).collect();
    ends.sort_unstable();
    ends.chunks(2).all(|pair| pair.len() == 2 && pair[0] == pair[1])
}

fn timed<T: std::fmt::Display>(name: &str, call: impl FnOnce() -> T) {
    let start = Instant::now();
    let count = call();
    println!("{name}: {} ms, {count}", start.elapsed().as_millis());
}

// How often the test holds of neighbouring points and a corner, a thousand times over.
fn count(points: &[Point], corners: &[(i32, i32)], test: impl Fn(&Point, &Point, (i32, i32)) -> bool) -> u64 {
    let mut count = 0;
    for _ in 0..1000 {
        let mut last = points[0];
        for (point, corner) in points.iter().zip(corners) {
            count += test(&last, point, *corner) as u64;
            last = *point;
        }
    }
    count
}

fn main() {
    let mut random = Random(1);
    let (mut points, mut corners) = (Vec::new(), Vec::new());
    for _ in 0..1000 {
        points.push(random.point());
        corners.push(random.corner());
    }
    timed("side_of", || count(&points, &corners, |a, b, c| turn(a, b, c) > 0));
    timed("compare", || count(&points, &corners, |a, b, _| compare(a, b) == Ordering::Less));
    let polygon = [(-1100, -907), (-1002, -990), (998, -1040), (1003, -945), (103, 995), (0, 983)];
    timed("meets", || count(&points, &corners, |a, b, _| meets(&polygon, a, b)));
    let mut segments = Vec::new();
    let mut last = points[0];
    for _ in 0..100 {
        for point in &points {
            segments.push((last, *point));
            last = *point;
        }
    }
    segments.push((last, points[0]));
    timed("closed", || closed(&segments));
}
