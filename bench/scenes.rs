//! Prints a document of `plan`, with 64 queries between clear spots; the same one each time.
//! usage: scenes NAME COUNT [BLOCKED]
//!
//! NAME and COUNT are the kind and the number of obstacles. `shelves`, at most 60: the rows of pieces.rattle. `aisles`,
//! at most 64: shelves that the robot goes round. `random`: triangles, where 512 are asked for those of pieces.rattle.
//! `stars`: ten corners each. `slivers`, at most 64: thin triangles of which half cross the other half. `needles`: thin
//! triangles in all directions. `gaps`, 27: walls with gaps exactly as high as the robot. `slanted`, at least 36: three
//! slanted walls of twelve, and what stands between them. BLOCKED is how many of the queries go from one part of the
//! floor to another, of `slivers`, `gaps` and `slanted`. The planner takes at most 64 obstacles.
use std::env;

#[derive(Clone, Copy, PartialEq, Eq)]
struct Spot {
    x: i64,
    y: i64,
}

type Shape = Vec<Spot>;

/// Which part of a floor a spot is in; None where queries are to keep away.
type Part = Box<dyn Fn(Spot) -> Option<usize>>;

struct Scene {
    frame: [i64; 4],
    robot: Shape,
    obstacles: Vec<Shape>,
    /// None where nothing is known of the parts.
    part: Option<Part>,
}

struct Random(u64);

impl Random {
    fn below(&mut self, bound: i64) -> i64 {
        self.0 = self.0.wrapping_mul(6364136223846793005).wrapping_add(1442695040888963407);
        ((self.0 >> 33) % bound as u64) as i64
    }
}

const WHOLE: [i64; 4] = [-1023, -1023, 1023, 1023];
const QUERIES: usize = 64;

const fn at(x: i64, y: i64) -> Spot {
    Spot { x, y }
}

fn shape(corners: &[(i64, i64)]) -> Shape {
    corners.iter().map(|(x, y)| at(*x, *y)).collect()
}

fn rectangle(x: i64, y: i64, width: i64, height: i64) -> Shape {
    shape(&[(x, y), (x + width, y), (x + width, y + height), (x, y + height)])
}

fn ell() -> Shape {
    shape(&[(0, 0), (60, 0), (60, 20), (20, 20), (20, 50), (0, 50)])
}

fn shelves(count: i64) -> Scene {
    let shelf = |k| rectangle(k % 10 * 190 - 950, k / 10 * 310 - 930, 140, 260);
    let outside = |z: Spot| z.x < -1010 || z.x > 900 || z.y < -980 || z.y > 880;
    Scene {
        frame: WHOLE,
        robot: ell(),
        obstacles: (0..count).map(shelf).collect(),
        part: Some(Box::new(move |z| outside(z).then_some(0))),
    }
}

fn aisles(count: i64) -> Scene {
    let shelf = |k| rectangle(k % 8 * 240 - 910, k / 8 * 240 - 910, 140, 140);
    Scene { frame: WHOLE, robot: ell(), obstacles: (0..count).map(shelf).collect(), part: None }
}

fn random(count: i64) -> Scene {
    let mut random = Random(1);
    let mut triangle = |_| {
        let (x, y) = (random.below(1800) - 1000, random.below(1800) - 1000);
        (0..3).map(|_| at(x + random.below(200), y + random.below(200))).collect()
    };
    let obstacles = (0..count).map(&mut triangle).collect();
    Scene { frame: WHOLE, robot: shape(&[(-10, -15), (25, 0), (0, 30)]), obstacles, part: None }
}

fn stars(count: i64) -> Scene {
    let rays = [(20, 0), (16, 12), (6, 19), (-6, 19), (-16, 12), (-20, 0), (-16, -12), (-6, -19), (6, -19), (16, -12)];
    let mut random = Random(1);
    let mut star = |_| {
        let (x, y) = (random.below(1840) - 920, random.below(1840) - 920);
        let mut corner = |ray: &(i64, i64)| {
            let scale = 1 + random.below(5);
            at(x + scale * ray.0, y + scale * ray.1)
        };
        rays.iter().map(&mut corner).collect()
    };
    let obstacles = (0..count).map(&mut star).collect();
    Scene { frame: WHOLE, robot: shape(&[(-10, -15), (25, 0), (0, 30)]), obstacles, part: None }
}

// Half of them lie flat, half stand upright. All about them is one part, in which queries are where some are blocked.
fn slivers(count: i64, is_blocked: bool) -> Scene {
    let half = count / 2;
    let place = move |k: i64| 1920 / half * k - 930;
    let flat = |k| shape(&[(-1000, place(k)), (1000, place(k) + 7), (-1000, place(k) + 1)]);
    let upright = |k| shape(&[(place(k), -1000), (place(k) + 1, -1000), (place(k) + 13, 1000)]);
    let part = move |z: Spot| {
        let below = (0..half).filter(|k| 2000 * (z.y - place(*k)) > 7 * (z.x + 1000)).count();
        let left = (0..half).filter(|k| 2000 * (z.x - place(*k)) > 12 * (z.y + 1000)).count();
        let within = 1..half as usize;
        if within.contains(&below) && within.contains(&left) {
            Some(64 * below + left)
        } else {
            is_blocked.then_some(0)
        }
    };
    Scene {
        frame: WHOLE,
        robot: shape(&[(0, 0), (1, 0), (0, 1)]),
        obstacles: (0..half).map(flat).chain((0..half).map(upright)).collect(),
        part: Some(Box::new(part)),
    }
}

// They lie about, each in a direction of its own.
fn needles(count: i64) -> Scene {
    let mut random = Random(1);
    let mut needle = |k| {
        let turn = 2000 * k / count;
        let (dx, dy) = if turn < 1000 { (500, turn - 500) } else { (1500 - turn, 500) };
        let (x, y) = (random.below(1000) - 500, random.below(1000) - 500);
        shape(&[(x - dx, y - dy), (x + dx, y + dy), (x + dx - dy.signum(), y + dy + dx.signum())])
    };
    let obstacles = (0..count).map(&mut needle).collect();
    Scene { frame: WHOLE, robot: shape(&[(0, 0), (1, 0), (0, 1)]), obstacles, part: None }
}

// Three walls of nine, with gaps of 20 between those of one wall.
fn gaps(count: i64) -> Scene {
    let block = |k: i64| {
        let (wall, place) = (k / 9, k % 9);
        let (low, high) = (113 * place - 500, if place == 8 { 600 } else { 113 * place - 407 });
        rectangle(500 * wall - 520, low, 40, high - low)
    };
    Scene {
        frame: [-1000, -500, 1000, 500],
        robot: rectangle(0, 0, 30, 20),
        obstacles: (0..count).map(block).collect(),
        part: Some(Box::new(|z| Some((0..3).filter(|wall| z.x > 500 * wall - 520).count()))),
    }
}

// Three walls that lean to the right, and slanted bars anywhere.
fn slanted(count: i64) -> Scene {
    let bar = |x: i64, y: i64, run: i64, rise: i64| {
        shape(&[(x, y), (x + 15, y), (x + run + 15, y + rise), (x + run, y + rise)])
    };
    let foot = |wall: i64| 500 * wall - 650;
    let mut random = Random(1);
    let mut obstacle = |k| {
        if k < 36 {
            return bar(foot(k / 12) + 25 * (k % 12), 170 * (k % 12) - 1023, 25, 170);
        }
        bar(random.below(1800) - 960, random.below(1800) - 1000, random.below(200) - 50, 40 + random.below(100))
    };
    let obstacles = (0..count).map(&mut obstacle).collect();
    let part = move |z: Spot| Some((0..3).filter(|wall| 170 * (z.x - foot(*wall)) > 25 * (z.y + 1023)).count());
    let robot = shape(&[(0, 0), (30, 0), (30, 10), (10, 10), (10, 25), (0, 25)]);
    Scene { frame: WHOLE, robot, obstacles, part: Some(Box::new(part)) }
}

fn turn(a: Spot, b: Spot, c: Spot) -> i64 {
    (b.x - a.x) * (c.y - a.y) - (b.y - a.y) * (c.x - a.x)
}

fn edges(shape: &[Spot]) -> impl Iterator<Item = (Spot, Spot)> + '_ {
    (0..shape.len()).map(move |i| (shape[i], shape[(i + 1) % shape.len()]))
}

// Whether the spot is under an odd number of edges.
fn is_inside(shape: &[Spot], z: Spot) -> bool {
    let over = |(a, b): (Spot, Spot)| {
        let (l, r) = if a.x <= b.x { (a, b) } else { (b, a) };
        l.x <= z.x && z.x < r.x && turn(l, r, z) < 0
    };
    edges(shape).filter(|edge| over(*edge)).count() % 2 == 1
}

// Whether the segments have a common point.
fn do_meet((a, b): (Spot, Spot), (c, d): (Spot, Spot)) -> bool {
    let apart = |p: i64, q: i64, r: i64, s: i64| p.max(q) < r.min(s) || r.max(s) < p.min(q);
    let one_side = |p, q, r, s| turn(p, q, r).signum() * turn(p, q, s).signum() > 0;
    !apart(a.x, b.x, c.x, d.x) && !apart(a.y, b.y, c.y, d.y) && !one_side(a, b, c, d) && !one_side(c, d, a, b)
}

impl Scene {
    fn has_room(&self, robot: &[Spot]) -> bool {
        let [x1, y1, x2, y2] = self.frame;
        robot.iter().all(|z| x1 < z.x && z.x < x2 && y1 < z.y && z.y < y2)
    }

    fn is_clear(&self, z: Spot) -> bool {
        let robot: Shape = self.robot.iter().map(|r| at(r.x + z.x, r.y + z.y)).collect();
        let touches = |obstacle: &Shape| {
            is_inside(obstacle, robot[0])
                || is_inside(&robot, obstacle[0])
                || edges(&robot).any(|e| edges(obstacle).any(|f| do_meet(e, f)))
        };
        self.has_room(&robot) && !self.obstacles.iter().any(touches)
    }

    fn part_of(&self, z: Spot) -> Option<usize> {
        self.part.as_ref().map_or(Some(0), |part| part(z))
    }

    // A clear spot in some part.
    fn spot(&self, random: &mut Random) -> (Spot, usize) {
        let [x1, y1, x2, y2] = self.frame;
        loop {
            let z = at(x1 + random.below(x2 - x1), y1 + random.below(y2 - y1));
            if let (true, Some(part)) = (self.is_clear(z), self.part_of(z)) {
                return (z, part);
            }
        }
    }

    fn query(&self, random: &mut Random, blocked: bool) -> [i64; 4] {
        loop {
            let (start, from) = self.spot(random);
            let (goal, to) = self.spot(random);
            if blocked == (from != to) {
                return [start.x, start.y, goal.x, goal.y];
            }
        }
    }

    fn print(&self, blocked: usize) {
        let mut random = Random(7);
        let list = |items: Vec<String>| format!("[{}]", items.join(","));
        let text = |shape: &Shape| list(shape.iter().map(|z| format!("[{},{}]", z.x, z.y)).collect());
        let obstacle = |(i, shape)| format!("{{\"id\":{},\"shape\":{}}}", i + 1, text(shape));
        let obstacles = list(self.obstacles.iter().enumerate().map(obstacle).collect());
        let query = |k| format!("{:?}", self.query(&mut random, k * blocked % QUERIES + blocked >= QUERIES));
        let queries = list((0..QUERIES).map(query).collect()).replace(' ', "");
        let frame = format!("{:?}", self.frame).replace(' ', "");
        let robot = text(&self.robot);
        println!(
            "{{\"format\":1,\"frame\":{frame},\"robot\":{robot},\"obstacles\":{obstacles},\"queries\":{queries}}}"
        );
    }
}

fn main() {
    let words: Vec<String> = env::args().skip(1).collect();
    let number = |i: usize| words.get(i).and_then(|word| word.parse::<i64>().ok());
    let count = number(1).expect("usage: scenes NAME COUNT [BLOCKED]");
    let blocked = number(2).unwrap_or(0) as usize;
    let scene = match words[0].as_str() {
        "shelves" => shelves(count),
        "aisles" => aisles(count),
        "random" => random(count),
        "stars" => stars(count),
        "slivers" => slivers(count, blocked > 0),
        "needles" => needles(count),
        "gaps" => gaps(count),
        "slanted" => slanted(count),
        name => panic!("no scene {name}"),
    };
    scene.print(blocked);
}
