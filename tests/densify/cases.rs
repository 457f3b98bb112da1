// Paths, rings and lines within the limits of a stream, and where a path's
// points lie in one. The form of a case stands in tests/oracle/produce.rs.

use crate::host::{self, Path};
use crate::splitmix::Random;
use std::f64::consts::PI;

pub type Point = [f64; 2];

pub const ELLIPSE: u64 = 4;
pub const BOX: u64 = 5;
pub const LINE: u64 = 6;

pub struct Case {
    pub kind: u64,
    pub left: usize,
    pub numbers: Vec<f64>,
}

pub fn seeded(seed: u64) -> Random {
    Random::new(seed ^ 0x5bd1_e995_9d1c_a7e5)
}

/// As many small numbers as large ones.
fn of_any_size(r: &mut Random, low: i32, high: i32) -> f64 {
    let power = low + r.below((high - low) as usize) as i32;
    r.between(1.0, 10.0) * 10f64.powi(power)
}

/// How far a drawing reaches: to the limit, and to where squares underflow.
fn reach(r: &mut Random) -> f64 {
    r.pick(&[1e-160, 1e-6, 0.5, 2.0, 2.0, 10.0, 10.0, 100.0, 3000.0, 1e6])
}

fn coordinate(r: &mut Random, reach: f64) -> f64 {
    match r.below(12) {
        0 => 0.0,
        1 => -0.0,
        2..=4 => (r.between(-4.0, 4.0)).round() / 4.0 * reach,
        5 => r.pick(&[reach, -reach]),
        6 => r.between(-reach, reach) * 1e-3,
        7 if r.chance(20) => r.pick(&[1e6, -1e6, 1e-300, 999_999.875, f64::from_bits(1)]),
        _ => r.between(-reach, reach),
    }
}

fn point(r: &mut Random, reach: f64) -> Point {
    [coordinate(r, reach), coordinate(r, reach)]
}

/// The same point by value, at times with the other sign of zero.
fn same(r: &mut Random, p: Point) -> Point {
    p.map(|v| if v == 0.0 && r.chance(2) { -v } else { v })
}

fn points(r: &mut Random, reach: f64) -> Vec<Point> {
    let n = r.pick(&[0, 1, 2, 2, 3, 3, 4, 4, 5, 6, 9, 17, 40]);
    let mut list: Vec<Point> = (0..n).map(|_| point(r, reach)).collect();
    if n > 1 && r.chance(3) {
        list[n - 1] = same(r, list[0]);
    }
    if n > 2 && r.chance(4) {
        list[1] = same(r, list[0]);
    }
    list
}

fn cubic(r: &mut Random, from: Point, reach: f64) -> [Point; 3] {
    let end = if r.chance(8) {
        same(r, from)
    } else {
        point(r, reach)
    };
    match r.below(8) {
        // near its chord, about the usual tolerance away
        0 | 1 => {
            let along = |t: f64, off: f64| {
                let d = [end[0] - from[0], end[1] - from[1]];
                [
                    from[0] + t * d[0] - off * d[1],
                    from[1] + t * d[1] + off * d[0],
                ]
            };
            let (a, b) = (r.between(-2e-3, 2e-3), r.between(-2e-3, 2e-3));
            [along(0.3, a), along(0.7, b), end]
        }
        2 => [from, end, end],
        3 => [from; 3],
        _ => [point(r, reach), point(r, reach), end],
    }
}

fn curve(r: &mut Random, reach: f64) -> Vec<Point> {
    let mut list = vec![point(r, reach)];
    for _ in 0..r.pick(&[0, 1, 1, 1, 2, 2, 3, 5]) {
        let from = list[list.len() - 1];
        list.extend(cubic(r, from, reach));
    }
    if list.len() > 1 && r.chance(3) {
        let end = list.len() - 1;
        list[end] = same(r, list[0]);
    }
    list
}

fn tolerance(r: &mut Random, reach: f64) -> f64 {
    match r.below(6) {
        0 => r.pick(&[1e-3, 1e-9, 9e-10, 1e-300, 1e300, 0.0, -1e-3]),
        1 => of_any_size(r, -12, 2),
        _ => reach * r.pick(&[1e-2, 1e-2, 1e-3, 3e-4, 0.1, 0.5, 1.0]),
    }
}

/// Within the bounds of option 7, both among them.
fn step(r: &mut Random) -> f64 {
    match r.below(4) {
        0 => 100.0,
        1 => r.pick(&[1.0, 1000.0, 2.5, 5.0, 500.0]),
        _ => of_any_size(r, 0, 3),
    }
}

/// A scale under which so many inches have some parts of a step. One is beyond
/// every registration's: lengths are infinite then.
fn scale(r: &mut Random, step: f64, inches: f64, most: i32) -> f64 {
    let parts = of_any_size(r, -2, most);
    match r.below(16) {
        0 => r.pick(&[0.0, 1e-300, 1.0, 1e9, 1e307]),
        1..=3 => r.pick(&[25.0, 100.0, 400.0, 1000.0]),
        _ if inches == 0.0 => 1.0,
        _ => (parts * step / inches).min(1e9),
    }
}

/// A width, a height or a radius; the limit for these is a million too.
fn measure(r: &mut Random, reach: f64) -> f64 {
    match r.below(12) {
        0 => r.pick(&[0.0, -0.0]),
        1 => -r.between(0.0, reach),
        2..=5 => coordinate(r, reach).abs(),
        _ => r.between(0.0, reach),
    }
}

fn ellipse(r: &mut Random, reach: f64) -> Vec<f64> {
    let (rx, ry) = (measure(r, reach), measure(r, reach));
    let ry = if r.chance(2) { rx } else { ry };
    let [x, y] = point(r, reach);
    let step = step(r);
    let scale = scale(r, step, 2.0 * PI * rx.max(ry).abs(), 4);
    vec![step, scale, tolerance(r, reach), x, y, rx, ry]
}

fn rounded(r: &mut Random, reach: f64) -> Vec<f64> {
    let (w, h) = (measure(r, reach), measure(r, reach));
    let half = w.min(h) / 2.0;
    let rad = match r.below(8) {
        0 => r.pick(&[0.0, -0.0]),
        1 => half,
        2 => measure(r, reach),
        3 => -measure(r, reach),
        _ => half * r.between(0.0, 1.0),
    };
    let [x, y] = point(r, reach);
    let step = step(r);
    let scale = scale(r, step, 2.0 * PI * rad.min(half).abs(), 4);
    vec![step, scale, tolerance(r, reach), x, y, w, h, rad]
}

fn angle(r: &mut Random, limit: f64, others: &[f64]) -> f64 {
    if r.chance(4) {
        r.pick(others)
    } else {
        r.between(-limit, limit)
    }
}

fn line(r: &mut Random, reach: f64) -> Vec<f64> {
    let points = points(r, reach);
    let [x, y] = point(r, reach);
    // at times for a single segment at its cap
    let most = if r.chance(400) { 5 } else { 2 };
    let step = step(r);
    let scale = scale(r, step, reach, most);
    let lon = angle(r, 180.0, &[180.0, -180.0, -0.0]);
    let lat = angle(r, 85.0, &[85.06, -85.06, -0.0]);
    let bearing = angle(r, 400.0, &[0.0, -0.0, 90.0, 1e9]);
    let mut numbers = vec![step, lon, lat, x, y, scale, bearing];
    numbers.extend(points.as_flattened());
    numbers
}

/// The canvas points of a path or line.
pub fn pairs(case: &Case) -> &[Point] {
    let from = if case.kind == LINE { 7 } else { 1 };
    case.numbers[from..].as_chunks().0
}

/// The radius at a box's corners.
pub fn corner_radius(case: &Case) -> f64 {
    let [_, _, _, _, _, w, h, rad] = case.numbers[..] else {
        panic!("a box has eight numbers");
    };
    rad.max(0.0).min(w / 2.0).min(h / 2.0)
}

/// Want and floor of every draw; a curve's pieces are counted by the caller.
pub fn wants(case: &Case, pieces: usize) -> Vec<(usize, usize)> {
    let n = &case.numbers;
    match case.kind {
        0 | 1 => Vec::new(),
        2 | 3 => vec![(1, 1); pieces],
        ELLIPSE => vec![(host::arc_vertices(n[0], n[1], n[5].max(n[6]), n[2]), 8)],
        BOX => {
            let r = corner_radius(case);
            if r <= 0.0 {
                return vec![(4, 4)];
            }
            let around = host::arc_vertices(n[0], n[1], r, n[2]);
            vec![(around.div_ceil(4).max(2) * 4, 8)]
        }
        _ => {
            let want = |w: &[Point]| (host::segment_want(n[0], n[5], w[0], w[1]), 1);
            pairs(case).windows(2).map(want).collect()
        }
    }
}

/// An allowance around a floor, or around what some first draws want.
fn allowance(r: &mut Random, wants: &[(usize, usize)]) -> usize {
    let floors = [
        0, 1, 2, 3, 4, 5, 6, 7, 8, 9, 11, 12, 13, 15, 31, 32, 33, 35, 36, 37,
    ];
    let first = r.below(wants.len() + 1);
    let all: usize = wants.iter().map(|w| w.0).sum();
    let some: usize = wants[..first].iter().map(|w| w.0).sum();
    let left = match r.below(8) {
        0 | 1 => r.pick(&floors),
        2 => (all + r.below(3)).saturating_sub(1),
        3 => (some + r.below(3)).saturating_sub(1),
        4 => some + r.pick(&floors),
        5 => r.below(all + 1),
        _ => r.pick(&[4096, 100_000, 2_000_000, usize::MAX]),
    };
    // where that is a lot, seldom
    if all.min(left) > 3000 && !r.chance(50) {
        return r.pick(&floors);
    }
    left
}

pub fn case(r: &mut Random) -> Case {
    let reach = reach(r);
    let kind = r.pick(&[0, 1, 2, 2, 3, 3, ELLIPSE, ELLIPSE, BOX, BOX, LINE, LINE]);
    let numbers = match kind {
        ELLIPSE => ellipse(r, reach),
        BOX => rounded(r, reach),
        LINE => line(r, reach),
        _ => {
            let points = if kind >= 2 {
                curve(r, reach)
            } else {
                points(r, reach)
            };
            let mut numbers = vec![tolerance(r, reach)];
            numbers.extend(points.as_flattened());
            numbers
        }
    };
    let mut case = Case {
        kind,
        left: 4000,
        numbers,
    };
    let pieces = if kind / 2 == 1 { pieces(&case, r) } else { 0 };
    case.left = allowance(r, &wants(&case, pieces));
    case
}

/// Into how many pieces a curve is split.
pub fn pieces(case: &Case, r: &mut Random) -> usize {
    let laid = lay(case, r);
    let open = Path {
        closed: false,
        ..laid.path
    };
    // five cubics of 65,536 pieces each are the most
    for room in [1 << 10, 1 << 14, 1 << 20] {
        let mut work = vec![0.0; room];
        let d = host::path(&laid.stream, open, case.numbers[0], case.left, &mut work);
        if d.ok {
            return d.at / 2 - 1;
        }
    }
    panic!("a curve has more pieces than depth 16 allows");
}

/// A path in a stream.
pub struct Laid {
    pub stream: Vec<u8>,
    pub path: Path,
    /// Bytes of payload.
    pub room: usize,
    /// Behind the last byte of the points at `at`.
    pub end: usize,
}

/// What stands between the points is arbitrary, and so are the checks.
pub fn lay(case: &Case, r: &mut Random) -> Laid {
    let points = pairs(case);
    let curve = case.kind >= 2;
    let bytes = |p: &[Point]| -> Vec<u8> {
        let floats = p.as_flattened().iter();
        floats.flat_map(|v| v.to_le_bytes()).collect()
    };
    let (start, body) = points.split_at(usize::from(curve));
    let (start, body) = (bytes(start), bytes(body));
    let gap = if r.chance(2) { 0 } else { r.below(700) };
    let mut before = r.below(1100);
    let whole = start.len() + gap + body.len();
    // at times the last point ends the payload
    if r.chance(3) {
        before += 508 - (before + whole) % 508;
    }
    let behind = if r.chance(2) { 0 } else { r.below(700) };
    let blocks = (before + whole).div_ceil(508) + behind / 508;
    let mut payload: Vec<u8> = (0..508 * blocks).map(|_| r.next() as u8).collect();
    let (from, at) = if r.chance(3) {
        (before + body.len() + gap, before)
    } else {
        (before, before + start.len() + gap)
    };
    payload[from..from + start.len()].copy_from_slice(&start);
    payload[at..at + body.len()].copy_from_slice(&body);
    let mut stream: Vec<u8> = Vec::new();
    for block in payload.chunks(508) {
        stream.extend(block);
        stream.extend((r.next() as u32).to_le_bytes());
    }
    if r.chance(4) {
        stream.extend((0..r.below(512)).map(|i| i as u8));
    }
    Laid {
        stream,
        path: Path {
            some: r.chance(2),
            closed: case.kind % 2 == 1,
            curve,
            start: if curve { from } else { r.next() as usize },
            at,
            count: (body.len() / if curve { 48 } else { 16 }) as u16,
            next: r.next() as usize,
        },
        room: payload.len(),
        end: at + body.len(),
    }
}
