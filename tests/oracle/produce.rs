// oracle densify: the source's producers of points, one at a time.
//
// A case is words of eight bytes, little-endian: its kind, the allowance, how
// many numbers follow, and these as the bits of f64:
//     0 to 3  a path: tolerance and points; 1 and 3 are closed, 2 and 3 are
//             curves: the start, then three points for each cubic
//     4       an ellipse: step, scale, tolerance, centre, rx, ry
//     5       a box: step, scale, tolerance, centre, w, h, rad
//     6       a line: step, anchor's longitude and latitude, origin, scale,
//             bearing and points, which go to positions
// Its answer: how many points, how many draws, what is left, 1 where a request
// was cut; then the points, and want, floor, grant and left of every draw.

use crate::registration;
use geopic_core::front::{
    Budget, Path, begin, box_ring, densify_polyline, ellipse_ring, finish, path_points, round9,
};

type Point = [f64; 2];

pub fn all(input: &[u8]) -> Vec<u8> {
    let word = |b: &[u8]| u64::from_le_bytes(b.try_into().expect("eight bytes"));
    let words: Vec<u64> = input.chunks_exact(8).map(word).collect();
    let mut rest = &words[..];
    let mut out = Vec::new();
    while let [kind, left, count, behind @ ..] = rest {
        let (numbers, next) = behind.split_at(*count as usize);
        let numbers: Vec<f64> = numbers.iter().map(|n| f64::from_bits(*n)).collect();
        let answer = one(*kind, *left as usize, &numbers);
        out.extend(answer.iter().flat_map(|w| w.to_le_bytes()));
        rest = next;
    }
    out
}

fn one(kind: u64, left: usize, numbers: &[f64]) -> Vec<u64> {
    let mut budget = Budget { left, hit: false };
    // a path's points have no step
    let step = if kind < 4 { f64::NAN } else { numbers[0] };
    begin(left, step, &[], Vec::new());
    let points = points(kind, numbers, &mut budget);
    let draws = finish().draws;
    let head = [points.len(), draws.len(), budget.left, budget.hit as usize];
    let drawn = draws.iter().map(|d| [d.want, d.floor, d.grant, d.left]);
    let mut out: Vec<u64> = head.map(|n| n as u64).to_vec();
    out.extend(points.as_flattened().iter().map(|v| v.to_bits()));
    out.extend(drawn.flatten().map(|n| n as u64));
    out
}

fn points(kind: u64, numbers: &[f64], budget: &mut Budget) -> Vec<Point> {
    match (kind, numbers) {
        (0..=3, [tolerance, points @ ..]) => {
            let path = path(kind % 2 == 1, kind >= 2, pairs(points));
            path_points(&path, *tolerance, budget)
        }
        (4, &[_, scale, tolerance, x, y, rx, ry]) => {
            let reg = registration([0.0, 0.0, 0.0, 0.0, scale, 0.0]);
            ellipse_ring([x, y], rx, ry, tolerance, &reg, budget)
        }
        (5, &[_, scale, tolerance, x, y, w, h, rad]) => {
            let reg = registration([0.0, 0.0, 0.0, 0.0, scale, 0.0]);
            box_ring([x, y], w, h, rad, tolerance, &reg, budget)
        }
        (6, [_, lon, lat, x, y, scale, bearing, points @ ..]) => {
            let reg = registration([*lon, *lat, *x, *y, *scale, *bearing]);
            let dense = densify_polyline(pairs(points), &reg, budget);
            // as convert.rs's `geo` has it
            let geo = |p: &Point| {
                let at = reg.to_lonlat(*p);
                [round9(at.lon), round9(at.lat)]
            };
            dense.iter().map(geo).collect()
        }
        _ => panic!("a case of kind {kind} with {} numbers", numbers.len()),
    }
}

fn path(closed: bool, curve: bool, points: &[Point]) -> Path {
    let mut path = Path {
        closed,
        ..Path::default()
    };
    if curve {
        path.start = Some(points[0]);
        path.cubics = Some(points[1..].as_chunks().0.to_vec());
    } else {
        path.points = Some(points.to_vec());
    }
    path
}

fn pairs(numbers: &[f64]) -> &[Point] {
    numbers.as_chunks().0
}
