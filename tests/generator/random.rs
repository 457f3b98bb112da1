// One case for each seed: scenes of every kind of record, most of them small
// enough to be accepted, some under other sizes or another kind table, some
// damaged.

use crate::case::{BUILT_IN, Case};
use crate::damage;
use crate::named::eater;
pub use crate::splitmix::Random;
use crate::write::*;

/// Each seed is a sequence of its own.
fn seeded(seed: u64) -> Random {
    let mut r = Random::new(seed ^ 0x5bd1_e995_9d1c_a7e5);
    r.next();
    r
}

pub fn case(seed: u64) -> Case {
    built_in(seed).with(|c| c.kinds = kinds(&mut seeded(seed ^ TABLES)))
}

/// The same case, always under a kind table that fits.
pub fn table_case(seed: u64) -> Case {
    built_in(seed).with(|c| c.kinds = table(&mut seeded(seed ^ TABLES)))
}

/// The case under the built-in kind table.
fn built_in(seed: u64) -> Case {
    let mut r = seeded(seed);
    let step = step(&mut seeded(seed ^ STEPS));
    let plain = scene(&mut r, step);
    let doc = with_eater(&mut seeded(seed ^ EATERS), &plain);
    let name = format!("seed-{seed}");
    match r.below(20) {
        0..=11 => Case::doc(name, &doc),
        12 | 13 => Case::doc(name, &doc).with(|c| small_sizes(&mut r, c)),
        14 | 15 => Case::doc(name, &plain).with(|c| {
            c.allowance = Some([r.below(20), r.below(400)][r.below(2)]);
        }),
        _ => Case::place(name, damage::damaged(&mut r, &doc)),
    }
}

/// Kind tables have a sequence of their own: under the built-in one a case is
/// what it was.
const TABLES: u64 = 0xd04b_8a37_5ec9_126f;

/// The built-in table for about four cases of five, seldom one that is refused.
fn kinds(r: &mut Random) -> Vec<u8> {
    match r.below(80) {
        0 => unfit_table(r),
        1..=16 => table(r),
        _ => BUILT_IN.to_vec(),
    }
}

/// Any table that fits.
pub fn table(r: &mut Random) -> Vec<u8> {
    let entry = |kind| if kind == BLOCK_KIND { 2 } else { r.below(3) as u8 };
    (BOX..=BLOCK_KIND).map(entry).collect()
}

/// A table of another length, with an entry above 2, or with a block that is drawn.
fn unfit_table(r: &mut Random) -> Vec<u8> {
    let mut table = table(r);
    match r.below(3) {
        0 => table.resize(r.pick(&[0, 1, 5, 10, 12, 13, 22, 267]), r.below(3) as u8),
        1 => table[r.below(10)] = r.pick(&[3, 4, 128, 255]),
        _ => table[10] = r.pick(&[0, 1, 3, 255]),
    }
    table
}

/// The step has a sequence of its own: a scene without one is what it was.
const STEPS: u64 = 0x7a1d_93c5_02be_4f68;

/// In one scene of three, metres.
fn step(r: &mut Random) -> Option<f64> {
    let most = r.pick(&[10.0, 100.0, 1000.0]);
    let step = match r.below(12) {
        0 => 1.0,
        1 => 1000.0,
        2 => r.pick(&[1.0 - f64::EPSILON / 2.0, 1000.0 + 1e-13, 0.0, -0.0, -5.0, f64::NAN]),
        3 | 4 => r.pick(&[2.5, 5.0, 99.5, 100.0, 500.0]),
        _ => r.between(most / 10.0, most),
    };
    r.chance(3).then_some(step)
}

/// Eaters have a sequence of their own, as steps have.
const EATERS: u64 = 0x3c8f_61d2_b7e0_945a;

/// One scene of four, where it is wide enough, begins with an eater that takes
/// about the entry tier's allowance if the scale is the declared one.
fn with_eater(r: &mut Random, doc: &Doc) -> Doc {
    let most = r.pick(&[8.0, 80.0, 400.0]);
    let parts = 20_000.0 - r.between(-most / 8.0, most).round();
    let declared = doc.scale.or(doc.vars.get("geo_scale").copied()).unwrap_or(100.0);
    let inches = (parts - 0.5) * doc.step.unwrap_or(100.0) * doc.rescale / declared;
    let mut doc = doc.clone();
    if r.chance(4) && (0.0..=1e6).contains(&inches) {
        doc.items.insert(0, eater(inches));
    }
    doc
}

fn small_sizes(r: &mut Random, c: &mut Case) {
    let mut size = |most: usize| if r.chance(2) { 2_048 } else { r.below(most) };
    c.work = size(60);
    c.positions = size(200);
    c.features = size(8);
    c.warnings = size(4);
}

const NAMES: [&str; 8] =
    ["A", "B", "C1", "Gate", "north", "p~", "x_lon", "q_______________________________"];

fn name(r: &mut Random) -> String {
    let n = r.pick(&NAMES);
    n[..n.len().min(27)].to_string()
}

/// Coordinates with few bits, many bits, and the odd special one.
fn coordinate(r: &mut Random, reach: f64) -> f64 {
    match r.below(12) {
        0 => 0.0,
        1 => -0.0,
        2..=4 => (r.between(-reach, reach) * 4.0).round() / 4.0,
        5 => r.between(-reach, reach) * 1e-3,
        6 if r.chance(300) => r.pick(&[1e6, -1e6, 1e-300, 999_999.875, f64::from_bits(1)]),
        _ => r.between(-reach, reach),
    }
}

fn point(r: &mut Random, reach: f64) -> Point {
    [coordinate(r, reach), coordinate(r, reach)]
}

fn points(r: &mut Random, reach: f64) -> Vec<Point> {
    let n = r.pick(&[0, 1, 2, 2, 3, 3, 4, 4, 5, 6, 9, 17]);
    let mut list: Vec<Point> = (0..n).map(|_| point(r, reach)).collect();
    if n > 1 && r.chance(4) {
        // Closed by hand, at times with the other sign of zero.
        list[n - 1] = list[0].map(|v| if v == 0.0 && r.chance(2) { -v } else { v });
    }
    if n > 2 && r.chance(8) {
        list[1] = list[0];
    }
    list
}

fn cubic(r: &mut Random, from: Point, reach: f64) -> [Point; 3] {
    let end = if r.chance(8) { from } else { point(r, reach) };
    if r.chance(4) {
        // Near its chord, about the usual tolerance away.
        let along = |t: f64, off: f64| {
            let d = [end[0] - from[0], end[1] - from[1]];
            [from[0] + t * d[0] - off * d[1], from[1] + t * d[1] + off * d[0]]
        };
        let (a, b) = (r.between(-2e-3, 2e-3), r.between(-2e-3, 2e-3));
        return [along(0.3, a), along(0.7, b), end];
    }
    [point(r, reach), point(r, reach), end]
}

fn part(r: &mut Random, role: u8, reach: f64) -> Part {
    let closed = r.chance(3);
    if r.chance(3) {
        return Part::Polyline(role, closed, points(r, reach));
    }
    let start = point(r, reach);
    let mut from = start;
    let mut cubics: Vec<[Point; 3]> = Vec::new();
    for _ in 0..r.pick(&[0, 1, 1, 1, 2, 3, 5]) {
        let c = cubic(r, from, reach);
        from = c[2];
        cubics.push(c);
    }
    if closed && !cubics.is_empty() && r.chance(2) {
        cubics.last_mut().expect("there is one")[2] = start;
    }
    Part::Cubics(role, closed, start, cubics)
}

fn item(r: &mut Random, reach: f64) -> Item {
    let mut item = Item::new(r.below(11) as u8);
    for flag in [HIDDEN, NESTED, CLOSED, FILL, SCREEN] {
        let one_in = if flag == HIDDEN { 12 } else { 3 };
        item.flags |= if r.chance(one_in) { flag } else { 0 };
    }
    if r.chance(4) {
        item.label = name(r);
    }
    if r.chance(2) {
        (item.line, item.column) = (r.below(4) as u32, r.below(4) as u32);
    }
    let present = |r: &mut Random| !r.chance(9);
    let measure = |r: &mut Random| {
        coordinate(r, reach).abs() * r.pick(&[0.5, 1.0, 1.0, 1.0, 1.0, 1.0, 1.0, -1.0])
    };
    item.at = present(r).then(|| point(r, reach));
    item.w = present(r).then(|| measure(r));
    item.h = present(r).then(|| measure(r));
    item.r = present(r).then(|| measure(r) * 0.5);
    item.rad = r.chance(3).then(|| measure(r) * 0.25);
    let lines = matches!(item.kind, LINE | ARROW);
    let curves = matches!(item.kind, ARC | SPLINE | BRACE);
    if lines && present(r) || r.chance(20) {
        item.parts.push(Part::Points(0, points(r, reach)));
        if r.chance(3) {
            item.parts.push(Part::Points(1, points(r, reach)));
        }
    }
    if curves && present(r) || r.chance(20) {
        for _ in 0..r.pick(&[1, 1, 1, 2, 3]) {
            item.parts.push(part(r, 0, reach));
        }
        for _ in 0..r.pick(&[0, 0, 1, 1, 2]) {
            item.parts.push(part(r, 1, reach));
        }
    }
    if r.chance(3) {
        // Tags 7 and 8 follow in any order; paths keep their own.
        let by = r.below(item.parts.len().max(1)) / 2;
        item.parts.rotate_left(by);
    }
    item
}

fn latitude(r: &mut Random) -> f64 {
    match r.below(60) {
        0 => 85.06,
        1 => -85.06,
        2 => r.between(85.0, 92.0),
        3 => -0.0,
        _ => r.between(-84.0, 84.0),
    }
}

fn longitude(r: &mut Random) -> f64 {
    match r.below(60) {
        0 => 180.0,
        1 => -180.0,
        2 => r.between(179.0, 182.0),
        3 => -0.0,
        _ => r.between(-180.0, 180.0),
    }
}

fn scene(r: &mut Random, step: Option<f64>) -> Doc {
    let mut doc = Doc::new();
    doc.step = step;
    // Lengths such that a usual scene has some hundred positions.
    let reach = r.pick(&[0.5, 2.0, 2.0, 10.0, 10.0, 100.0, 3000.0]);
    let scale = r.between(5.0, 600.0) / reach * r.pick(&[0.01, 1.0, 1.0, 2.0, 8.0]);
    let ratio = step.filter(|v| (1.0..=1000.0).contains(v)).map_or(1.0, |v| v / 100.0);
    let scale = scale * ratio;
    if !r.chance(3) {
        doc.vars.insert("geo_frame".into(), if r.chance(80) { 0.0 } else { 1.0 });
    } else if !r.chance(60) {
        doc.frame = Some(u8::from(!r.chance(60)));
    }
    if r.chance(4) {
        doc.rescale = r.pick(&[0.5, 2.0, 1.25, 0.01, 3.3]);
    }
    if r.chance(2) {
        doc.scale = Some(scale * doc.rescale);
    } else if !r.chance(8) {
        doc.vars.insert("geo_scale".into(), scale * doc.rescale);
    }
    if r.chance(3) {
        doc.bearing = Some(r.between(-400.0, 400.0));
    } else if r.chance(3) {
        doc.vars.insert("geo_bearing".into(), r.between(-180.0, 180.0));
    }
    let tolerance = |r: &mut Random| reach * r.pick(&[1e-2, 1e-3, 3e-4, 0.1]);
    if !r.chance(4) {
        doc.flatten = Some(tolerance(r));
    }
    if r.chance(12) {
        doc.vars.insert("geo_px".into(), r.pick(&[1.0, 1.0, 0.0, -0.0]));
    }
    if r.chance(9) || doc.vars.contains_key("geo_px") && !r.chance(8) {
        doc.view_scale = Some(r.pick(&[1.0, 2.0, 0.75, 1.5, -1.0]));
    }
    if r.chance(2) {
        doc.anchor = Some([longitude(r), latitude(r)]);
    } else if !r.chance(5) {
        doc.vars.insert("geo_lon".into(), longitude(r));
        if !r.chance(30) {
            doc.vars.insert("geo_lat".into(), latitude(r));
        }
    }
    place_on_earth(r, &mut doc, reach, scale);
    for _ in 0..r.pick(&[1, 1, 2, 3, 4, 6, 9]) {
        let shape = item(r, reach);
        doc.items.push(shape);
    }
    if r.chance(25) {
        spoil(r, &mut doc);
    }
    doc
}

/// One value that is refused, or only just is not.
fn spoil(r: &mut Random, doc: &mut Doc) {
    let outside = r.pick(&[f64::NAN, f64::INFINITY, -1_000_000.5, 1e6]);
    match r.below(6) {
        0 => doc.flatten = Some(r.pick(&[0.0, -0.0, -1e-3, 1e-300])),
        1 => doc.rescale = r.pick(&[0.0, -1.0, 1e-12, 1e12]),
        2 => doc.scale = Some(r.pick(&[0.0, -5.0, 1e9, 1e10])),
        3 => doc.places.push(Place {
            label: "far".into(),
            at: [0.0, outside],
            nested: 0,
            line: 0,
            column: 0,
        }),
        4 => doc.items[0].rad = Some(outside),
        _ => doc.bearing = Some(r.pick(&[f64::NAN, f64::NEG_INFINITY, 1e9])),
    }
}

/// Places, features and variables around one spot, so that a fit's scale is
/// like the declared one.
fn place_on_earth(r: &mut Random, doc: &mut Doc, reach: f64, scale: f64) {
    let (lon, lat) = (longitude(r), latitude(r));
    let degrees = reach * scale / 111_000.0;
    let controls = r.pick(&[0, 0, 0, 1, 1, 2, 2, 3, 4, 6]);
    for _ in 0..controls {
        let label = name(r);
        let (x, y) = (lon + r.between(-degrees, degrees), lat + r.between(-degrees, degrees));
        if !r.chance(8) {
            let (nested, line, column) = (r.below(2) as u8, r.below(3) as u32, r.below(3) as u32);
            let spot = point(r, reach);
            *doc = doc.clone().place_at(&label, spot, nested, line, column);
        }
        if r.chance(2) {
            doc.features.push((label, x, y));
        } else {
            doc.vars.insert(format!("{label}_lon"), x);
            if !r.chance(12) {
                doc.vars.insert(format!("{label}_lat"), y);
            }
        }
    }
    if r.chance(8) {
        doc.vars.insert("scale".into(), r.between(-1e9, 1e9));
    }
}
