// The tiers: which number is which, and every producer about the entry tier's
// allowance of 20,000.

use super::*;

fn entry(set: &mut Set, name: impl Into<String>, doc: &Doc) {
    set.sized(name, doc, |c| c.tier = 0);
}

/// An eater that leaves so many in the entry tier.
fn leaving(n: usize) -> Doc {
    Doc::anchored().item(eater(20_000.0 - n as f64))
}

/// A scene that does not fall short in either tier, and one that does in the
/// entry tier alone.
pub fn numbers(set: &mut Set) {
    let small = Doc::anchored().item(sharp(0.0, 0.0, 2.0, 2.0));
    let short = Doc::anchored().item(eater(20_010.0)).item(line(&[[0.0, 0.0], [30.0, 0.0]]));
    for tier in [0, 1, 2, 255, 256, 257, 65_535, 65_536, 1 << 31, u32::MAX] {
        set.sized(format!("tier-{tier}-small"), &small, |c| c.tier = tier);
        set.sized(format!("tier-{tier}-short"), &short, |c| c.tier = tier);
    }
}

pub fn around(set: &mut Set) {
    let spline = |closed| Item::new(SPLINE).part(curve(0, closed, [0.0, 0.0], &[WILD]));
    let outline = curve(1, false, [0.0, 0.0], &[ARCH]);
    let zigzag: Vec<Point> = (0..7).map(|k| [0.5 * k as f64, 0.25 * (k % 2) as f64]).collect();
    // Each with what its curve wants and what it wants in all.
    let producers: [(&str, [usize; 2], Item); 10] = [
        ("segment", [1, 30], line(&[[0.0, 0.0], [30.0, 0.0]])),
        ("one-part-segments", [1, 6], line(&zigzag)),
        ("ring-of-segments", [3, 8], line(&TRIANGLE).flags(CLOSED)),
        ("filled-line-with-outline", [4, 9], line(&TRIANGLE).flags(FILL).fill_points(&SQUARE)),
        ("cubic", [56, 112], spline(false)),
        ("closed-cubic", [56, 114], spline(true)),
        ("unused-outline", [16, 20], path(Item::new(ARC), true, &SQUARE).part(outline)),
        ("ellipse", [32, 64], Item::new(ELLIPSE).at(0.0, 0.0).size(1.0, 0.5)),
        ("rounded-box", [32, 68], sharp(0.0, 0.0, 1.0, 1.0).rad(0.25)),
        ("sharp-box", [4, 12], sharp(0.0, 0.0, 2.0, 2.0)),
    ];
    for (name, wants, item) in producers {
        let near = wants.into_iter().flat_map(|n| n - 1..=n + 1);
        let left: BTreeSet<usize> = near.chain([0, 1, 2, 3, 4, 5, 7, 8, 9]).collect();
        for n in left {
            let doc = leaving(n).item(item.clone()).with(|d| d.flatten = Some(0.01));
            entry(set, format!("tier-0-{n}-left-and-{name}"), &doc);
        }
    }
}

/// One after another, so many in all.
fn repeated(doc: Doc, count: usize, item: impl Fn(f64) -> Item) -> Doc {
    (0..count).fold(doc, |d, k| d.item(item(k as f64)))
}

/// Each producer by itself, with the vertices that a scene of it draws. All
/// segments but the line's are one part.
pub fn written(set: &mut Set) {
    let straight = |n: usize| Doc::anchored().item(line(&[[0.0, 0.0], [n as f64, 0.0]]));
    for tier in [0, 1] {
        for n in [19_999, 20_000, 20_001] {
            whole(set, format!("line-{n}"), tier, &straight(n));
        }
        // Room for what the entry tier grants: the larger grants one more.
        set.sized(format!("tier-{tier}-line-20001-room-for-20000"), &straight(20_001), |c| {
            (c.tier, c.positions) = (tier, 20_001);
        });
    }
    for n in [2_499, 2_500, 2_501] {
        let doc = repeated(Doc::anchored(), n, |k| sharp(k, 0.0, 0.5, 0.25));
        whole(set, format!("sharp-boxes-{}", 8 * n), 0, &doc);
    }
    rings(set);
    cubics(set);
}

/// Written whole, in the tier.
fn whole(set: &mut Set, name: String, tier: u32, doc: &Doc) {
    set.sized(format!("tier-{tier}-written-{name}"), doc, |c| {
        (c.limit, c.tier) = (0, tier);
        (c.work, c.positions, c.features) = (25_000, 25_000, 2_501);
    });
}

/// Ten rings, the last of which has about as many vertices as the others, and
/// one more.
fn rings(set: &mut Set) {
    // So many vertices around at the usual step, where the tolerance asks for
    // the fewest.
    let radius = |around: usize| (around as f64 - 0.5) / (2.0 * std::f64::consts::PI);
    let coarse = || Doc::anchored().with(|d| d.flatten = Some(1e3));
    let circle = |x: f64, around: usize| Item::new(CIRCLE).at(x, 0.0).r(radius(around));
    let nine = repeated(coarse(), 9, |k| circle(k, 1000));
    for n in [999, 1_000, 1_001] {
        let doc = nine.clone().item(circle(9.0, n));
        whole(set, format!("circles-{}", 18_000 + 2 * n), 0, &doc);
        whole(set, format!("circles-{}-and-one", 18_000 + 2 * n), 0, &doc.item(circle(10.0, 40)));
    }
    let rounded = |x: f64, quarter: usize| {
        let r = radius(4 * quarter);
        sharp(x, 0.0, 2.0 * r + 0.5, 2.0 * r + 0.25).rad(r)
    };
    let nine = repeated(coarse(), 9, |k| rounded(k, 250));
    for n in [244, 245, 246] {
        let doc = nine.clone().item(rounded(9.0, n));
        whole(set, format!("rounded-boxes-{}", 18_040 + 8 * n), 0, &doc);
    }
}

/// Flat cubics, a piece each, then those that go to and fro, 4,096 each.
fn cubics(set: &mut Set) {
    let (start, fro, to) = ([0.0, 1.0], [0.0, 0.0], [200.0, 0.0]);
    let (high, low) = ([900.0, 800.0], [-700.0, 800.0]);
    let scene = |pieces: usize, closed: bool| {
        let mut all = vec![[fro; 3]; pieces % 4096];
        all.extend([[high, low, to], [low, high, fro]].iter().cycle().take(pieces / 4096));
        let item = Item::new(SPLINE).part(curve(0, closed, start, &all));
        Doc::anchored().item(item).with(|d| (d.flatten, d.scale) = (Some(1e-4), Some(1e-3)))
    };
    // As many segments as pieces, and the one that closes.
    for (name, pieces, closed) in
        [("19999", 9_999, true), ("20000", 10_000, false), ("20001", 10_000, true)]
    {
        whole(set, format!("cubics-{name}"), 0, &scene(pieces, closed));
    }
    for pieces in [19_999, 20_000, 20_001] {
        whole(set, format!("cubics-of-{pieces}-pieces"), 0, &scene(pieces, false));
    }
}

/// All taken, and then what is granted by its floor or draws nothing.
pub fn none_left(set: &mut Set) {
    let text = Item::new(TEXT).at(1.0, 2.0);
    let segments = line(&[[0.0, 0.0], [1.0, 0.0], [1.0, 0.5], [0.5, 0.5]]);
    for (name, items) in [
        ("nothing", vec![]),
        ("dots", vec![dot(1.0, 1.0), dot(-1.0, 0.5)]),
        ("texts", vec![text.clone(), text.clone()]),
        ("one-part-segments", vec![segments.clone(), segments.clone().flags(CLOSED)]),
        ("small-boxes", vec![sharp(0.0, 0.0, 1.0, 1.0), sharp(2.0, 0.0, 0.5, 0.5)]),
        ("all", vec![dot(1.0, 1.0), segments, sharp(0.0, 0.0, 1.0, 1.0), text]),
    ] {
        let doc = items.into_iter().fold(leaving(0), Doc::item);
        entry(set, format!("tier-0-none-left-and-{name}"), &doc);
    }
}

pub fn refused(set: &mut Set) {
    for (n, case) in refusals() {
        set.cases.push(case.with(|c| (c.name, c.tier) = (format!("tier-0-refused-{n}"), 0)));
    }
}

/// A case for each refusal, with its number.
pub fn refusals() -> Vec<(u32, Case)> {
    let good = Doc::anchored().item(sharp(0.0, 0.0, 2.0, 2.0)).item(Item::new(TEXT));
    let mut all = Vec::new();
    let mut bytes = |n: u32, stream: Vec<u8>| all.push((n, Case::place("", stream)));
    bytes(1, vec![]);
    bytes(2, good.stream().into_iter().rev().collect());
    bytes(3, blocks(&[9]));
    for (n, change) in [
        (4, (|d| d.with(|d| d.bearing = Some(f64::NAN))) as fn(Doc) -> Doc),
        (5, |d| d.with(|d| d.flatten = Some(0.0))),
        (19, |d| d.with(|d| d.step = Some(0.5))),
        (6, |d| d.with(|d| d.rescale = 0.0)),
        (7, |d| d.with(|d| d.frame = Some(0))),
        (8, |d| d.var("geo_lat", 86.0)),
        (10, |_| Doc::mercator()),
        (12, |d| d.var("geo_scale", 0.0)),
        (13, |d| d.var("geo_px", 1.0)),
        (14, |d| d.var("geo_scale", 1e10)),
    ] {
        bytes(n, change(good.clone()).stream());
    }
    let spot = [1.0, 1.0];
    let controls = |n: usize| {
        (0..n).fold(good.clone(), |d, k| d.control(&format!("c{k}"), spot, 0.01 * k as f64, 0.0))
    };
    bytes(9, controls(65).stream());
    bytes(11, controls(2).stream());
    for (n, change) in [
        (15, (|c| c.work = 4) as fn(&mut Case)),
        (16, |c| c.positions = 8),
        (17, |c| c.features = 0),
        (18, |c| c.warnings = 0),
    ] {
        all.push((n, Case::doc("", &good).with(change)));
    }
    all
}
