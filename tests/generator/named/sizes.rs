// Sizes: small ones for every slice and the allowance, full ones, block
// borders, the whole allowance, the limit of blocks.

use super::*;

/// Small shapes under every small size of each slice and of the allowance.
pub fn sweeps(set: &mut Set) {
    let wavy = Part::Cubics(0, false, [0.0, 0.0], vec![ARCH]);
    let shapes: Vec<(&str, Item)> = vec![
        ("dot", dot(0.0, 0.0)),
        ("sharp-box", sharp(0.0, 0.0, 2.0, 2.0)),
        ("no-box", sharp(0.0, 0.0, 0.0, 0.0)),
        ("rounded-box", sharp(0.0, 0.0, 2.0, 2.0).rad(0.3)),
        ("circle", Item::new(CIRCLE).at(0.0, 0.0).r(1.0)),
        ("ellipse", Item::new(ELLIPSE).at(0.0, 0.0).size(3.0, 1.0)),
        ("line", line(&TRIANGLE)),
        ("line-closed", line(&TRIANGLE).flags(CLOSED)),
        ("line-closed-already", line(&[SQUARE[0], SQUARE[1], SQUARE[2], SQUARE[0]]).flags(CLOSED)),
        ("line-open-and-closed-by-hand", line(&[SQUARE[0], SQUARE[1], SQUARE[0]])),
        ("line-filled", line(&TRIANGLE).flags(FILL)),
        ("line-outlined", line(&TRIANGLE).flags(FILL).fill_points(&SQUARE)),
        (
            "line-outlined-closed-by-hand",
            line(&TRIANGLE).fill_points(&[SQUARE[0], SQUARE[1], SQUARE[2], SQUARE[0]]),
        ),
        ("line-closed-outlined", line(&TRIANGLE).flags(CLOSED | FILL).fill_points(&SQUARE)),
        ("line-of-0", line(&[])),
        ("line-of-1", line(&SQUARE[..1])),
        ("line-of-1-outlined", line(&SQUARE[..1]).flags(FILL).fill_points(&SQUARE)),
        ("line-of-2-closed", line(&SQUARE[..2]).flags(CLOSED)),
        ("line-of-2-closed-outlined", line(&SQUARE[..2]).flags(CLOSED | FILL).fill_points(&SQUARE)),
        ("curve", Item::new(SPLINE).part(wavy.clone())),
        ("curve-closed", Item::new(SPLINE).part(curve(0, true, [0.0, 0.0], &[ARCH]))),
        (
            "curve-closed-outlined",
            Item::new(SPLINE).part(curve(0, true, [0.0, 0.0], &[ARCH])).part(curve(
                1,
                false,
                [0.0, 0.0],
                &[ARCH],
            )),
        ),
        (
            "curve-filled-outlined",
            Item::new(SPLINE).flags(FILL).part(wavy.clone()).part(curve(
                1,
                false,
                [0.0, 0.0],
                &[WILD],
            )),
        ),
        (
            "curve-loop-closed",
            Item::new(ARC).part(curve(
                0,
                true,
                [0.0, 0.0],
                &[[[1.0, 1.0], [-1.0, 1.0], [0.0, 0.0]]],
            )),
        ),
        ("two-curves", Item::new(BRACE).part(wavy.clone()).part(wavy)),
        ("missing", Item::new(TEXT)),
    ];
    for (name, item) in shapes {
        let doc = Doc::anchored().item(item).with(|d| d.flatten = Some(0.25));
        let then = doc.clone().item(dot(5.0, 5.0)).item(Item::new(BOX));
        for n in (0..16).chain([31, 32, 33, 34, 35, 36, 37, 38, 39, 40, 41, 42, 46, 47]) {
            set.sized(format!("work-{n}-{name}"), &then, |c| c.work = n);
        }
        for n in (0..24).chain([33, 34, 39, 40, 44, 45, 46, 47, 48]) {
            set.sized(format!("positions-{n}-{name}"), &then, |c| c.positions = n);
        }
        for n in 0..4 {
            set.sized(format!("features-{n}-{name}"), &then, |c| c.features = n);
            set.sized(format!("warnings-{n}-{name}"), &then, |c| c.warnings = n);
            set.sized(format!("nothing-but-{n}-warnings-{name}"), &then, |c| {
                (c.work, c.positions, c.features, c.warnings) = (0, 0, 0, n);
            });
            set.sized(format!("no-positions-{n}-features-{name}"), &then, |c| {
                (c.positions, c.features) = (0, n);
            });
        }
        for n in (0..24).chain([31, 32, 33, 34, 40, 41, 44, 45]) {
            set.sized(format!("allowance-{n}-{name}"), &then, |c| c.allowance = Some(n));
            let twice = then.clone().item(doc.items[0].clone());
            set.sized(format!("allowance-{n}-{name}-twice"), &twice, |c| c.allowance = Some(n));
        }
        let unresolved = then.feature("none", 0.0, 0.0);
        for n in 0..3 {
            set.sized(format!("registration-warning-first-{n}-{name}"), &unresolved, |c| {
                (c.work, c.positions, c.features, c.warnings) = (0, 0, 0, n);
            });
        }
    }
    // A piece that is not flat, by what is left.
    for n in 0..12 {
        for closed in [false, true] {
            for (name, cubics) in [
                ("wild", vec![WILD]),
                ("loop", vec![[[1.0, 1.0], [-1.0, 1.0], [0.0, 0.0]]]),
                ("two", vec![WILD, ARCH]),
            ] {
                let doc = Doc::anchored().item(Item::new(SPLINE).part(curve(
                    0,
                    closed,
                    [0.0, 0.0],
                    &cubics,
                )));
                set.sized(format!("left-{n}-{name}-closed-{closed}"), &doc, |c| {
                    c.allowance = Some(n);
                });
            }
        }
    }
    // Each producer after another has taken the rest.
    let wild_outline = curve(1, false, [0.0, 0.0], &[WILD]);
    let producers: [(&str, Item); 6] = [
        ("segment", line(&[[0.0, 0.0], [30.0, 0.0]])),
        ("piece", Item::new(SPLINE).part(curve(0, false, [0.0, 0.0], &[WILD]))),
        ("ellipse", Item::new(ELLIPSE).at(0.0, 0.0).size(1.0, 0.5)),
        ("rounded-box", sharp(0.0, 0.0, 1.0, 1.0).rad(0.25)),
        ("sharp-box", sharp(0.0, 0.0, 0.5, 0.5)),
        ("unused-outline", path(Item::new(ARC), true, &SQUARE).part(wild_outline)),
    ];
    for (a, first) in &producers {
        for (b, second) in &producers {
            for n in [0, 1, 2, 3, 4, 5, 7, 8, 9, 12, 20, 30, 31, 33, 36, 37, 70] {
                let doc = Doc::anchored().item(first.clone()).item(second.clone());
                set.sized(format!("allowance-{n}-{a}-then-{b}"), &doc, |c| c.allowance = Some(n));
            }
        }
    }
}

/// So wide that a rounding of the canvas shows on the Earth.
fn wide_line() -> Item {
    line(&[[1e6 / 3.0, -1e6 / 7.0], [-2e6 / 3.0, 5e5 / 3.0], [1e-3 / 3.0, 1e-3 / 7.0]])
}

fn wide_ring() -> Item {
    let far: [Point; 3] =
        [[1e6 / 3.0, -1e6 / 7.0], [-2e6 / 3.0, 5e5 / 3.0], [4e5 / 3.0, 8e5 / 7.0]];
    line(&[[1e-3 / 3.0, 1e-3 / 7.0], far[0], far[1], far[2]]).flags(CLOSED)
}

/// Wide shapes where little is left, so that they have few positions.
pub fn wide_and_spent(set: &mut Set) {
    for scale in [1e6, 1e8, 1e9] {
        for allowance in [0, 7, 50, 200] {
            let doc = Doc::anchored().with(|d| d.scale = Some(scale));
            let line = doc.clone().item(wide_line());
            set.sized(format!("wide-line-{scale:e}-allowance-{allowance}"), &line, |c| {
                c.allowance = Some(allowance);
            });
            let ring = doc.item(wide_ring());
            set.sized(format!("wide-ring-{scale:e}-allowance-{allowance}"), &ring, |c| {
                c.allowance = Some(allowance);
            });
        }
    }
}

/// The sizes of `place` filled to the last place, and one more.
pub fn full_slices(set: &mut Set) {
    for n in [511, 512, 513] {
        let dots = (0..n).fold(Doc::anchored(), |d, k| d.item(dot(k as f64, 0.5)));
        set.doc(format!("{n}-features-lines"), &dots);
        let missing = (0..n).fold(Doc::anchored(), |d, _| d.item(Item::new(CIRCLE)));
        set.doc(format!("{n}-warnings"), &missing);
        let registered = (0..n - 1)
            .fold(Doc::anchored().feature("none", 0.0, 0.0), |d, _| d.item(Item::new(CIRCLE)));
        set.doc(format!("{n}-warnings-with-registration"), &registered);
    }
    for n in [2047, 2048, 2049] {
        let doc = Doc::anchored().with(|d| d.scale = Some(1.0));
        let length = (n - 1) as f64 * 100.0;
        set.doc(format!("{n}-positions"), &doc.clone().item(line(&[[0.0, 0.0], [length, 0.0]])));
        let two = doc.item(line(&[[0.0, 0.0], [length - 100.0, 0.0]])).item(dot(0.0, 0.0));
        set.doc(format!("{n}-positions-in-two"), &two);
    }
    // The arch becomes 808 pieces; the outline fills work up.
    let arch: [Point; 3] = [[200.0, 400.0], [400.0, 400.0], [600.0, 0.0]];
    for n in [1235, 1236, 1237, 1238] {
        let outline: Vec<Point> =
            (0..n).map(|k| [0.001 * k as f64, 0.002 * (k % 3) as f64]).collect();
        for closed in [false, true] {
            let item = Item::new(ARC).part(curve(0, closed, [0.0, 0.0], &[arch]));
            let item = item.part(polyline(1, false, &outline));
            let doc = Doc::anchored().item(item).with(|d| d.scale = Some(0.001));
            set.doc(format!("work-full-outline-{n}-closed-{closed}"), &doc);
        }
    }
    let many: Vec<Point> = (0..2000).map(|k| [0.001 * k as f64, 0.0]).collect();
    set.doc("line-of-2000-points", &Doc::anchored().item(line(&many)));
    set.doc("line-of-2000-points-filled", &Doc::anchored().item(line(&many).flags(FILL)));
}

/// Records whose fields lie across a block's border at every offset.
pub fn borders(set: &mut Set) {
    for pad in 0..64 {
        // 15 labels of up to 31 bytes move the rest by 0 to 63 bytes.
        let mut doc = Doc::anchored();
        for k in 0..15 {
            let extra = (pad / 15 + usize::from(k < pad % 15)).min(30);
            doc = doc.place(&"p".repeat(1 + extra), [k as f64, 0.0]);
        }
        let doc = doc.place_at("Q", [1.0, 2.0], 0, 0x0102_0304, 0x0506_0708).feature("Q", 3.0, 4.0);
        let doc = doc.item(sharp(1.0, 2.0, 1.5, 0.75).label("QQ").rad(0.1).r(3.0).span(9, 9));
        let doc = doc.item(line(&TRIANGLE)).item(Item::new(SPLINE).part(curve(
            0,
            false,
            [0.0, 0.0],
            &[ARCH],
        )));
        set.doc(format!("border-moved-by-{pad}"), &doc.with(|d| d.flatten = Some(0.05)));
    }
    for n in [30, 63, 64, 95, 127, 500, 1000] {
        let points: Vec<Point> = (0..n).map(|k| [0.01 * k as f64, 0.02 * (k % 7) as f64]).collect();
        let doc = Doc::anchored().item(line(&points)).item(dot(1.0, 1.0));
        set.doc(format!("several-blocks-{n}-points"), &doc);
    }
}

/// Lines that are drawn from the allowance and not written: they use it up
/// without filling a slice. At the usual scale and step an inch is a part.
pub fn eater(inches: f64) -> Item {
    line(&[[0.0, 0.0], [inches, 0.0]]).flags(CLOSED)
}

/// The whole allowance of 2,000,000, used up in small streams.
pub fn heavy() -> Vec<Case> {
    let mut set = Set::default();
    let full = (0..20).fold(Doc::anchored(), |d, _| d.item(eater(1e5)));
    let but =
        |n: f64| (0..19).fold(Doc::anchored(), |d, _| d.item(eater(1e5))).item(eater(1e5 - n));
    set.doc("whole-allowance-exactly", &full);
    set.doc(
        "whole-allowance-and-dots",
        &full.clone().item(dot(1.0, 1.0)).item(sharp(0.0, 0.0, 0.1, 0.1)),
    );
    let all = full.item(line(&[[0.0, 0.0], [5.0, 0.0]]));
    let all =
        all.item(Item::new(CIRCLE).at(0.0, 0.0).r(1.0)).item(sharp(0.0, 0.0, 2.0, 2.0).rad(0.5));
    let all = all.item(Item::new(SPLINE).part(curve(0, false, [0.0, 0.0], &[WILD])));
    set.doc("whole-allowance-then-every-producer", &all);
    let wild = Item::new(SPLINE).part(curve(0, false, [0.0, 0.0], &[WILD]));
    set.doc("one-left-and-a-wild-cubic", &but(1.0).item(wild.clone()));
    let closed = Item::new(SPLINE).part(curve(0, true, [0.0, 0.0], &[WILD]));
    set.doc("one-left-and-a-closed-cubic", &but(1.0).item(closed));
    set.doc("two-left-and-a-wild-cubic", &but(2.0).item(wild));
    set.doc("nine-left-and-a-circle", &but(9.0).item(Item::new(CIRCLE).at(0.0, 0.0).r(1.0)));
    let wide = |d: Doc| d.with(|d| d.scale = Some(1e9));
    let eaten = |n: usize| (0..n).fold(wide(Doc::anchored()), |d, _| d.item(eater(1.0)));
    set.doc("whole-allowance-then-a-wide-ring", &eaten(20).item(wide_ring()));
    let fifty = eaten(19).item(eater(0.009_995)).item(wide_line());
    set.doc("fifty-left-and-a-wide-line", &fifty);
    let rest = (0..25).fold(Doc::anchored(), |d, k| d.item(line(&[[0.0, 0.0], [1e5, k as f64]])));
    set.sized("whole-allowance-written", &rest, |c| c.positions = 3_000_000);
    set.cases
}

/// The limit of blocks itself.
pub fn large() -> Vec<Case> {
    let good = Doc::anchored().item(sharp(0.0, 0.0, 2.0, 2.0)).stream();
    let mut cases = Vec::new();
    for count in [65_536, 65_537] {
        let mut bytes = good.clone();
        bytes.resize(count * BLOCK, 0);
        mend(&mut bytes);
        cases.push(Case::place(format!("blocks-{count}"), bytes).with(|c| c.limit = 0));
    }
    cases
}
