// The step set for a sheet: its bounds, its caps and floors, and every kind of
// shape under it.

use super::*;

fn stepped(step: f64, scale: f64) -> Doc {
    Doc::anchored().with(|d| (d.step, d.scale) = (Some(step), Some(scale)))
}

pub fn bounds(set: &mut Set) {
    let shapes = |d: Doc| d.item(line(&SQUARE)).item(Item::new(CIRCLE).at(1.0, 2.0).r(1.5));
    for (name, step) in [
        ("1", 1.0),
        ("above-1", above(1.0)),
        ("below-1", below(1.0)),
        ("1000", 1000.0),
        ("below-1000", below(1000.0)),
        ("above-1000", above(1000.0)),
        ("100", 100.0),
        ("2.5", 2.5),
        ("0", 0.0),
        ("minus-0", -0.0),
        ("minus-1", -1.0),
        ("minus-1000", -1000.0),
        ("smallest", f64::from_bits(1)),
        ("largest", f64::MAX),
        ("nan", f64::NAN),
        ("infinity", f64::INFINITY),
        ("minus-infinity", f64::NEG_INFINITY),
    ] {
        set.doc(format!("step-{name}"), &shapes(stepped(step, 100.0)));
        for (other, change) in [
            ("flatten", (|d| d.flatten = Some(-0.0)) as fn(&mut Doc)),
            ("rescale", |d| d.rescale = -0.0),
            ("both", |d| (d.flatten, d.rescale) = (Some(0.0), 0.0)),
            ("view-scale", |d| d.view_scale = Some(0.0)),
        ] {
            let doc = shapes(stepped(step, 100.0)).with(change);
            set.doc(format!("step-{name}-and-{other}"), &doc);
        }
    }
}

/// A segment so many metres long.
fn along(step: f64, metres: f64) -> Doc {
    stepped(step, 1.0).item(line(&[[0.0, 0.0], [metres, 0.0]]))
}

pub fn segments(set: &mut Set) {
    for (step, lengths) in [
        (1.0, [0.5, 1.0, 7.0, 100.5]),
        (2.5, [2.5, 5.0, 7.5, 99.0]),
        (3.3, [3.3, 6.6, 9.9, 33.0]),
        (5.0, [4.0, 5.0, 100.0, 1234.5]),
        (99.5, [99.0, 99.5, 100.0, 995.0]),
        (500.0, [100.0, 500.0, 999.5, 12_345.0]),
        (1000.0, [1.0, 1000.0, 5000.0, 123_456.0]),
    ] {
        for metres in lengths {
            for (name, length) in
                [("", metres), ("-and-a-bit", above(metres)), ("-less-a-bit", below(metres))]
            {
                let doc = along(step, length);
                set.doc(format!("segment-step-{step}-of-{metres}-metres{name}"), &doc);
            }
        }
    }
    // The cap: beyond it parts are longer than the step.
    for (name, metres) in [("99999", 99_999.0), ("above-100000", above(1e5)), ("1000000", 1e6)] {
        set.sized(format!("segment-step-1-of-{name}-metres"), &along(1.0, metres), |c| {
            c.positions = 100_001;
        });
    }
}

pub fn rings(set: &mut Set) {
    let turn = 2.0 * std::f64::consts::PI;
    // So many parts around, where the tolerance asks for the fewest.
    for (step, parts) in [
        (1.0, [31.5, 32.5, 100.0, 4095.5]),
        (2.5, [32.0, 33.5, 50.0, 1000.0]),
        (500.0, [1.0, 31.5, 32.5, 200.0]),
        (1000.0, [0.5, 31.5, 32.5, 4095.5]),
    ] {
        for around in parts {
            let r = around * step / turn / 10.0;
            let doc = stepped(step, 10.0).with(|d| d.flatten = Some(2.0 * r));
            for (shape, item) in [
                ("circle", Item::new(CIRCLE).at(1.0, 2.0).r(r)),
                ("ellipse", Item::new(ELLIPSE).at(1.0, 2.0).size(r, 2.0 * r)),
                ("rounded", sharp(1.0, 2.0, 2.5 * r, 2.25 * r).rad(r)),
            ] {
                let doc = doc.clone().item(item);
                let name = format!("{shape}-step-{step}-of-{around}-parts");
                if around < 2000.0 {
                    set.doc(name, &doc);
                } else {
                    set.sized(name, &doc, |c| (c.work, c.positions) = (5_000, 20_000));
                }
            }
        }
    }
    // The cap, and the tolerance beside the step.
    for (name, r, flatten) in [
        ("4096", 4096.0 / turn, 1e4),
        ("above-4096", 4097.0 / turn, 1e4),
        ("three-times-4096", 12_288.0 / turn, 1e4),
        ("by-tolerance", 1.0, 1e-4),
    ] {
        let doc = stepped(1.0, 1.0).with(|d| d.flatten = Some(flatten));
        let doc = doc.item(Item::new(CIRCLE).at(1.0, 2.0).r(r));
        set.sized(format!("circle-step-1-{name}"), &doc, |c| {
            (c.work, c.positions) = (5_000, 20_000);
        });
    }
    // Whole numbers of parts, but for a rounding: it tells the order of operations.
    for k in 0..40 {
        let step = 1.0 + (k * 37 % 101) as f64 / 13.0;
        let r = (40 + 3 * k) as f64 * step / turn;
        let doc = stepped(step, 1.0).with(|d| d.flatten = Some(2.0 * r));
        let doc = doc.item(Item::new(CIRCLE).at(0.5, 0.5).r(r));
        set.doc(format!("circle-step-whole-parts-{k}"), &doc);
    }
}

pub fn every_kind(set: &mut Set) {
    let wavy = curve(0, false, [0.0, 0.0], &[ARCH, WILD]);
    let items = [
        line(&TRIANGLE).flags(CLOSED),
        Item::new(ARROW).points(&TRIANGLE).fill_points(&SQUARE).flags(FILL),
        Item::new(SPLINE).part(wavy.clone()).part(curve(1, true, [0.0, 0.0], &[ARCH])).flags(FILL),
        path(Item::new(BRACE), true, &SQUARE),
        sharp(0.0, 0.0, 3.0, 1.0),
        sharp(0.5, 0.5, 3.0, 2.0).rad(0.75),
        Item::new(CIRCLE).at(0.0, 1.0).r(2.0),
        Item::new(ELLIPSE).at(0.0, 1.0).size(3.0, 1.0),
        dot(1.0, 1.0),
    ];
    for step in [1.0, 5.0, 37.5, 500.0, 1000.0] {
        for scale in [0.5, 20.0, 3000.0] {
            let doc = stepped(step, scale).with(|d| d.flatten = Some(0.01));
            let doc = items.iter().fold(doc, |d, item| d.item(item.clone()));
            let doc = doc.with(|d| (d.anchor, d.bearing) = (Some([7.5, 46.9]), Some(30.0)));
            let name = format!("every-kind-step-{step}-scale-{scale}");
            if scale < 50.0 * step {
                set.doc(name, &doc);
            } else {
                set.sized(name, &doc, |c| (c.work, c.positions) = (5_000, 300_000));
            }
        }
    }
}
