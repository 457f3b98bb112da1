// Places on the Earth: frames, positions, control points, scales, labels,
// the registration's warnings, fits.

use super::*;

pub fn frames(set: &mut Set) {
    let at_zero = Doc::new().var("geo_lat", 0.0).var("geo_lon", 0.0).item(dot(1.0, 1.0));
    set.doc("frame-absent", &at_zero);
    for (name, v) in [
        ("0", 0.0),
        ("minus-0", -0.0),
        ("1", 1.0),
        ("above-1", above(1.0)),
        ("half", 0.5),
        ("2", 2.0),
        ("minus-1", -1.0),
    ] {
        let doc = at_zero.clone().var("geo_frame", v);
        set.doc(format!("geo-frame-{name}"), &doc);
        set.doc(format!("geo-frame-{name}-option-1"), &doc.clone().with(|d| d.frame = Some(1)));
        set.doc(format!("geo-frame-{name}-option-0"), &doc.with(|d| d.frame = Some(0)));
    }
    set.doc("frame-option-alone", &at_zero.with(|d| d.frame = Some(1)));
}

pub fn positions_on_earth(set: &mut Set) {
    let values = [
        ("85.06", 0.0, 85.06),
        ("above-85.06", 0.0, above(85.06)),
        ("minus-85.06", 0.0, -85.06),
        ("below-minus-85.06", 0.0, -above(85.06)),
        ("latitude-89", 0.0, 89.0),
        ("latitude-90", 0.0, 90.0),
        ("latitude-minus-91", 0.0, -91.0),
        ("180", 180.0, 1.0),
        ("above-180", above(180.0), 1.0),
        ("minus-180", -180.0, 1.0),
        ("below-minus-180", -above(180.0), 1.0),
        ("longitude-1e300", 1e300, 0.0),
        ("corner", -180.0, -85.06),
    ];
    // Small, so that a fit over half the Earth still leaves room for it.
    let shape = sharp(0.25, 0.5, 2e-3, 1e-3);
    for (name, lon, lat) in values {
        let mercator = Doc::mercator().item(shape.clone()).item(dot(1.0, -2.0));
        let anchored = Doc::anchored().item(shape.clone()).item(dot(1.0, -2.0));
        let by_option = mercator.clone().with(|d| d.anchor = Some([lon, lat]));
        set.doc(format!("anchor-{name}"), &by_option);
        let by_variables = mercator.clone().var("geo_lon", lon).var("geo_lat", lat);
        set.doc(format!("geo-lon-lat-{name}"), &by_variables);
        set.doc(format!("feature-at-{name}"), &mercator.clone().control("A", [1.0, 1.0], lon, lat));
        let pair = mercator.clone().place("A", [1.0, 1.0]).var("A_lon", lon).var("A_lat", lat);
        set.doc(format!("variables-at-{name}"), &pair);
        set.doc(
            format!("unused-anchor-{name}-with-1-control"),
            &by_option.clone().control("A", [1.0, 1.0], 1.0, 1.0),
        );
        set.doc(
            format!("unused-anchor-{name}-with-2-controls"),
            &by_variables.control("A", [1.0, 1.0], 1.0, 1.0).control("B", [2.0, 1.0], 1.001, 1.0),
        );
        set.doc(
            format!("second-control-{name}"),
            &mercator.clone().control("A", [1.0, 1.0], 1.0, 1.0).control("B", [2.0, 1.0], lon, lat),
        );
        set.doc(format!("unresolved-feature-{name}"), &anchored.clone().feature("A", lon, lat));
        let repeat = anchored.clone().control("A", [1.0, 1.0], 1.0, 1.0).feature("A", lon, lat);
        set.doc(format!("repeated-feature-{name}"), &repeat);
        let overridden = anchored.clone().control("A", [1.0, 1.0], 1.0, 1.0);
        let overridden = overridden.var("A_lon", lon).var("A_lat", lat);
        set.doc(format!("overridden-variables-{name}"), &overridden);
        set.doc(
            format!("half-a-pair-{name}"),
            &anchored.clone().place("A", [1.0, 1.0]).var("A_lon", lon),
        );
        set.doc(
            format!("unresolved-variables-{name}"),
            &anchored.clone().var("A_lon", lon).var("A_lat", lat),
        );
        let replaced = mercator.var("geo_lon", lon).var("geo_lat", lat);
        set.doc(
            format!("variables-behind-option-{name}"),
            &replaced.with(|d| d.anchor = Some([1.0, 1.0])),
        );
    }
}

/// The canvas point and the position on the Earth of the k-th control point on
/// a slanted grid, so that they fit a similarity roughly.
pub fn spot(k: usize) -> (Point, [f64; 2]) {
    let (i, j) = ((k % 8) as f64, (k / 8) as f64);
    let at = [i * 1.5 - j * 0.1, j + 0.25 * i];
    (at, [10.0 + 0.001 * i - 0.0002 * j, 45.0 + 0.0003 * i + 0.0007 * j])
}

pub fn grid(doc: Doc, from: usize, to: usize, by_feature: bool) -> Doc {
    (from..to).fold(doc, |doc, k| {
        let (name, (at, [lon, lat])) = (format!("c{k:02}"), spot(k));
        if by_feature {
            doc.control(&name, at, lon, lat)
        } else {
            doc.place(&name, at).var(&format!("{name}_lon"), lon).var(&format!("{name}_lat"), lat)
        }
    })
}

pub fn controls(set: &mut Set) {
    let base = Doc::mercator().item(sharp(1.0, 1.0, 2.0, 2.0));
    for n in [1, 2, 3, 4, 8, 63, 64, 65, 80] {
        set.doc(format!("{n}-features"), &grid(base.clone(), 0, n, true));
        set.doc(format!("{n}-variables"), &grid(base.clone(), 0, n, false));
        let mixed = grid(grid(base.clone(), 0, n / 2, false), n / 2, n, true);
        set.doc(format!("{n}-mixed"), &mixed);
    }
    let full = grid(base.clone(), 0, 64, true);
    set.doc("64-features-and-one-unresolved", &full.clone().feature("none", 0.0, 0.0));
    set.doc("64-features-and-one-repeated", &full.clone().feature("c63", 0.0, 0.0));
    let overridden = full.clone().var("c05_lon", 1.0).var("c05_lat", 1.0);
    set.doc("64-features-and-one-overridden", &overridden);
    set.doc("64-features-and-half-a-pair", &full.clone().place("h", [0.0, 0.0]).var("h_lon", 1.0));
    set.doc("64-features-and-a-pair", &grid(full.clone(), 64, 65, false));
    set.doc("65-features-the-last-outside", &full.clone().control("z", [0.0, 0.0], 0.0, 86.0));
    set.doc(
        "65-features-and-the-anchor-outside",
        &grid(base, 0, 65, true).with(|d| d.anchor = Some([0.0, 86.0])),
    );
    let half = [("geo_lon", 1.0), ("geo_lat", 1.0)];
    set.doc("nothing-places-it", &Doc::mercator().item(dot(0.0, 0.0)));
    for (name, value) in half {
        set.doc(format!("only-{name}"), &Doc::mercator().var(name, value).item(dot(0.0, 0.0)));
        let doc = Doc::mercator().var(name, value).control("A", [0.0, 0.0], 1.0, 1.0);
        set.doc(format!("only-{name}-and-a-control"), &doc.item(dot(0.0, 0.0)));
        let doc = Doc::mercator().var(name, value).with(|d| d.anchor = Some([2.0, 2.0]));
        set.doc(format!("only-{name}-and-the-option"), &doc.item(dot(0.0, 0.0)));
    }
    set.doc("only-an-unresolved-feature", &Doc::mercator().feature("A", 1.0, 1.0));
}

pub fn degenerate(set: &mut Set) {
    let base = Doc::mercator().item(sharp(0.0, 0.0, 1.0, 1.0));
    let two = |a: Point, b: Point, p: Point, q: Point| {
        base.clone().control("A", a, p[0], p[1]).control("B", b, q[0], q[1])
    };
    let (p, q) = ([1.0, 1.0], [1.01, 1.02]);
    set.doc("two-points-one-canvas", &two([1.0, 2.0], [1.0, 2.0], p, q));
    set.doc("two-points-zero-signs", &two([0.0, 0.0], [-0.0, 0.0], p, q));
    set.doc("two-points-one-earth", &two([0.0, 0.0], [1.0, 1.0], p, p));
    let wide = base.clone().with(|d| d.items = vec![dot(0.25, 0.5), dot(3.0, -1.0)]);
    let wide = wide.control("A", [0.0, 0.0], 180.0, 5.0).control("B", [1.0, 1.0], -180.0, 5.0);
    set.doc("two-points-180-and-minus-180-of-dots", &wide);
    set.doc(
        "two-points-180-and-minus-180",
        &two([0.0, 0.0], [1.0, 1.0], [180.0, 5.0], [-180.0, 5.0]),
    );
    set.doc("two-points-close", &two([0.0, 0.0], [1e-6, 0.0], p, [1.0 + 1e-12, 1.0]));
    set.doc("two-points-squares-underflow", &two([0.0, 0.0], [1e-170, 0.0], p, q));
    set.doc(
        "two-points-squares-subnormal",
        &two([0.0, 0.0], [1e-161, 0.0], [0.0, 0.0], [1e-170, 0.0]),
    );
    set.doc(
        "two-points-scale-squares-overflow",
        &two([0.0, 0.0], [1e-150, 0.0], [-45.0, 0.0], [45.0, 0.0]),
    );
    set.doc(
        "two-points-scale-squares-finite",
        &two([0.0, 0.0], [1e-145, 0.0], [-45.0, 0.0], [45.0, 0.0]),
    );
    set.doc("two-points-scale-underflows", &two([0.0, 0.0], [1.0, 0.0], [0.0, 0.0], [1e-200, 0.0]));
    set.doc("two-points-scale-subnormal", &two([0.0, 0.0], [1.0, 0.0], [0.0, 0.0], [1e-162, 0.0]));
    set.doc("two-points-ulp-apart", &two([1.0, 1.0], [above(1.0), 1.0], p, [above(1.0), 1.0]));
    let three = two([1.0, 2.0], [1.0, 2.0], p, q).control("C", [1.0, 2.0], 1.1, 1.1);
    set.doc("three-points-one-canvas", &three);
    let three = two([0.0, 0.0], [1.0, 0.0], p, p).control("C", [2.0, 0.0], p[0], p[1]);
    set.doc("three-points-one-earth", &three);
    let line = two([0.0, 0.0], [1.0, 1.0], p, q).control("C", [2.0, 2.0], 1.02, 1.04);
    set.doc("three-points-on-a-line", &line);
    let flipped = two([0.0, 0.0], [1.0, 0.0], [1.0, 1.0], [1.001, 1.0]);
    set.doc("three-points-mirrored", &flipped.control("C", [0.0, 1.0], 1.0, 0.999));
    let cancel = two([-1.0, 0.0], [1.0, 0.0], [0.0, 0.0], [0.001, 0.0]);
    let cancel =
        cancel.control("C", [0.0, -1.0], 0.0005, 0.0005).control("D", [0.0, 1.0], 0.0005, -0.0005);
    set.doc("four-points-cancel", &cancel);
}

pub fn scales(set: &mut Set) {
    let base = Doc::anchored().item(line(&[[0.0, 0.0], [1.0, 0.5]]));
    let one =
        Doc::mercator().control("A", [1.0, 0.0], 5.0, 5.0).item(line(&[[0.0, 0.0], [1.0, 0.5]]));
    let two = one.clone().control("B", [2.0, 1.0], 5.001, 5.002);
    let values = [
        ("zero", 0.0),
        ("minus-zero", -0.0),
        ("negative", -3.0),
        ("smallest", f64::from_bits(1)),
        ("1", 1.0),
        ("2500", 2500.0),
        ("1e9", 1e9),
        ("above-1e9", above(1e9)),
        ("largest", f64::MAX),
    ];
    for (name, v) in values {
        for (who, doc) in [("anchor", &base), ("1-control", &one), ("2-controls", &two)] {
            set.doc(format!("scale-{name}-{who}"), &doc.clone().with(|d| d.scale = Some(v)));
            set.doc(format!("geo-scale-{name}-{who}"), &doc.clone().var("geo_scale", v));
            let pixels = doc.clone().var("geo_px", 1.0).with(|d| d.view_scale = Some(v));
            set.doc(format!("view-scale-{name}-{who}"), &pixels);
        }
        let dots = Doc::anchored().item(dot(0.001, -0.002)).item(dot(3.0, 7.0));
        set.doc(format!("scale-{name}-of-dots"), &dots.with(|d| d.scale = Some(v)));
        set.doc(
            format!("geo-scale-{name}-behind-option"),
            &base.clone().var("geo_scale", v).with(|d| d.scale = Some(50.0)),
        );
    }
    for (name, px) in [("1", 1.0), ("half", 0.5), ("negative", -1.0), ("0", 0.0), ("minus-0", -0.0)]
    {
        for (who, doc) in [("anchor", &base), ("1-control", &one), ("2-controls", &two)] {
            let doc = doc.clone().var("geo_px", px);
            set.doc(format!("geo-px-{name}-{who}"), &doc);
            let seen = doc.clone().with(|d| d.view_scale = Some(96.0));
            set.doc(format!("geo-px-{name}-{who}-view-scale"), &seen);
            let negative = doc.with(|d| d.view_scale = Some(-96.0));
            set.doc(format!("geo-px-{name}-{who}-negative-view-scale"), &negative);
        }
    }
    set.doc("view-scale-without-px", &base.clone().with(|d| d.view_scale = Some(-0.0)));
    let product = |s: f64, v: f64, r: f64| {
        base.clone().var("geo_px", 1.0).with(|d| {
            (d.scale, d.view_scale, d.rescale) = (Some(s), Some(v), r);
        })
    };
    set.doc("scale-product-overflows", &product(1e200, 1e200, 1e300));
    set.doc("scale-quotient-overflows", &product(1e200, 1.0, 1e-200));
    set.doc("scale-quotient-1e9", &product(2e9, 1.0, 2.0));
    set.doc("scale-quotient-above-1e9", &product(1e9, 1.0, 1.0 - f64::EPSILON / 2.0));
    set.doc("scale-product-above-1e9", &product(1e9, above(1.0), 1.0));
    set.doc("scale-underflows-to-zero", &product(1e-200, 1.0, 1e200));
    set.doc("scale-product-zero", &product(1e-200, 1e-200, 1.0));
    let fitted = |dx: f64| {
        let doc = Doc::mercator().control("A", [0.0, 0.0], -90.0, 0.0);
        doc.control("B", [dx, 0.0], 90.0, 0.0).item(sharp(0.0, 0.0, 1e-6, 1e-6))
    };
    for (name, dx) in [("below", 0.0201), ("above", 0.02), ("far-above", 1e-9)] {
        set.doc(format!("fitted-scale-{name}-1e9"), &fitted(dx));
    }
    for (name, b) in [
        ("90", 90.0),
        ("180", 180.0),
        ("270", 270.0),
        ("360", 360.0),
        ("minus-90", -90.0),
        ("30", 30.0),
        ("minus-725.5", -725.5),
        ("1e7", 1e7),
        ("1e300", 1e300),
        ("minus-0", -0.0),
        ("smallest", f64::from_bits(1)),
    ] {
        set.doc(format!("bearing-{name}"), &base.clone().with(|d| d.bearing = Some(b)));
        set.doc(format!("geo-bearing-{name}"), &one.clone().var("geo_bearing", b));
        set.doc(format!("geo-bearing-{name}-2-controls"), &two.clone().var("geo_bearing", b));
    }
    let both = base.var("geo_bearing", 45.0).var("geo_scale", 20.0);
    set.doc(
        "options-before-variables",
        &both.with(|d| (d.scale, d.bearing) = (Some(75.0), Some(10.0))),
    );
}

/// Every two refusals that can hold at once: the first decides.
pub fn two_refusals(set: &mut Set) {
    type Break = fn(&mut Doc);
    let breaks: [(u32, Break); 12] = [
        (4, |d| d.items.push(dot(f64::NAN, 0.0))),
        (5, |d| d.flatten = Some(0.0)),
        (19, |d| d.step = Some(0.5)),
        (6, |d| d.rescale = 0.0),
        (7, |d| d.frame = Some(0)),
        (8, |d| *d = d.clone().control("o", [9.0, 9.0], 0.0, 86.0)),
        (9, |d| *d = grid(d.clone(), 0, 66, true)),
        (10, |d| _ = d.vars.remove("geo_lon")),
        (11, |d| {
            *d = d.clone().control("p", [3.0, 3.0], 1.0, 1.0).control("q", [3.0, 3.0], 2.0, 1.0)
        }),
        (12, |d| d.scale = Some(0.0)),
        (13, |d| _ = d.vars.insert("geo_px".into(), 1.0)),
        (14, |d| d.scale = Some(1e10)),
    ];
    let base = Doc::anchored().item(line(&SQUARE));
    for (i, (a, first)) in breaks.iter().enumerate() {
        let once = base.clone().with(|d| first(d));
        set.doc(format!("breaks-{a}"), &once);
        for (size, change) in [
            ("work", (|c| c.work = 0) as fn(&mut Case)),
            ("positions", |c| c.positions = 0),
            ("features", |c| c.features = 0),
            ("warnings", |c| c.warnings = 0),
        ] {
            set.sized(format!("breaks-{a}-and-no-{size}"), &once, change);
        }
        for (b, second) in &breaks[i + 1..] {
            let doc = once.clone().with(|d| second(d));
            set.doc(format!("breaks-{a}-and-{b}"), &doc);
            let other = base.clone().with(|d| second(d)).with(|d| first(d));
            set.doc(format!("breaks-{b}-and-{a}"), &other);
        }
        let mut tail = once.payload();
        tail.push(1);
        set.raw(format!("breaks-{a}-and-3"), blocks(&tail));
        let mut bytes = once.stream();
        bytes[508] ^= 1;
        set.raw(format!("breaks-{a}-and-2"), bytes.clone());
        bytes.push(0);
        set.raw(format!("breaks-{a}-and-2-and-1"), bytes);
        let mut bytes = once.stream();
        bytes.resize(65 * BLOCK, 0);
        set.raw(format!("breaks-{a}-and-0"), bytes);
    }
    let mut bytes = base.stream();
    bytes[3] = 77;
    set.raw("breaks-3-and-2", bytes.clone());
    bytes.push(9);
    set.raw("breaks-3-and-1", bytes);
}

pub fn labels(set: &mut Set) {
    labels_after(set, "", Doc::mercator());
    // A name that resolves to nothing in front: later ones are not looked up as the first one is.
    labels_after(set, "second-", Doc::mercator().feature("none", 0.0, 0.0));
    // Three names of one hash, as the index of labels has it, and one, two or three labels of it.
    let names = |d: Doc| {
        d.feature("none", 0.0, 0.0)
            .feature("0T", 7.0, 46.0)
            .feature("JB", 7.1, 46.0)
            .feature("d0", 7.0, 46.1)
    };
    let mark = sharp(4.0, 3.0, 1.0, 1.0);
    let places = [("0T", [1.0, 0.0]), ("JB", [5.0, 0.0]), ("d0", [1.0, 6.0])];
    for chosen in 1..8u8 {
        let some = (0..3).filter(|k| chosen >> k & 1 == 1).map(|k| places[k]);
        let mut doc = names(Doc::mercator());
        let mut items = Doc::mercator();
        for (label, [x, y]) in some {
            doc = doc.place(label, [x, y]);
            items = items.item(dot(x, y).label(label));
        }
        set.doc(format!("labels-of-one-hash-{chosen}"), &doc.clone().item(mark.clone()));
        set.doc(format!("labels-of-one-hash-{chosen}-items"), &names(items));
        // The same names again, by host features and by pairs: who was before is told by marks of the hash.
        let pair = |d: Doc, n: &str| d.var(&format!("{n}_lon"), 7.2).var(&format!("{n}_lat"), 46.2);
        let again = doc.feature("JB", 7.3, 46.3).feature("0T", 7.0, 46.0);
        set.doc(format!("names-again-of-one-hash-{chosen}"), &again.clone().item(mark.clone()));
        let pairs = pair(pair(again, "JB"), "d0");
        set.doc(format!("names-and-pairs-of-one-hash-{chosen}"), &pairs.item(mark.clone()));
    }
    // One name alone, of a pair: nothing is indexed, nothing marked.
    let alone = Doc::mercator().var("d0_lon", 7.0).var("d0_lat", 46.0).item(mark.clone());
    set.doc("a-pair-alone", &alone.clone().place("d0", [1.0, 6.0]));
    set.doc("a-pair-alone-of-no-label", &alone);
    set.doc("a-lon-alone", &alone.with(|d| _ = d.vars.remove("d0_lat")).place("d0", [1.0, 6.0]));
}

fn labels_after(set: &mut Set, before: &str, front: Doc) {
    // One control point: where its label is found moves the drawing.
    let base = || front.clone().feature("L", 7.0, 46.0);
    let mut put = |name: &dyn std::fmt::Display, doc: &Doc| set.doc(format!("{before}{name}"), doc);
    let mark = sharp(4.0, 3.0, 1.0, 1.0);
    let item = |x: f64| dot(x, 0.0).label("L");
    put(&"label-equal-key-place-and-item", &base().place("L", [1.0, 0.0]).item(item(2.0)));
    let spans = base().place_at("L", [1.0, 0.0], 0, 5, 6).item(item(2.0).span(5, 6));
    put(&"label-equal-key-and-span", &spans);
    let later = base().place("L", [1.0, 0.0]).item(mark.clone()).item(item(2.0));
    put(&"label-item-of-higher-order", &later);
    let earlier = base().place("X", [0.0, 0.0]).place("L", [1.0, 0.0]).item(item(2.0));
    put(&"label-place-of-higher-order", &earlier);
    put(
        &"label-two-places",
        &base().place("L", [1.0, 0.0]).place("L", [2.0, 0.0]).item(mark.clone()),
    );
    put(&"label-two-items", &base().item(item(1.0)).item(item(2.0)));
    let nested = base().place_at("L", [1.0, 0.0], 1, 90, 1).place("L", [2.0, 0.0]);
    put(&"label-nested-line-90-top-level-line-0", &nested.item(mark.clone()));
    let nested = base().place_at("L", [2.0, 0.0], 0, 0, 0).place_at("L", [1.0, 0.0], 1, 90, 1);
    put(&"label-top-level-first", &nested.item(mark.clone()));
    let nested = base().item(item(1.0).flags(NESTED).span(90, 1)).item(item(2.0));
    put(&"label-nested-item", &nested);
    let nested = base().place("L", [1.0, 0.0]).item(item(2.0).flags(NESTED).span(3, 3));
    put(&"label-nested-item-top-level-place", &nested);
    let both = base().place_at("L", [1.0, 0.0], 1, 4, 4).item(item(2.0).flags(NESTED).span(4, 5));
    put(&"label-both-nested", &both);
    for (name, a, b) in [
        ("line", (5, 9), (6, 1)),
        ("line-falls", (6, 1), (5, 9)),
        ("column", (5, 1), (5, 2)),
        ("column-falls", (5, 2), (5, 1)),
        ("line-largest", (u32::MAX, 0), (u32::MAX - 1, u32::MAX)),
        ("column-without-line", (0, 0), (0, 1)),
    ] {
        let doc = base().place_at("L", [1.0, 0.0], 0, a.0, a.1).item(item(2.0).span(b.0, b.1));
        put(&format!("label-by-{name}"), &doc);
        let doc = base().place_at("L", [1.0, 0.0], 0, a.0, a.1);
        let doc = doc.place_at("L", [2.0, 0.0], 0, b.0, b.1).item(mark.clone());
        put(&format!("label-places-by-{name}"), &doc);
    }
    let three = base().place_at("L", [1.0, 0.0], 0, 2, 2).place_at("L", [2.0, 0.0], 0, 3, 1);
    put(&"label-best-in-the-middle", &three.place_at("L", [3.0, 0.0], 0, 1, 9).item(mark.clone()));
    put(
        &"label-of-no-point",
        &base().place("L", [1.0, 0.0]).item(Item::new(BOX).label("L").span(9, 9)),
    );
    put(&"label-hidden-item", &base().item(item(3.0).flags(HIDDEN)).item(mark.clone()));
    put(
        &"label-block",
        &base().item(Item::new(BLOCK_KIND).at(3.0, 1.0).label("L")).item(mark.clone()),
    );
    let pts = [[1.0, 2.0], [4.0, 8.0], [0.1, 0.2]];
    put(&"label-at-before-points", &base().item(line(&pts).at(9.0, 9.0).label("L")));
    put(&"label-by-mean-of-points", &base().item(line(&pts).label("L")));
    put(&"label-by-fill-points-only", &base().item(Item::new(LINE).fill_points(&pts).label("L")));
    let both = line(&pts).part(polyline(0, false, &SQUARE)).label("L");
    put(&"label-points-before-path", &base().item(both));
    let empty = line(&[]).part(curve(0, false, [5.0, 6.0], &[ARCH])).label("L");
    put(&"label-empty-points-then-path-start", &base().item(empty));
    put(&"label-empty-points", &base().item(line(&[]).label("L")));
    let start = Item::new(SPLINE).part(curve(0, false, [5.0, 6.0], &[ARCH])).label("L");
    put(&"label-by-path-start", &base().item(start.clone().part(polyline(0, false, &pts))));
    let first = path(Item::new(SPLINE), false, &[[7.0, 1.0], [8.0, 2.0]]).label("L");
    put(&"label-by-first-point-of-path", &base().item(first));
    let void = path(Item::new(SPLINE), false, &[]).part(polyline(0, false, &pts)).label("L");
    put(&"label-first-path-empty", &base().item(void));
    let outline = Item::new(SPLINE).part(polyline(1, false, &pts)).label("L");
    put(&"label-by-fill-path-only", &base().item(outline));
    put(&"label-other-case", &base().place("l", [1.0, 0.0]));
    put(&"label-longer", &base().place("LL", [1.0, 0.0]));
    let long = "k".repeat(31);
    put(&"label-of-31", &front.clone().control(&long, [1.0, 0.0], 7.0, 46.0).item(mark.clone()));
    let almost = format!("{}j", "k".repeat(30));
    let doc = front.clone().feature(&long, 7.0, 46.0).place(&almost, [1.0, 0.0]);
    put(&"label-differs-in-the-last-byte", &doc.item(mark));
}

pub fn registration_warnings(set: &mut Set) {
    let mark = sharp(1.0, 1.0, 1.0, 1.0);
    let base = Doc::anchored().item(mark.clone());
    set.doc("features-unresolved", &base.clone().feature("A", 0.0, 0.0).feature("B", 0.0, 0.0));
    let doc = base
        .clone()
        .control("B", [1.0, 1.0], 3.0, 3.0)
        .feature("A", 0.0, 0.0)
        .feature("B", 4.0, 4.0);
    set.doc("feature-repeated", &doc);
    set.doc("feature-three-times", &doc.clone().feature("B", 5.0, 5.0));
    let twice = base.clone().feature("A", 1.0, 1.0).feature("A", 2.0, 2.0);
    set.doc("feature-repeated-unresolved", &twice);
    let two =
        Doc::anchored().control("A", [0.0, 0.0], 1.0, 1.0).control("B", [1.0, 0.0], 1.001, 1.0);
    let two = two.item(mark.clone());
    set.doc("repeats-of-both", &two.clone().feature("B", 9.0, 9.0).feature("A", 9.0, 9.0));
    let vars = |d: Doc, n: &str, lon: Option<f64>, lat: Option<f64>| {
        let d = lon.into_iter().fold(d, |d, v| d.var(&format!("{n}_lon"), v));
        lat.into_iter().fold(d, |d, v| d.var(&format!("{n}_lat"), v))
    };
    let half = vars(base.clone().place("A", [0.0, 0.0]), "A", Some(1.0), None);
    set.doc("half-a-pair-longitude", &half);
    set.doc(
        "half-a-pair-latitude",
        &vars(base.clone().place("A", [0.0, 0.0]), "A", None, Some(1.0)),
    );
    let mixed = vars(vars(half.var("zz", 1.0), "q", Some(2.0), Some(2.0)), "r", Some(3.0), None);
    set.doc("variable-indices", &mixed.clone().place("q", [1.0, 1.0]));
    set.doc("variable-unresolved", &vars(base.clone(), "A", Some(1.0), Some(1.0)));
    let over = vars(two.clone(), "A", Some(8.0), Some(8.0));
    set.doc("variable-overridden", &over);
    set.doc("variable-overridden-half", &vars(two.clone(), "A", Some(8.0), None));
    let both = vars(base.clone().feature("A", 1.0, 1.0), "A", Some(8.0), Some(8.0));
    set.doc("variable-of-unresolved-feature", &both);
    set.doc("variable-of-feature-repeated", &over.clone().feature("A", 7.0, 7.0));
    set.doc("variable-named-lon-alone", &vars(base.clone(), "", Some(1.0), None));
    set.doc("variables-named-lon-and-lat-alone", &vars(base.clone(), "", Some(1.0), Some(1.0)));
    set.doc(
        "variable-lon-lon",
        &vars(base.clone().place("a_lon", [0.0, 1.0]), "a_lon", Some(1.0), Some(1.0)),
    );
    let long = "v".repeat(27);
    set.doc(
        "variable-of-31",
        &vars(base.clone().place(&long, [0.0, 1.0]), &long, Some(1.0), Some(1.0)),
    );
    set.doc("variable-lon-in-the-middle", &base.clone().var("a_lonb", 1.0).var("a_LON", 1.0));
    set.doc(
        "features-before-variables",
        &vars(mixed.feature("x", 0.0, 0.0), "t", Some(1.0), Some(1.0)),
    );
    for (name, scale, bearing, px, anchor) in [
        ("scale", true, false, false, false),
        ("bearing", false, true, false, false),
        ("px", false, false, true, false),
        ("anchor", false, false, false, true),
        ("all", true, true, true, true),
        ("none", false, false, false, false),
    ] {
        for n in [1, 2, 3] {
            let mut doc = grid(Doc::mercator().item(mark.clone()), 0, n, true);
            doc.scale = scale.then_some(30.0);
            doc.bearing = bearing.then_some(0.0);
            if px {
                doc = doc.var("geo_px", 1.0).with(|d| d.view_scale = Some(2.0));
            }
            if anchor {
                doc = doc.var("geo_lon", 1.0).var("geo_lat", 2.0);
            }
            set.doc(format!("ignored-{name}-with-{n}-controls"), &doc);
        }
    }
    let every = vars(grid(Doc::anchored(), 0, 2, true), "c00", Some(0.0), Some(0.0));
    let every =
        vars(every, "w", Some(0.0), None).feature("none", 0.0, 0.0).feature("c01", 0.0, 0.0);
    let every = every.var("geo_scale", 5.0).with(|d| d.view_scale = Some(1.0));
    set.doc(
        "every-warning-in-order",
        &every.item(Item::new(BOX)).item(line(&[[0.0, 0.0], [1.0, 0.0]]).flags(CLOSED)),
    );
}

pub fn fits(set: &mut Set) {
    let shape = Item::new(ARC).part(curve(0, false, [0.0, 0.0], &[ARCH]));
    let base = Doc::mercator().item(shape).item(sharp(3.0, 1.0, 2.0, 1.0));
    let corners: [Point; 4] = [[0.0, 0.0], [4.0, 0.0], [4.0, 3.0], [0.0, 3.0]];
    // Cosine and sine, to a few digits: the library's may differ by machine.
    for (degrees, c, s) in [
        (0, 1.0, 0.0),
        (30, 0.866_025_4, 0.5),
        (45, 0.707_106_8, 0.707_106_8),
        (90, 0.0, 1.0),
        (135, -0.707_106_8, 0.707_106_8),
        (180, -1.0, 0.0),
        (225, -0.707_106_8, -0.707_106_8),
        (270, 0.0, -1.0),
        (315, 0.707_106_8, -0.707_106_8),
    ] {
        for n in [2, 3, 4] {
            let doc = corners[..n].iter().enumerate().fold(base.clone(), |d, (k, p)| {
                let (x, y) = (p[0] * c - p[1] * s, p[0] * s + p[1] * c);
                let name = format!("k{k}");
                // A misfit of some metres in the last point.
                let off = if k == 3 { 3e-5 } else { 0.0 };
                d.control(&name, *p, -70.0 + 1e-3 * x + off, -33.0 + 1e-3 * y)
            });
            set.doc(format!("fit-{n}-turned-{degrees}"), &doc);
        }
    }
    for (name, lon, lat) in [
        ("over-180", [179.999, -179.999, 179.998], [10.0, 10.0, 10.001]),
        ("both-poles", [0.0, 1.0, 2.0], [85.06, -85.06, 80.0]),
        ("equator", [-0.001, 0.001, 0.0], [0.0, 0.0, 0.001]),
        ("far", [-150.0, 30.0, 150.0], [-60.0, 20.0, 70.0]),
    ] {
        for n in [2, 3] {
            let doc = (0..n)
                .fold(base.clone(), |d, k| d.control(&format!("k{k}"), corners[k], lon[k], lat[k]));
            set.doc(format!("fit-{n}-{name}"), &doc);
            // Far from the control points the last bit of a fit shows.
            let dots = [[1e6, 1e6], [-1e6, 3e5], [7e5, -9e5], [0.25, 0.5]];
            let items = dots.map(|p| dot(p[0], p[1])).to_vec();
            set.doc(format!("fit-{n}-{name}-of-far-dots"), &doc.with(|d| d.items = items));
        }
    }
}
