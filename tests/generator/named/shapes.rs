// Shapes: kinds and flags, rings, lines, cubics, fills, wide drawings.

use super::*;

/// An item of the kind with all that any kind reads.
pub fn whole(kind: u8, x: f64) -> Item {
    let shift = |p: &[Point]| -> Vec<Point> { p.iter().map(|q| [q[0] + x, q[1]]).collect() };
    let item = Item::new(kind).at(x, 0.5).size(2.0, 1.0).r(0.75).rad(0.2);
    let item = item.points(&shift(&SQUARE)).fill_points(&shift(&TRIANGLE));
    let item = item.part(curve(0, false, [x, 0.0], &[[[x, 0.5], [x + 0.5, 0.5], [x + 0.5, 0.0]]]));
    item.part(polyline(1, false, &shift(&SQUARE)))
}

pub fn kinds(set: &mut Set) {
    let flags = |a: u8| (0..32u8).filter(move |f| f % 4 == a);
    for kind in BOX..=BLOCK_KIND {
        for part in 0..4 {
            let doc = flags(part)
                .enumerate()
                .fold(Doc::anchored(), |d, (k, f)| d.item(whole(kind, 3.0 * k as f64).flags(f)));
            let doc = doc.with(|d| (d.scale, d.flatten) = (Some(50.0), Some(0.05)));
            set.doc(format!("kind-{kind}-flags-{part}"), &doc);
        }
        let doc = (0..32u8).fold(Doc::anchored(), |d, presence| {
            let mut item = whole(kind, 0.0);
            item.parts.clear();
            item.at = item.at.filter(|_| presence & 1 != 0);
            item.w = item.w.filter(|_| presence & 2 != 0);
            item.h = item.h.filter(|_| presence & 4 != 0);
            item.r = item.r.filter(|_| presence & 8 != 0);
            item.rad = item.rad.filter(|_| presence & 16 != 0);
            d.item(item)
        });
        set.doc(format!("kind-{kind}-every-presence"), &doc.with(|d| d.flatten = Some(0.05)));
        for hidden in [0, HIDDEN] {
            let doc = Doc::anchored().item(Item::new(kind).flags(hidden));
            set.doc(format!("kind-{kind}-bare-{hidden}"), &doc);
        }
        let only_points = Item::new(kind).points(&SQUARE).fill_points(&SQUARE);
        set.doc(format!("kind-{kind}-only-points"), &Doc::anchored().item(only_points));
        let only_paths = path(Item::new(kind), true, &SQUARE).part(polyline(1, true, &TRIANGLE));
        set.doc(format!("kind-{kind}-only-paths"), &Doc::anchored().item(only_paths));
        let only_outline = Item::new(kind).fill_points(&SQUARE).part(polyline(1, true, &SQUARE));
        set.doc(format!("kind-{kind}-only-outlines"), &Doc::anchored().item(only_outline));
    }
}

pub fn rings(set: &mut Set) {
    for (name, w, h) in [
        ("zero", 0.0, 0.0),
        ("minus-zero", -0.0, -0.0),
        ("zero-width", 0.0, 2.0),
        ("zero-height", 2.0, 0.0),
        ("negative", -2.0, -1.0),
        ("negative-width", -2.0, 1.0),
        ("negative-height", 2.0, -1.0),
        ("tiny", 1e-9, 1e-9),
        ("subnormal", f64::from_bits(1), f64::from_bits(3)),
        ("plain", 2.0, 1.0),
        ("long", 40.0, 0.25),
    ] {
        for (at, x, y) in [("zero", 0.0, 0.0), ("minus-zero", -0.0, -0.0), ("off", 3.3, -1.7)] {
            let doc = Doc::anchored().item(sharp(x, y, w, h));
            set.doc(format!("box-{name}-at-{at}"), &doc);
            let doc = Doc::anchored().item(Item::new(ELLIPSE).at(x, y).size(w, h));
            set.doc(format!("ellipse-{name}-at-{at}"), &doc);
        }
        for (round, rad) in [
            ("minus-zero", -0.0),
            ("negative", -0.5),
            ("smallest", f64::from_bits(1)),
            ("tiny", 1e-6),
            ("quarter", 0.25),
            ("half", 0.5),
            ("too-large", 7.0),
        ] {
            let doc = Doc::anchored().item(sharp(0.5, 0.25, w, h).rad(rad));
            set.doc(format!("box-{name}-rounded-{round}"), &doc);
        }
    }
    for (name, r) in [
        ("zero", 0.0),
        ("minus-zero", -0.0),
        ("negative", -1.0),
        ("at-flatten", 0.001),
        ("above-flatten", above(0.001)),
        ("small", 0.002),
        ("plain", 1.0),
        ("step", 1.6),
        ("hundred", 100.0),
        ("thousand", 1000.0),
    ] {
        for scale in [0.001, 1.0, 100.0] {
            let doc = Doc::anchored().item(Item::new(CIRCLE).at(0.5, 0.25).r(r));
            set.doc(format!("circle-{name}-scale-{scale}"), &doc.with(|d| d.scale = Some(scale)));
        }
    }
    // The count by tolerance and by step, around the caps.
    for (name, r, flatten, scale) in [
        ("by-tolerance-4096", 1e5, 0.02, 1e-6),
        ("by-tolerance-above-4096", 1e5, 0.001, 1e-6),
        ("by-tolerance-all-taken-off", 1e6, 1e-12, 1e-6),
        ("by-step", 10.0, 1.0, 1000.0),
        ("by-step-4096", 65.0, 1.0, 1000.0),
        ("by-step-above-4096", 100.0, 1.0, 1000.0),
        ("32-of-33", 1.0, 0.0046, 1e-3),
        ("33", 1.0, 0.0045, 1e-3),
    ] {
        let doc = Doc::anchored().with(|d| (d.flatten, d.scale) = (Some(flatten), Some(scale)));
        let shapes = [
            ("circle", Item::new(CIRCLE).at(1.0, 2.0).r(r)),
            ("ellipse", Item::new(ELLIPSE).at(1.0, 2.0).size(r, 2.0 * r)),
            ("rounded", sharp(1.0, 2.0, 2.0 * r, 2.0 * r).rad(r)),
        ];
        for (shape, item) in shapes {
            let doc = doc.clone().item(item);
            set.doc(format!("{shape}-{name}"), &doc);
            set.sized(format!("{shape}-{name}-with-room"), &doc, |c| {
                (c.work, c.positions) = (5_000, 300_000);
            });
        }
    }
}

pub fn short_shapes(set: &mut Set) {
    let (a, b, c) = ([0.0, 0.0], [3.0, 1.0], [1.0, 2.0]);
    let lists: [(&str, Vec<Point>); 13] = [
        ("none", vec![]),
        ("a", vec![a]),
        ("aa", vec![a, a]),
        ("ab", vec![a, b]),
        ("aba", vec![a, b, a]),
        ("aab", vec![a, a, b]),
        ("aaa", vec![a, a, a]),
        ("abc", vec![a, b, c]),
        ("abca", vec![a, b, c, a]),
        ("aaaa", vec![a, a, a, a]),
        ("abab", vec![a, b, a, b]),
        ("ab-minus-zero", vec![a, b, [-0.0, -0.0]]),
        ("abc-minus-zero", vec![a, b, c, [-0.0, 0.0]]),
    ];
    for (name, points) in &lists {
        for (mark, flags) in
            [("open", 0), ("closed", CLOSED), ("filled", FILL), ("both", CLOSED | FILL)]
        {
            let doc = Doc::anchored().item(line(points).flags(flags));
            set.doc(format!("line-{name}-{mark}"), &doc);
            let outlined = line(points).fill_points(&SQUARE).flags(flags);
            set.doc(format!("line-{name}-{mark}-outlined"), &Doc::anchored().item(outlined));
            let closed = flags & CLOSED != 0;
            let item = path(Item::new(BRACE).flags(flags), closed, points);
            set.doc(format!("path-{name}-{mark}"), &Doc::anchored().item(item.clone()));
            let outlined = item.part(polyline(1, false, &SQUARE));
            set.doc(format!("path-{name}-{mark}-outlined"), &Doc::anchored().item(outlined));
        }
        let outline = line(&SQUARE).flags(FILL).fill_points(points);
        set.doc(format!("outline-{name}"), &Doc::anchored().item(outline));
        for closed in [false, true] {
            let item = path(Item::new(SPLINE).flags(FILL), false, &SQUARE);
            let item = item.part(polyline(1, closed, points));
            set.doc(format!("fill-path-{name}-closed-{closed}"), &Doc::anchored().item(item));
        }
    }
    // The item's own flag does not close a path.
    let item = path(Item::new(SPLINE).flags(CLOSED), false, &SQUARE);
    set.doc("flag-closed-on-open-path", &Doc::anchored().item(item));
    let item = path(Item::new(SPLINE), true, &SQUARE);
    set.doc("closed-path-without-flag", &Doc::anchored().item(item));
    let unwritten = line(&[a, b]).flags(CLOSED);
    let doc = Doc::anchored().item(unwritten.clone()).item(Item::new(TEXT)).item(unwritten);
    set.doc("unwritten-between-missing", &doc.item(dot(1.0, 1.0)));
}

pub fn cubics(set: &mut Set) {
    let (o, e) = ([0.0, 0.0], [2.0, 0.0]);
    let shapes: [(&str, Point, Vec<[Point; 3]>); 19] = [
        ("none", o, vec![]),
        ("straight", o, vec![[[0.5, 0.0], [1.5, 0.0], e]]),
        ("arch", o, vec![ARCH]),
        ("wild", o, vec![WILD]),
        ("at-tolerance", o, vec![[[0.5, 0.001], [1.5, 0.001], e]]),
        ("above-tolerance", o, vec![[[0.5, above(0.001)], [1.5, 0.0], e]]),
        ("second-above-tolerance", o, vec![[[0.5, 0.0], [1.5, -above(0.001)], e]]),
        ("all-one-point", [1.0, 1.0], vec![[[1.0, 1.0]; 3]]),
        ("loop", o, vec![[[1.0, 1.0], [-1.0, 1.0], o]]),
        ("loop-flat", o, vec![[[0.0005, 0.0], [0.0, 0.0005], o]]),
        ("to-and-fro", o, vec![[[3.0, 0.0], [-1.0, 0.0], e]]),
        ("s", o, vec![[[1.0, 1.0], [1.0, -1.0], e]]),
        ("cusp", o, vec![[[2.0, 2.0], [0.0, 2.0], e]]),
        ("two", o, vec![ARCH, [[3.0, -1.0], [4.0, -1.0], [4.0, 0.0]]]),
        (
            "three-closed-by-hand",
            o,
            vec![ARCH, [[3.0, 2.0], [1.0, 3.0], [1.0, 2.0]], [[0.0, 2.0], [0.0, 1.0], o]],
        ),
        ("chord-underflows", o, vec![[[1.0, 0.5], [0.5, 0.25], [1e-170, 0.0]]]),
        ("tiny", o, vec![[[1e-170, 1e-170], [2e-170, 0.0], [3e-170, 1e-170]]]),
        ("far", [1e6, -1e6], vec![[[-1e6, -1e6], [1e6, 1e6], [-1e6, 1e6]]]),
        ("minus-zero", [-0.0, -0.0], vec![[[1.0, 1.0], [2.0, -0.0], [0.0, -0.0]]]),
    ];
    // At its usual scale the far one would use up the allowance.
    let far = |name: &str| (name == "far").then_some(1e-6);
    for (name, start, cubics) in &shapes {
        for closed in [false, true] {
            for fill in [0, FILL] {
                let item = Item::new(SPLINE).flags(fill).part(curve(0, closed, *start, cubics));
                let mut doc = Doc::anchored().item(item).with(|d| d.flatten = Some(0.001));
                doc.scale = far(name);
                set.doc(format!("cubic-{name}-closed-{closed}-fill-{fill}"), &doc);
            }
        }
        let item = path(Item::new(ARC).flags(FILL), false, &TRIANGLE);
        let item = item.part(curve(1, false, *start, cubics));
        let doc = Doc::anchored().item(item).with(|d| d.scale = far(name));
        set.doc(format!("cubic-{name}-as-outline"), &doc);
    }
    // Depth 16: the whole tree, where work and positions have room.
    let deep = Item::new(SPLINE).part(curve(
        0,
        false,
        [1e6, -1e6],
        &[[[-1e6, -1e6], [1e6, 1e6], [-1e6, 1e6]]],
    ));
    let deep = Doc::anchored().item(deep).with(|d| (d.flatten, d.scale) = (Some(1e-9), Some(1e-9)));
    set.sized("cubic-of-depth-16", &deep, |c| (c.work, c.positions) = (70_000, 70_000));
    set.doc("cubic-of-depth-16-without-room", &deep);
    // Long and slim: only where it turns back does it go as deep.
    let slim: [Point; 3] = [[1e5, 1.0 / 3.0], [-3e4, 2.0 / 3.0], [8e4, 1.0]];
    for closed in [false, true] {
        let item = Item::new(ARC).part(curve(0, closed, o, &[slim]));
        let mut doc = Doc::anchored().item(item).with(|d| d.flatten = Some(1e-5));
        doc.scale = Some(0.01);
        set.doc(format!("cubic-hairpins-of-depth-16-closed-{closed}"), &doc);
    }
    for flatten in [1e-300, 1e-12, 1e-9, 2e-9] {
        let item =
            Item::new(SPLINE).part(curve(0, false, o, &[[[0.0, 1e-7], [2e-7, 1e-7], [2e-7, 0.0]]]));
        let doc = Doc::anchored().item(item).with(|d| d.flatten = Some(flatten));
        set.doc(format!("least-tolerance-{flatten:e}"), &doc);
    }
    for flatten in [1e-12, 1e-9, 1e-3, 0.1, 1.0, 10.0] {
        let item = Item::new(SPLINE).part(curve(
            0,
            false,
            o,
            &[[[1e-6, 1e-6], [2e-6, 1e-6], [3e-6, 0.0]]],
        ));
        let item = item.part(curve(0, true, o, &[WILD]));
        let doc = Doc::anchored().item(item).with(|d| d.flatten = Some(flatten));
        set.doc(format!("cubics-flatten-{flatten:e}"), &doc);
    }
    let many: Vec<[Point; 3]> = (0..200)
        .map(|k| {
            let x = k as f64 * 0.01;
            [[x, 0.0], [x, 0.0], [x + 0.01, 0.0]]
        })
        .collect();
    set.doc(
        "cubics-200-flat",
        &Doc::anchored().item(Item::new(BRACE).part(curve(0, false, o, &many))),
    );
}

pub fn fills(set: &mut Set) {
    let tri = polyline(0, false, &TRIANGLE);
    let parts: [(&str, Vec<Part>); 9] = [
        ("one-path", vec![tri.clone()]),
        ("two-paths", vec![tri.clone(), polyline(0, false, &SQUARE)]),
        (
            "two-paths-one-outline",
            vec![tri.clone(), polyline(0, false, &SQUARE), polyline(1, false, &SQUARE)],
        ),
        (
            "one-path-two-outlines",
            vec![tri.clone(), polyline(1, false, &SQUARE), polyline(1, true, &TRIANGLE)],
        ),
        (
            "outline-before-path",
            vec![polyline(1, true, &SQUARE), tri.clone(), polyline(0, true, &SQUARE)],
        ),
        (
            "closed-path-outlined",
            vec![polyline(0, true, &SQUARE), curve(1, false, [0.0, 0.0], &[WILD])],
        ),
        (
            "closed-and-open-paths",
            vec![
                polyline(0, true, &SQUARE),
                curve(0, false, [0.0, 0.0], &[ARCH]),
                curve(1, true, [0.0, 0.0], &[ARCH]),
                curve(1, false, [0.5, 0.0], &[WILD]),
            ],
        ),
        (
            "short-path-outlined",
            vec![
                polyline(0, false, &[[0.0, 0.0]]),
                curve(1, false, [0.0, 0.0], &[WILD]),
                polyline(0, false, &SQUARE),
            ],
        ),
        (
            "empty-paths",
            vec![
                polyline(0, false, &[]),
                polyline(0, true, &[]),
                polyline(1, true, &[]),
                tri.clone(),
            ],
        ),
    ];
    for (name, parts) in &parts {
        for kind in [ARC, SPLINE, BRACE] {
            for flags in [0, FILL, FILL | SCREEN, SCREEN | CLOSED] {
                let mut item = Item::new(kind).flags(flags);
                item.parts = parts.clone();
                let doc = Doc::anchored().item(dot(9.0, 9.0)).item(item);
                set.doc(format!("{name}-kind-{kind}-flags-{flags}"), &doc);
            }
        }
    }
    for kind in [LINE, ARROW] {
        for flags in [0, FILL, CLOSED, FILL | CLOSED, FILL | SCREEN] {
            let item = Item::new(kind).flags(flags).points(&TRIANGLE);
            set.doc(
                format!("triangle-kind-{kind}-flags-{flags}"),
                &Doc::anchored().item(item.clone()),
            );
            let outlined =
                item.fill_points(&[[0.0, 0.0], [4.0, 0.0], [4.0, 4.0], [0.0, 4.0], [0.0, 0.0]]);
            set.doc(
                format!("triangle-kind-{kind}-flags-{flags}-outlined"),
                &Doc::anchored().item(outlined),
            );
        }
    }
}

pub fn segments(set: &mut Set) {
    let along = |metres: f64| {
        Doc::anchored().with(|d| d.scale = Some(1.0)).item(line(&[[0.0, 0.0], [metres, 0.0]]))
    };
    for (name, metres) in [
        ("0", 0.0),
        ("1", 1.0),
        ("99", 99.0),
        ("100", 100.0),
        ("above-100", above(100.0)),
        ("101", 101.0),
        ("200", 200.0),
        ("250", 250.0),
        ("1234.5", 1234.5),
        ("204600", 204_600.0),
        ("204700", 204_700.0),
        ("above-204700", above(204_700.0)),
        ("204800", 204_800.0),
    ] {
        set.doc(format!("segment-{name}-metres"), &along(metres));
        let back = Doc::anchored().with(|d| d.scale = Some(1.0));
        set.doc(
            format!("segment-{name}-metres-back"),
            &back.item(line(&[[metres, 1.0], [0.0, 1.0]])),
        );
    }
    for (name, x, scale) in [
        ("100000-parts", 1e5, 100.0),
        ("above-100000-parts", above(1e5), 100.0),
        ("99999-parts", 99_999.0, 100.0),
        ("at-the-largest-scale", 1e6, 1e9),
    ] {
        let doc =
            Doc::anchored().with(|d| d.scale = Some(scale)).item(line(&[[0.0, 0.0], [x, 0.0]]));
        set.doc(format!("segment-{name}"), &doc);
        set.sized(format!("segment-{name}-with-room"), &doc, |c| c.positions = 100_001);
    }
    let zigzag: Vec<Point> =
        (0..40).map(|k| [0.37 * k as f64, if k % 2 == 0 { 0.0 } else { 1.3 }]).collect();
    set.doc("segments-zigzag", &Doc::anchored().item(line(&zigzag)));
    set.doc("segments-of-no-length", &Doc::anchored().item(line(&[[1.0, 1.0]; 5])));
    set.doc("segment-underflows", &Doc::anchored().item(line(&[[0.0, 0.0], [1e-170, 1e-170]])));
    set.doc("segment-minus-zero", &Doc::anchored().item(line(&[[0.0, 0.0], [-0.0, -0.0]])));
    // Ends that the last part misses by a rounding.
    let odd: Vec<Point> = (0..30)
        .map(|k| [(k * 7311 % 1009) as f64 / 137.0, (k * k * 113 % 997) as f64 / 171.0])
        .collect();
    set.doc("ring-odd-fractions", &Doc::anchored().item(line(&odd).flags(CLOSED)));
}

pub fn wide(set: &mut Set) {
    for (name, lon, lat) in [
        ("180", 180.0, 0.0),
        ("minus-180", -180.0, 0.0),
        ("179.99", 179.99, 40.0),
        ("north", 10.0, 85.0),
        ("south", -10.0, -85.06),
        ("zero", -0.0, -0.0),
    ] {
        for scale in [100.0, 1e5, 1e7, 1e9] {
            for bearing in [0.0, 33.0] {
                let doc = Doc::new().with(|d| {
                    (d.frame, d.anchor) = (Some(1), Some([lon, lat]));
                    (d.scale, d.bearing) = (Some(scale), Some(bearing));
                });
                let near =
                    doc.clone().item(dot(0.1, -0.1)).item(dot(-3.0, 2.0)).item(dot(0.0, 0.0));
                let far = near
                    .item(dot(1e6, 1e6))
                    .item(dot(-1e6, -1e6))
                    .item(dot(1e6, -3.0))
                    .item(dot(0.5, -1e6));
                set.doc(format!("wide-{name}-scale-{scale:e}-bearing-{bearing}"), &far);
                let shape = 2000.0 / scale;
                let doc =
                    doc.item(sharp(shape, 0.0, shape, shape)).item(sharp(0.0, 0.0, shape, shape));
                set.doc(format!("across-{name}-scale-{scale:e}-bearing-{bearing}"), &doc);
            }
        }
    }
    // The exponential is held beyond 700.
    for y in [4.46, 4.47, -4.46, -4.47, 0.2, -0.2] {
        let doc = Doc::anchored().with(|d| d.scale = Some(1e9));
        set.doc(format!("north-of-all-{y}"), &doc.item(dot(0.0, y)));
    }
    // Halves of 10^-9 degree, both signs.
    let dots = (0..60).fold(Doc::anchored(), |d, k| {
        let v = (k as f64 - 29.5) * 1.113_194_907_932_735_7e-6;
        d.item(dot(v, -v))
    });
    set.doc("positions-near-halves", &dots);
    // A longitude of odd 1024ths is a half of 10^-9 degree exactly.
    for k in [1, 3, 5, 7, 101, 12_345] {
        for lon in [k as f64 / 1024.0, -k as f64 / 1024.0] {
            let doc = Doc::mercator().var("geo_lon", lon).var("geo_lat", 0.0);
            set.doc(format!("half-at-{lon}"), &doc.item(dot(0.0, 0.0)));
        }
    }
}
