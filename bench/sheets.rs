//! Whole sheets by three hands: this module through its C symbol, the Rust with the stand-ins, the Rust with its own
//! library. The three take turns; of each the median is printed.

use std::hint::black_box;
use std::time::Instant;
use write::{CIRCLE, DOT, Doc, ELLIPSE, Item, LINE, Part, SPLINE};

#[allow(dead_code)]
#[path = "../tests/generator/write.rs"]
mod write;

#[repr(C)]
struct Answer {
    number: u32,
    method: u32,
    controls: u32,
    spent: u32,
    positions: usize,
    features: usize,
    warnings: usize,
    left: usize,
}

/// The kind table of every call: the built-in one.
const KINDS: [u8; 11] = [0, 0, 0, 0, 0, 0, 0, 1, 1, 0, 2];

/// The tier of every call.
const LARGER: u32 = 1;

/// The host's call by one of its names.
macro_rules! call {
    ($name:ident) => {
        unsafe extern "C" {
            #[allow(clippy::too_many_arguments)]
            fn $name(
                stream: *const u8,
                stream_length: usize,
                kinds: *const u8,
                kinds_length: usize,
                tier: u32,
                work: *mut f64,
                work_length: usize,
                positions: *mut f64,
                positions_length: usize,
                features: *mut u32,
                features_length: usize,
                warnings: *mut u32,
                warnings_length: usize,
            ) -> Answer;
        }
    };
}
call!(geopic_place);
#[cfg(before)]
call!(geopic_place_before);

/// What the module is lent. `work` is cleared by every call; nothing is cleared between calls.
struct Lent {
    work: Vec<f64>,
    positions: Vec<f64>,
    features: Vec<u32>,
    warnings: Vec<u32>,
}

impl Lent {
    fn with_work(points: usize) -> Lent {
        Lent {
            work: vec![0.0; 2 * points],
            positions: vec![0.0; 2 * 4_000_000],
            features: vec![0; 6 * 3_000_000],
            warnings: vec![0; 2 * 3_000_000],
        }
    }
}

/// Seconds and positions of one call, none of a sheet that is refused.
type Run = (f64, Option<usize>);

macro_rules! timed_call {
    ($name:ident, $call:ident) => {
        fn $name(stream: &[u8], lent: &mut Lent) -> Run {
            let start = Instant::now();
            let answer = unsafe {
                $call(
                    stream.as_ptr(),
                    stream.len(),
                    KINDS.as_ptr(),
                    KINDS.len(),
                    LARGER,
                    lent.work.as_mut_ptr(),
                    lent.work.len(),
                    lent.positions.as_mut_ptr(),
                    lent.positions.len(),
                    lent.features.as_mut_ptr(),
                    lent.features.len(),
                    lent.warnings.as_mut_ptr(),
                    lent.warnings.len(),
                )
            };
            let seconds = start.elapsed().as_secs_f64();
            (seconds, (answer.number == 0).then_some(answer.positions))
        }
    };
}
timed_call!(module, geopic_place);
#[cfg(before)]
timed_call!(module_before, geopic_place_before);

macro_rules! rust {
    ($name:ident, $crate_name:ident) => {
        /// Reading is the tests' reader of the stream; what the call allocated is freed after the clock stopped.
        fn $name(stream: &[u8]) -> Run {
            use $crate_name::Geometry;
            let start = Instant::now();
            let parsed =
                $crate_name::stream::parse(stream).unwrap_or_else(|n| panic!("refused by {n}"));
            let scene = $crate_name::georeference_scene(&parsed.scene, &parsed.options);
            let seconds = start.elapsed().as_secs_f64();
            let Ok(scene) = black_box(scene) else { return (seconds, None) };
            let count = |g: &Geometry| match g {
                Geometry::Point(_) => 1,
                Geometry::LineString(p) => p.len(),
                Geometry::Polygon(rings) => rings[0].len(),
            };
            let features = &scene.features.features;
            (seconds, Some(features.iter().map(|f| count(&f.geometry)).sum()))
        }
    };
}
rust!(standins, rust_standins);
rust!(library, rust_library);

/// Medians of the three, in seconds, and the positions of the first.
struct Timed {
    seconds: [f64; 3],
    positions: usize,
}

fn timed(doc: &Doc, lent: &mut Lent, rounds: usize) -> Timed {
    timed_stream(&doc.stream(), lent, rounds)
}

fn timed_stream(stream: &[u8], lent: &mut Lent, rounds: usize) -> Timed {
    let mut all: [Vec<f64>; 3] = Default::default();
    let mut positions = 0;
    for _ in 0..rounds {
        let (seconds, ours) = module(stream, lent);
        all[0].push(seconds);
        let (seconds, theirs) = standins(stream);
        all[1].push(seconds);
        assert_eq!(ours, theirs, "as many positions by both");
        all[2].push(library(stream).0);
        positions = ours.expect("accepted");
    }
    Timed { seconds: all.map(median), positions }
}

/// NaN of none.
fn median(mut v: Vec<f64>) -> f64 {
    v.sort_by(f64::total_cmp);
    v.get(v.len() / 2).copied().unwrap_or(f64::NAN)
}

fn row(name: &str, figures: [f64; 3], ratios: [f64; 2]) {
    let [a, b, c] = figures;
    let [x, y] = ratios;
    println!("{name:40}{a:12.1}{b:12.1}{c:12.1}{x:12.2}{y:12.2}");
}

fn title(unit: &str) {
    println!(
        "\n{unit:40}{:>12}{:>12}{:>12}{:>12}{:>12}",
        "module", "stand-ins", "library", "/stand-ins", "/library"
    );
}

fn by_position(name: &str, doc: &Doc, lent: &mut Lent, rounds: usize) {
    let t = timed(doc, lent, rounds);
    let s = t.seconds;
    let each = s.map(|s| s * 1e9 / t.positions as f64);
    row(name, each, [s[0] / s[1], s[0] / s[2]]);
}

fn megabytes(name: &str, stream: &[u8], lent: &mut Lent, rounds: usize) {
    let s = timed_stream(stream, lent, rounds).seconds;
    let rates = s.map(|s| stream.len() as f64 / s / 1e6);
    row(name, rates, [s[0] / s[1], s[0] / s[2]]);
}

/// One row for each size, and how the module's time grew with it.
fn growth(name: &str, sizes: &[usize], doc: impl Fn(usize) -> Doc, lent: &mut Lent, rounds: usize) {
    let mut last = None;
    for &n in sizes {
        let s = timed(&doc(n), lent, rounds).seconds;
        let label = match last {
            None => format!("{n} {name}"),
            Some((m, before)) => {
                let grew: f64 = s[0] / before;
                format!("{n} {name} ({}x: {grew:.1})", n / m)
            }
        };
        row(&label, s.map(|s| s * 1e6), [s[0] / s[1], s[0] / s[2]]);
        last = Some((n, s[0]));
    }
}

/// At 45 degrees north, turned, a metre an inch.
fn sheet() -> Doc {
    Doc::new()
        .var("geo_frame", 1.0)
        .var("geo_lat", 45.0)
        .var("geo_lon", 7.0)
        .var("geo_bearing", 20.0)
        .var("geo_scale", 1.0)
}

fn items(count: usize, item: impl Fn(f64) -> Item) -> Doc {
    sheet().with(|d| d.items.extend((0..count).map(|i| item(i as f64))))
}

/// 200 lines of 10 km: 102 positions each.
fn segments() -> Doc {
    items(200, |i| Item::new(LINE).points(&[[i, 0.0], [9990.0 + i, 1000.0 - i]]))
}

/// A line of 5,000 points in steps below 100 m.
fn short_segments() -> Doc {
    let points: Vec<_> = (0..5000).map(|k| [k as f64 * 30.0 + 0.1, (k % 7) as f64 * 9.3]).collect();
    items(4, |_| Item::new(LINE).points(&points))
}

fn circles() -> Doc {
    items(200, |i| Item::new(CIRCLE).at(i * 3.0, -i).r(500.0 + i))
}

fn ellipses() -> Doc {
    items(200, |i| Item::new(ELLIPSE).at(i * 3.0, -i).size(900.0 + i, 400.0))
}

fn rounded_boxes() -> Doc {
    items(200, |i| Item::new(write::BOX).at(i * 3.0, -i).size(90.0 + i, 80.0).rad(20.0))
}

fn sharp_boxes() -> Doc {
    items(2000, |i| Item::new(write::BOX).at(i * 3.0, -i).size(90.0, 80.0))
}

fn cubics() -> Doc {
    items(200, |i| {
        let curves = (0..8).map(|k| {
            let x = i + 40.0 * f64::from(k);
            [[x + 10.0, 25.0], [x + 30.0, -25.0], [x + 40.0, 3.0]]
        });
        Item::new(SPLINE).part(Part::Cubics(0, false, [i, 3.0], curves.collect()))
    })
}

/// A stream of the largest size, filled with one item.
fn largest(item: &Item) -> Vec<u8> {
    let payload = sheet().records().concat();
    let all = sheet().item(item.clone()).records().concat();
    let one = all[payload.len()..].to_vec();
    filled(payload, &|_| one.clone())
}

fn dots(n: usize) -> Doc {
    items(n, |i| Item::new(DOT).at(i, -i))
}

/// Host features that name nothing, beside one item.
fn features(n: usize) -> Doc {
    (0..n).fold(dots(1), |d, i| d.feature(&format!("F{i:07}"), 7.0, 45.0))
}

fn variables(n: usize) -> Doc {
    (0..n).fold(dots(1), |d, i| d.var(&format!("v{i:07}"), i as f64))
}

/// Pairs of variables that name nothing.
fn pairs(n: usize) -> Doc {
    (0..n).fold(dots(1), |d, i| {
        d.var(&format!("p{i:07}_lon"), 7.0).var(&format!("p{i:07}_lat"), 45.0)
    })
}

fn controls(n: usize) -> Doc {
    let at = |i: usize| [(i % 8) as f64 * 100.0, (i / 8) as f64 * 90.0 + (i % 3) as f64];
    (0..n).fold(dots(1), |d, i| {
        let [x, y] = at(i);
        d.control(&format!("c{i}"), at(i), 7.0 + x * 1e-5, 45.0 + y * 1e-5)
    })
}

/// As many names as labels. A name is that of a host feature or of a pair of variables.
#[derive(Clone, Copy)]
struct Names {
    title: &'static str,
    pairs: bool,
    /// the i-th of n names, and the i-th label
    name: fn(usize, usize) -> String,
    label: fn(usize, usize) -> String,
    /// every other pair lacks its `_lat`
    half: bool,
    refused: bool,
}

fn scattered(i: usize) -> usize {
    i * 2_654_435_761 % (1 << 24)
}

impl Names {
    const fn features(title: &'static str, name: fn(usize, usize) -> String) -> Names {
        Names {
            title,
            pairs: false,
            name,
            label: |i, _| format!("L{i:07}"),
            half: false,
            refused: false,
        }
    }

    const fn pairs(title: &'static str, name: fn(usize, usize) -> String) -> Names {
        Names { pairs: true, ..Names::features(title, name) }
    }

    fn doc(&self, n: usize) -> Doc {
        let mut doc = dots(1);
        for i in 0..n {
            let name = (self.name)(i, n);
            let lon = 7.0 + (i % 64) as f64 * 1e-5;
            if !self.pairs {
                doc = doc.feature(&name, lon, 45.0);
                continue;
            }
            doc = doc.var(&format!("{name}_lon"), lon);
            if !(self.half && i % 2 == 1) {
                doc = doc.var(&format!("{name}_lat"), 45.0);
            }
        }
        (0..n).fold(doc, |d, i| d.place(&(self.label)(i, n), [i as f64, 0.0]))
    }
}

/// What is asked of names and labels: none resolves, in order and in none; all do, so that there are too many; all are
/// one, and both sides of it; every other one is a control point's again, or lacks its `_lat`.
const NAMES: [Names; 9] = [
    Names::features("host features, none resolves", |i, _| format!("F{i:07}")),
    Names {
        label: |i, _| format!("L{:07}", scattered(i)),
        ..Names::features("host features in no order", |i, _| format!("F{:07}", scattered(i)))
    },
    Names {
        label: |i, n| format!("F{:07}", n - i),
        refused: true,
        ..Names::features("host features, all resolve", |i, _| format!("F{i:07}"))
    },
    Names {
        label: |_, _| "F".into(),
        ..Names::features("host features, one name and label", |_, _| "F".into())
    },
    Names {
        label: |i, _| if i < 32 { format!("A{i:02}") } else { format!("L{i:07}") },
        ..Names::features("host features, half of them anchors", |i, _| {
            if i % 2 == 0 { format!("A{:02}", i / 2 % 32) } else { format!("F{i:07}") }
        })
    },
    Names::pairs("pairs, none resolves", |i, _| format!("p{i:07}")),
    Names {
        label: |i, n| format!("p{:07}", n - i),
        refused: true,
        ..Names::pairs("pairs, all resolve", |i, _| format!("p{i:07}"))
    },
    Names { half: true, ..Names::pairs("pairs, half of them whole", |i, _| format!("p{i:07}")) },
    Names {
        label: |i, _| if i < 32 { format!("p{i:07}") } else { format!("L{i:07}") },
        ..Names::pairs("pairs, 32 of them anchors", |i, _| format!("p{i:07}"))
    },
];

/// Names beside as many labels. The Rust takes the product of both: it is timed once above 2,000, and not at 64,000.
fn names(lent: &mut Lent, rounds: usize) {
    for kind in NAMES {
        for n in [500, 2000, 8000, 16000, 64000] {
            let rounds = if n > 2000 { 1 } else { rounds };
            let stream = kind.doc(n).stream();
            let mut all: [Vec<f64>; 3] = Default::default();
            for _ in 0..rounds {
                let (seconds, ours) = module(&stream, lent);
                assert_eq!(ours.is_none(), kind.refused, "{} {n}", kind.title);
                all[0].push(seconds);
                if n < 64000 {
                    all[1].push(standins(&stream).0);
                    all[2].push(library(&stream).0);
                }
            }
            let s = all.map(median);
            row(&format!("{n} {}", kind.title), s.map(|s| s * 1e6), [s[0] / s[1], s[0] / s[2]]);
        }
    }
}

/// The payload of the largest stream.
const LARGEST: usize = 65_536 * write::PAYLOAD;

/// A stream of that size: these records, and labels up to its end.
fn filled(mut payload: Vec<u8>, label: &dyn Fn(usize) -> Vec<u8>) -> Vec<u8> {
    for j in 0.. {
        let record = label(j);
        if payload.len() + record.len() >= LARGEST {
            break;
        }
        payload.extend(record);
    }
    payload.push(0);
    write::blocks(&payload)
}

/// Streams of the largest size, by the module alone.
fn largest_names(lent: &mut Lent) {
    let digits = b"0123456789abcdefghijklmnopqrstuvwxyzABCDEFGHIJKLMNOPQRSTUVWXYZ-_";
    let four =
        |i: usize| -> String { (0..4).rev().map(|k| digits[i >> (6 * k) & 63] as char).collect() };
    let feature = |name: &str| Doc::new().feature(name, 7.0, 45.0).records()[1].clone();
    let place = |name: &str| Doc::new().place(name, [1.0, 2.0]).records()[1].clone();
    let item = |name: &str| Doc::new().item(Item::new(LINE).label(name)).records()[1].clone();
    let geo = sheet().records();
    let fill =
        |name: &dyn Fn(usize) -> String, label: &dyn Fn(usize) -> Vec<u8>, share: f64| -> Vec<u8> {
            let mut payload = geo[0].clone();
            let mut i = 0;
            while (payload.len() as f64) < LARGEST as f64 * share - 400.0 {
                payload.extend(feature(&name(i)));
                i += 1;
            }
            payload.extend(geo[1..].concat());
            filled(payload, label)
        };
    let mut one = |title: &str, stream: Vec<u8>| {
        let (seconds, ours) = module(&stream, lent);
        println!(
            "{title:60}{seconds:8.3}  {}",
            if ours.is_some() { "accepted" } else { "refused" }
        );
    };
    let all = 1 << 24;
    one(
        "names and items in no order",
        fill(&|i| four(scattered(i)), &|j| item(&four(scattered(j + 800_000))), 0.5),
    );
    one(
        "names descending",
        fill(&|i| four(all - 1 - i), &|j| item(&four(scattered(j + 800_000))), 0.5),
    );
    one(
        "names and places in no order",
        fill(&|i| four(scattered(i)), &|j| place(&four(scattered(j + 800_000))), 0.5),
    );
    for k in [3, 8, 12, 16, 20, 24, 27] {
        let name = |i: usize| -> String { "z".repeat(k) + &four(i) };
        one(
            &format!("{k} bytes alike"),
            fill(&|i| name(scattered(i)), &|j| item(&name(scattered(j + 800_000))), 0.5),
        );
    }
    for k in [0, 16, 27] {
        let name = |i: usize| -> String { "z".repeat(k) + &four(i) };
        one(
            &format!("an anchor in every batch, {k} bytes alike, three quarters names"),
            fill(
                &|i| if i % 4000 == 0 { "A".into() } else { name(scattered(i)) },
                &|j| if j == 0 { place("A") } else { item(&name(scattered(j + 1_400_000))) },
                0.75,
            ),
        );
    }
    one(
        "64 anchors in every batch, three quarters names",
        fill(
            &|i| if i % 125 == 0 { format!("A{}", i / 125 % 64) } else { four(scattered(i)) },
            &|j| if j < 64 { place(&format!("A{j}")) } else { item(&four(scattered(j + 1_400_000))) },
            0.75,
        ),
    );
    one(
        "200,000 names again and again, all resolve",
        fill(&|i| four(scattered(i % 200_000)), &|j| place(&four(scattered(j % 200_000))), 0.5),
    );
    one("two names, one label", fill(&|i| ["a", "b"][i % 2].into(), &|_| item("c"), 0.5));
    one("all names", fill(&|i| four(scattered(i)), &|_| vec![0; LARGEST], 1.0));
    one("one label a million times", fill(&|_| "a".into(), &|_| place("a"), 0.00002));
    let pairs = |count: usize| {
        let mut payload = geo[0].clone();
        let mut records = geo[1..].to_vec();
        for i in 0..count {
            let doc = Doc::new()
                .var(&format!("{}_lat", four(i)), 45.0)
                .var(&format!("{}_lon", four(i)), 7.0);
            records.extend(doc.records()[1..].to_vec());
        }
        records.sort_by(|a, b| a[2..2 + a[1] as usize].cmp(&b[2..2 + b[1] as usize]));
        payload.extend(records.concat());
        filled(payload, &|j| item(&four(scattered(j + 800_000))))
    };
    one("pairs and items", pairs(430_000));
}

type Sheet = (&'static str, fn() -> Doc);

/// Sheets of positions, each of one kind.
const BY_POSITION: [Sheet; 7] = [
    ("straight segments, 102 positions each", segments),
    ("short segments, one position each", short_segments),
    ("circles", circles),
    ("ellipses", ellipses),
    ("rounded boxes", rounded_boxes),
    ("sharp boxes", sharp_boxes),
    ("cubics", cubics),
];

/// Sheets that grow, at one size, for a profile.
const OF_ONE_SIZE: [Sheet; 8] = [
    ("items", || dots(4000)),
    ("host features", || features(4000)),
    ("variables", || variables(4000)),
    ("pairs of variables", || pairs(4000)),
    ("control points", || controls(64)),
    ("four control points", || controls(4)),
    ("single control point", || controls(1)),
    ("single item", || dots(1)),
];

/// The module's call alone, ten times, on the sheet whose name begins so.
fn one(name: &str) {
    let lent = &mut Lent::with_work(8192);
    let all = BY_POSITION.iter().chain(&OF_ONE_SIZE);
    for (_, sheet) in all.filter(|(n, _)| n.starts_with(name)) {
        let stream = sheet().stream();
        for _ in 0..10 {
            black_box(module(&stream, lent));
        }
    }
}

/// Every row's stream, with how many points of work it is lent.
#[cfg(before)]
fn rows() -> Vec<(String, Vec<u8>, usize)> {
    let mut rows: Vec<_> =
        BY_POSITION.iter().map(|(name, doc)| (name.to_string(), doc().stream(), 8192)).collect();
    let hidden = largest(&Item::new(LINE).flags(write::HIDDEN));
    rows.push(("32 MiB of items that draw nothing".into(), hidden, 8192));
    rows.push(("32 MiB of dots".into(), largest(&Item::new(DOT).at(3.0, 4.0)), 8192));
    let mut growth = |name: &str, sizes: &[usize], doc: fn(usize) -> Doc| {
        rows.extend(sizes.iter().map(|&n| (format!("{n} {name}"), doc(n).stream(), 2048)));
    };
    growth("items", &[1, 4, 16, 64, 1000, 4000, 16000, 64000], dots);
    growth("host features", &[1000, 4000, 16000, 64000], features);
    growth("variables", &[1000, 4000, 16000, 64000], variables);
    growth("pairs of variables", &[1000, 4000, 16000], pairs);
    growth("control points", &[1, 2, 4, 8, 16, 32, 64], controls);
    for kind in NAMES {
        for n in [500, 8000, 64000] {
            rows.push((format!("{n} {}", kind.title), kind.doc(n).stream(), 2048));
        }
    }
    rows
}

/// This build and the one before it in turns: the least time of each, and their ratio. A short call is made many times
/// in a turn.
#[cfg(before)]
fn beside_before(rounds: usize) {
    println!("{:50}{:>14}{:>14}{:>10}", "microseconds a sheet, the least", "now", "before", "ratio");
    let mut worst: f64 = 0.0;
    for (name, stream, work) in rows() {
        let lent = &mut Lent::with_work(work);
        let (once, _) = module(&stream, lent);
        let times = (300e-6 / once).ceil().clamp(1.0, 1000.0) as usize;
        let mut turn = |call: fn(&[u8], &mut Lent) -> Run| -> f64 {
            (0..times).map(|_| black_box(call(&stream, lent)).0).sum::<f64>() / times as f64
        };
        let (mut now, mut before) = (f64::INFINITY, f64::INFINITY);
        for k in 0..rounds {
            // who goes first alternates
            if k % 2 == 0 {
                now = now.min(turn(module));
                before = before.min(turn(module_before));
            } else {
                before = before.min(turn(module_before));
                now = now.min(turn(module));
            }
        }
        worst = worst.max(now / before);
        println!("{name:50}{:14.2}{:14.2}{:10.3}", now * 1e6, before * 1e6, now / before);
    }
    println!("the largest ratio: {worst:.3}");
}

fn main() {
    let args: Vec<String> = std::env::args().skip(1).collect();
    #[cfg(before)]
    {
        return beside_before(args.first().and_then(|n| n.parse().ok()).unwrap_or(20));
    }
    #[cfg(not(before))]
    main_rows(args);
}

#[cfg_attr(before, allow(dead_code))]
fn main_rows(args: Vec<String>) {
    if let [mode] = &args[..]
        && mode == "names"
    {
        let lent = &mut Lent::with_work(2048);
        names(lent, 5);
        return largest_names(lent);
    }
    if let [mode, name] = &args[..] {
        assert_eq!(mode, "one", "sheets [ROUNDS], sheets names or sheets one NAME");
        return one(name);
    }
    let rounds = args.first().and_then(|n| n.parse().ok()).unwrap_or(11);
    let lent = &mut Lent::with_work(8192);

    title("nanoseconds a position");
    for (name, sheet) in BY_POSITION {
        by_position(name, &sheet(), lent, rounds);
    }

    title("megabytes a second, 32 MiB");
    let few = rounds.min(5);
    megabytes(
        "items of 13 bytes that draw nothing",
        &largest(&Item::new(LINE).flags(write::HIDDEN)),
        lent,
        few,
    );
    megabytes("dots", &largest(&Item::new(DOT).at(3.0, 4.0)), lent, few);

    title("microseconds a sheet");
    let lent = &mut Lent::with_work(2048);
    growth("items", &[1, 4, 16, 64], dots, lent, rounds);
    growth("items", &[1000, 4000, 16000, 64000], dots, lent, few);
    growth("host features", &[1000, 4000, 16000, 64000], features, lent, few);
    growth("variables", &[1000, 4000, 16000, 64000], variables, lent, few);
    growth("pairs of variables", &[1000, 4000, 16000], pairs, lent, few);
    growth("control points", &[1, 2, 4, 8, 16, 32, 64], controls, lent, rounds);

    title("microseconds a sheet, so many names and as many labels");
    names(lent, few);

    println!("\nseconds a stream of 32 MiB, by the module");
    largest_names(lent);
}
