// oracle place [OPTIONS] < stream
// oracle batch [OPTIONS] < cases
// oracle project < points
// oracle densify < shapes
//
// `place` answers one stream under the sizes of document 01's program. `batch`
// answers cases one after another; each is a line
//     case NAME LIMIT WORK POSITIONS FEATURES WARNINGS KINDS TIER ALLOWANCE LENGTH
// (LIMIT bytes of stream at most, 0 for any; then whole points, positions,
// feature lines, warnings; the kind table, two hexadecimal digits a byte, `-`
// for no bytes; the tier; `-` for the tier's allowance, or the number to start
// from in its place), followed by LENGTH bytes; each answer stands after a line
// `> NAME`. `project` takes eight f64 for each point, little-endian (anchor's
// longitude and latitude, origin, scale, bearing, the canvas point), and answers
// two: the longitude and latitude that `to_lonlat` gives. `densify` answers for
// one path, ring or line at a time, as produce.rs says.
//
// Options: --work N, --positions N, --features N, --warnings N, --kinds HEX,
// --tier N, --allowance N and --limit N are for `place`; the kind table is the
// built-in one and the tier 1 otherwise. --scene prints the parsed scene before
// the answer where 20, 1 to 6 and 19 do not refuse, --registration the
// registration (G) where 7 to 14 do not; after each P, --bits prints the
// position's bits (Q); after B, --draws prints every draw (D: want, floor,
// grant, left). --tally ends an answer with what occurred in it (T).

use geopic_core::front::{self, Answer, BUILT_IN, Item, Producer, Sizes};
use geopic_core::stream::Parsed;
use geopic_core::{Frame, KINDS, LonLat, Method, Registration};
use std::collections::BTreeMap;
use std::fmt::Write as _;
use std::io::{self, Read, Write as _};
use std::process::exit;
use std::str::FromStr;

mod dump;
mod produce;

#[derive(Default)]
struct Shown {
    scene: bool,
    registration: bool,
    bits: bool,
    draws: bool,
    tally: bool,
}

fn main() {
    let mut args = std::env::args().skip(1);
    let mode = args.next().unwrap_or_default();
    let (limit, sizes, shown) = options(args);
    let mut input = Vec::new();
    io::stdin()
        .read_to_end(&mut input)
        .expect("the input can be read");
    let mut out = String::new();
    match mode.as_str() {
        "place" => {
            answer(&input, limit, &sizes, &shown, &mut out);
            print(&out);
        }
        "batch" => batch(&input, &shown),
        "project" => write(&project(&input)),
        "densify" => write(&produce::all(&input)),
        _ => usage(),
    }
}

fn options(mut args: impl Iterator<Item = String>) -> (usize, Sizes, Shown) {
    let mut shown = Shown::default();
    let mut limit = 32_768;
    let mut sizes = Sizes {
        work: 2_048,
        positions: 2_048,
        features: 512,
        warnings: 512,
        kinds: BUILT_IN.to_vec(),
        tier: 1,
        allowance: None,
    };
    while let Some(arg) = args.next() {
        let mut value = || args.next().unwrap_or_else(|| usage());
        match arg.as_str() {
            "--scene" => shown.scene = true,
            "--registration" => shown.registration = true,
            "--bits" => shown.bits = true,
            "--draws" => shown.draws = true,
            "--tally" => shown.tally = true,
            "--work" => sizes.work = number(&value()),
            "--positions" => sizes.positions = number(&value()),
            "--features" => sizes.features = number(&value()),
            "--warnings" => sizes.warnings = number(&value()),
            "--kinds" => sizes.kinds = table(&value()),
            "--tier" => sizes.tier = number(&value()),
            "--allowance" => sizes.allowance = Some(number(&value())),
            "--limit" => limit = number(&value()),
            _ => usage(),
        }
    }
    (limit, sizes, shown)
}

fn usage() -> ! {
    eprintln!("oracle place|batch|project|densify [OPTIONS] < INPUT");
    exit(2);
}

fn number<T: FromStr>(text: &str) -> T {
    text.parse().unwrap_or_else(|_| usage())
}

/// The bytes of a kind table, as a case has them.
fn table(text: &str) -> Vec<u8> {
    if text == "-" {
        return Vec::new();
    }
    let byte = |pair: &[u8]| {
        let digits = std::str::from_utf8(pair).unwrap_or_else(|_| usage());
        u8::from_str_radix(digits, 16).unwrap_or_else(|_| usage())
    };
    text.as_bytes().chunks(2).map(byte).collect()
}

fn print(text: &str) {
    write(text.as_bytes());
}

fn write(bytes: &[u8]) {
    io::stdout()
        .write_all(bytes)
        .expect("the answer can be written");
}

fn batch(mut input: &[u8], shown: &Shown) {
    while let Some(end) = input.iter().position(|b| *b == b'\n') {
        let line = String::from_utf8_lossy(&input[..end]).into_owned();
        let fields: Vec<&str> = line.split(' ').collect();
        let ["case", name, limit, ref sizes @ .., length] = fields[..] else {
            usage()
        };
        let (bytes, rest) = input[end + 1..].split_at(number(length));
        let mut out = format!("> {name}\n");
        answer(bytes, number(limit), &sizes_of(sizes), shown, &mut out);
        print(&out);
        input = rest;
    }
}

fn sizes_of(fields: &[&str]) -> Sizes {
    let [work, positions, features, warnings, kinds, tier, allowance] = *fields else {
        usage()
    };
    Sizes {
        work: number(work),
        positions: number(positions),
        features: number(features),
        warnings: number(warnings),
        kinds: table(kinds),
        tier: number(tier),
        allowance: (allowance != "-").then(|| number(allowance)),
    }
}

fn project(input: &[u8]) -> Vec<u8> {
    let mut out = Vec::new();
    for point in input.chunks_exact(64) {
        let mut numbers = [0.0; 8];
        for (number, bytes) in numbers.iter_mut().zip(point.chunks_exact(8)) {
            *number = f64::from_le_bytes(bytes.try_into().expect("eight bytes"));
        }
        let [lon, lat, x, y, scale, bearing, px, py] = numbers;
        let p = registration([lon, lat, x, y, scale, bearing]).to_lonlat([px, py]);
        out.extend(p.lon.to_le_bytes());
        out.extend(p.lat.to_le_bytes());
    }
    out
}

fn registration([lon, lat, x, y, scale, bearing]: [f64; 6]) -> Registration {
    Registration {
        frame: Frame::Mercator,
        anchor: LonLat { lon, lat },
        origin: [x, y],
        scale_m_per_in: scale,
        bearing_deg: bearing,
        method: Method::Anchor,
        control_points: 0,
        rms_m: None,
    }
}

fn answer(bytes: &[u8], limit: usize, sizes: &Sizes, shown: &Shown, out: &mut String) {
    if limit != 0 && bytes.len() > limit {
        return refused(0, out);
    }
    let parsed = match front::parse(bytes, &sizes.kinds) {
        Ok(parsed) => parsed,
        Err(number) => return refused(number, out),
    };
    if shown.scene {
        dump::scene(&parsed, out);
    }
    match front::answer(&parsed, sizes) {
        Err(number) => refused(number, out),
        Ok(answer) => {
            if shown.registration {
                dump::registration(&answer.registration, out);
            }
            match answer.short_of {
                0 => accepted(&answer, shown, out),
                number => refused(number, out),
            }
            if shown.tally {
                tally(&parsed, &answer, &sizes.kinds, out);
            }
        }
    }
}

fn refused(number: u32, out: &mut String) {
    line(out, format_args!("E {number}"));
}

fn line(out: &mut String, text: std::fmt::Arguments) {
    writeln!(out, "{text}").expect("a string takes every line");
}

fn accepted(answer: &Answer, shown: &Shown, out: &mut String) {
    let controls = answer.registration.control_points;
    line(out, format_args!("R {} {controls}", answer.method()));
    for f in answer.features() {
        let count = f.positions.len();
        line(
            out,
            format_args!(
                "F {} {} {} {} {} {count}",
                f.item, f.geometry, f.role, f.placement, f.part
            ),
        );
        for p in &f.positions {
            line(out, format_args!("P {} {}", whole(p[0]), whole(p[1])));
            if shown.bits {
                line(
                    out,
                    format_args!("Q {} {}", dump::bits(p[0]), dump::bits(p[1])),
                );
            }
        }
    }
    for (kind, index) in answer.warnings() {
        line(out, format_args!("W {kind} {index}"));
    }
    let spent = u32::from(answer.record.spent);
    line(out, format_args!("B {} {spent}", answer.record.left));
    if shown.draws {
        for d in answer.draws() {
            line(
                out,
                format_args!("D {} {} {} {}", d.want, d.floor, d.grant, d.left),
            );
        }
    }
}

/// The nearest whole number of 10⁻⁹ degree; a position is already a quotient
/// of one.
fn whole(degrees: f64) -> i64 {
    (degrees * 1e9).round() as i64
}

/// What occurred in a stream that reached the drawing.
fn tally(parsed: &Parsed, answer: &Answer, kinds: &[u8], out: &mut String) {
    let mut seen: BTreeMap<String, usize> = BTreeMap::new();
    let mut count = |key: String, n: usize| *seen.entry(key).or_default() += n;
    for item in &parsed.scene.items {
        count(format!("kind-{}", item.kind), 1);
        count("flag-hidden".into(), usize::from(item.hidden.is_some()));
        count("flag-nested".into(), usize::from(item.block.is_some()));
        count("flag-closed".into(), usize::from(item.closed.is_some()));
        count("flag-fill".into(), usize::from(item.fill.is_some()));
        count("flag-screen".into(), usize::from(item.class.is_some()));
        for key in by_table(parsed, item, kinds) {
            count(key, 1);
        }
    }
    count("step-below-100".into(), usize::from(parsed.step < 100.0));
    count("step-above-100".into(), usize::from(parsed.step > 100.0));
    for d in answer.draws() {
        let name = match d.producer {
            Producer::Segment => "segment",
            Producer::Piece => "piece",
            Producer::Ellipse => "ellipse",
            Producer::RoundedBox => "rounded-box",
            Producer::SharpBox => "sharp-box",
        };
        count(format!("draw-{name}"), 1);
        count(format!("short-{name}"), usize::from(d.grant < d.want));
        count("granted".into(), d.grant);
    }
    count("short-split".into(), answer.record.unsplit);
    count("unwritten".into(), answer.record.unwritten);
    count("unused-outline".into(), answer.record.unused_outlines);
    for (key, n) in seen {
        if n > 0 {
            line(out, format_args!("T {key} {n}"));
        }
    }
}

/// An item's kind with its entry in the kind table; where the entry is 2 and not
/// a block's, what the item has all the same.
fn by_table(parsed: &Parsed, item: &Item, kinds: &[u8]) -> Vec<String> {
    let (_, entry) = KINDS
        .iter()
        .zip(kinds)
        .find(|(kind, _)| **kind == item.kind)
        .expect("the table has every kind");
    let mut keys = vec![format!("{} at {entry}", item.kind)];
    if *entry == 2 && item.kind != "block" {
        let has = [
            ("hidden", item.hidden.is_some()),
            ("screen class", item.class.is_some()),
            ("labelled", item.label.is_some()),
            ("control point", is_control(parsed, item)),
        ];
        let seen = has.into_iter().filter(|(_, holds)| *holds);
        keys.extend(seen.map(|(what, _)| format!("at 2, {what}")));
    }
    keys
}

/// Whether the name of a host feature stands for the item's point.
fn is_control(parsed: &Parsed, item: &Item) -> bool {
    let point = item.reference_point();
    let named = |name: &String| item.label.as_ref() == Some(name);
    let taken = |name: &String| point.is_some() && parsed.scene.point_of_label(name) == point;
    let mut names = parsed.options.features.iter().map(|f| &f.name);
    names.any(|name| named(name) && taken(name))
}
