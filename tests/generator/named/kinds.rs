// The kind table: every kind at every entry, what an item at 2 keeps and what it
// does not need, tables that are refused.

use super::shapes::whole;
use super::*;
use crate::case::BUILT_IN;
use crate::random::{Random, table};

const NAMES: [&str; 11] =
    ["box", "circle", "ellipse", "arc", "line", "arrow", "spline", "text", "dot", "brace", "block"];

const FLAGS: [(&str, u8); 8] = [
    ("plain", 0),
    ("hidden", HIDDEN),
    ("nested", NESTED),
    ("closed", CLOSED),
    ("fill", FILL),
    ("screen", SCREEN),
    ("hidden-screen", HIDDEN | SCREEN),
    ("all-flags", HIDDEN | NESTED | CLOSED | FILL | SCREEN),
];

fn under(set: &mut Set, name: String, doc: &Doc, kinds: Vec<u8>) {
    set.sized(name, doc, |c| c.kinds = kinds);
}

/// The table with another entry for one kind.
fn with(mut kinds: Vec<u8>, kind: u8, entry: u8) -> Vec<u8> {
    kinds[usize::from(kind)] = entry;
    kinds
}

/// The entry for every kind but block.
fn all(entry: u8) -> Vec<u8> {
    with(vec![entry; 11], BLOCK_KIND, 2)
}

/// The entry for one kind, and another for all others, which are drawn.
fn alone(kind: u8, entry: u8) -> Vec<u8> {
    with(all(u8::from(entry == 0)), kind, entry)
}

/// The built-in table but for one kind.
fn but(kind: u8, entry: u8) -> Vec<u8> {
    with(BUILT_IN.to_vec(), kind, entry)
}

/// Few positions a shape.
fn coarse() -> Doc {
    Doc::anchored().with(|d| (d.scale, d.flatten) = (Some(50.0), Some(0.05)))
}

/// An item of another kind, whose feature line tells its index.
fn other(kind: u8) -> Item {
    Item::new(if kind == DOT { TEXT } else { DOT }).at(5.0, 1.0)
}

/// Every kind but block, at every entry.
fn entries() -> impl Iterator<Item = (u8, u8, String)> {
    let named = |kind: u8, entry| format!("kinds-{}-at-{entry}", NAMES[usize::from(kind)]);
    let each = move |kind| (0..3).map(move |entry| (kind, entry, named(kind, entry)));
    (BOX..=BRACE).flat_map(each)
}

/// An item of each kind, behind the others.
fn every_kind(doc: Doc) -> Doc {
    (BOX..=BLOCK_KIND).fold(doc, |d, kind| d.item(whole(kind, 3.0 * kind as f64)))
}

pub fn every_entry(set: &mut Set) {
    for (kind, entry, name) in entries() {
        for (flag, flags) in FLAGS {
            let doc = coarse().item(whole(kind, 0.0).flags(flags)).item(other(kind));
            under(set, format!("{name}-{flag}"), &doc, alone(kind, entry));
        }
    }
}

pub fn blocks_under_any(set: &mut Set) {
    for n in 0..3 {
        let kinds = table(&mut Random::new(n));
        for (flag, flags) in FLAGS {
            let doc = every_kind(coarse().item(whole(BLOCK_KIND, 0.0).flags(flags)));
            under(set, format!("kinds-block-{flag}-under-{n}"), &doc, kinds.clone());
        }
    }
}

/// Geometry is missing in two items, and the first is of the kind.
pub fn missing(set: &mut Set) {
    for (kind, entry, name) in entries() {
        for (flag, flags) in [("plain", 0), ("hidden", HIDDEN), ("screen", SCREEN)] {
            let bare = |kind| Item::new(kind).flags(flags);
            let second = bare(other(kind).kind);
            let doc = coarse().item(bare(kind)).item(second).item(other(kind));
            under(set, format!("{name}-missing-{flag}"), &doc, alone(kind, entry));
        }
    }
}

/// Several paths, their outlines and those of lines: every part and role of an
/// item has one placement.
pub fn paths_and_fills(set: &mut Set) {
    let parts = [
        polyline(0, true, &SQUARE),
        curve(0, false, [0.0, 0.0], &[ARCH]),
        polyline(0, false, &TRIANGLE),
        curve(1, true, [0.0, 0.0], &[ARCH]),
        polyline(1, false, &SQUARE),
    ];
    for (kind, entry, name) in entries() {
        let item = match kind {
            ARC | SPLINE | BRACE => parts.iter().cloned().fold(Item::new(kind), Item::part),
            LINE | ARROW => Item::new(kind).points(&TRIANGLE).fill_points(&SQUARE),
            _ => continue,
        };
        for (flag, flags) in [("plain", 0), ("fill", FILL), ("fill-screen", FILL | SCREEN)] {
            let doc = coarse().item(item.clone().flags(flags)).item(other(kind));
            under(set, format!("{name}-outlined-{flag}"), &doc, alone(kind, entry));
        }
    }
}

pub fn scenes(set: &mut Set) {
    let doc = every_kind(coarse());
    under(set, "kinds-scene-built-in".into(), &doc, BUILT_IN.to_vec());
    for entry in 0..3 {
        under(set, format!("kinds-scene-all-at-{entry}"), &doc, all(entry));
    }
    for (kind, entry, name) in entries() {
        if entry < 2 {
            under(set, format!("{name}-alone-in-a-scene"), &doc, with(all(2), kind, entry));
        }
        if entry != BUILT_IN[usize::from(kind)] {
            under(set, format!("{name}-in-a-scene"), &doc, but(kind, entry));
        }
    }
}

/// An eater and two items behind it: where the kind is not drawn, the entry tier
/// has enough for the rest.
pub fn allowance(set: &mut Set) {
    let arrow = Item::new(ARROW).points(&[[0.0, 0.0], [30.0, 0.0]]);
    let circle = Item::new(CIRCLE).at(0.0, 0.0).r(1.0);
    let large = Item::new(CIRCLE).at(0.0, 0.0).r(700.0);
    let ellipse = Item::new(ELLIPSE).at(0.0, 0.0).size(2.0, 1.0);
    let rounded = sharp(0.0, 0.0, 2.0, 2.0).rad(0.5);
    let spline = Item::new(SPLINE).part(curve(0, false, [0.0, 0.0], &[WILD]));
    let brace = Item::new(BRACE).part(curve(0, true, [0.0, 0.0], &[WILD]));
    for (what, kind, inches, items) in [
        ("eater-before-arrows", LINE, 20_010.0, [&arrow, &arrow]),
        ("circle-before-ellipse", CIRCLE, 19_850.0, [&circle, &ellipse]),
        ("large-circle-before-ellipse", CIRCLE, 19_850.0, [&large, &ellipse]),
        ("circle-before-rounded-box", CIRCLE, 19_880.0, [&circle, &rounded]),
        ("box-before-circle", BOX, 19_850.0, [&rounded, &circle]),
        ("spline-before-brace", SPLINE, 19_700.0, [&spline, &brace]),
        ("brace-before-spline", BRACE, 19_700.0, [&brace, &spline]),
        ("arrow-before-circle", ARROW, 19_850.0, [&arrow, &circle]),
    ] {
        let doc = Doc::anchored().item(eater(inches));
        let doc = items.into_iter().cloned().fold(doc, Doc::item);
        for (entry, tier) in [(0, 0), (1, 0), (2, 0), (0, 1), (2, 1)] {
            set.sized(format!("kinds-{what}-at-{entry}-tier-{tier}"), &doc, |c| {
                (c.kinds, c.tier) = (alone(kind, entry), tier);
            });
        }
    }
}

/// Room for the item behind alone: one position and one feature line.
pub fn room(set: &mut Set) {
    for (kind, entry, name) in entries() {
        let doc = coarse().item(whole(kind, 0.0)).item(other(kind));
        let missing = coarse().item(Item::new(kind)).item(other(kind));
        let only = coarse().item(whole(kind, 0.0)).item(Item::new(kind));
        for (what, doc, change) in [
            ("no-work", &doc, (|c| c.work = 0) as fn(&mut Case)),
            ("1-position", &doc, |c| c.positions = 1),
            ("1-feature", &doc, |c| c.features = 1),
            ("no-warning", &missing, |c| c.warnings = 0),
            ("room-for-a-point", &doc, |c| {
                (c.work, c.positions, c.features, c.warnings) = (0, 1, 1, 0);
            }),
            ("no-room", &only, |c| {
                (c.work, c.positions, c.features, c.warnings) = (0, 0, 0, 0);
            }),
        ] {
            set.sized(format!("{name}-{what}"), doc, |c| {
                c.kinds = alone(kind, entry);
                change(c);
            });
        }
    }
}

/// Control points by the labels of items, which name their points whether they
/// are drawn or not.
pub fn labels(set: &mut Set) {
    for item in [
        sharp(2.0, 1.0, 1.0, 0.5),
        Item::new(TEXT).at(2.0, 1.0),
        line(&[[1.0, 2.0], [4.0, 8.0], [0.5, 0.25]]),
        Item::new(SPLINE).part(curve(0, false, [3.0, 0.5], &[ARCH])),
    ] {
        for (how, entry, flags) in [
            ("at-0", 0, 0),
            ("at-1", 1, 0),
            ("at-2", 2, 0),
            ("at-2-screen", 2, SCREEN),
            ("at-0-hidden", 0, HIDDEN),
            ("at-2-hidden", 2, HIDDEN),
        ] {
            let kind = NAMES[usize::from(item.kind)];
            for (what, doc) in labelled(&item.clone().flags(flags)) {
                let name = format!("kinds-label-{what}-{kind}-{how}");
                under(set, name, &doc, alone(item.kind, entry));
            }
        }
    }
}

/// Scenes in which the item, labelled, is a control point or could be one.
fn labelled(item: &Item) -> Vec<(&'static str, Doc)> {
    let mark = || Item::new(CIRCLE).at(4.0, 3.0).r(0.5);
    let item = || item.clone().label("L");
    let circle = |line| mark().label("L").span(line, 1);
    let base = || Doc::mercator().feature("L", 7.0, 46.0).with(|d| d.flatten = Some(0.05));
    let place = || base().place("L", [9.0, 9.0]);
    let one = base().item(item()).item(mark());
    let variables = Doc { features: vec![], ..one.clone() };
    let two = |other: Item| base().feature("M", 7.001, 46.0005).item(item()).item(other.label("M"));
    let nested = Item { flags: item().flags | NESTED, ..item().span(9, 9) };
    let bare = Item { at: None, parts: vec![], ..item() };
    vec![
        ("one", one),
        ("by-variables", variables.var("L_lon", 7.0).var("L_lat", 46.0)),
        ("two", two(mark())),
        ("two-of-the-kind", two(item().at(6.0, 5.0)).item(mark())),
        ("place-of-equal-key", place().item(item()).item(mark())),
        ("place-of-smaller-key", place().item(mark()).item(item())),
        ("place-of-greater-key", place().place("L", [8.0, 7.0]).item(item()).item(mark())),
        ("item-of-smaller-key", base().item(circle(2)).item(item().span(2, 1))),
        ("item-of-greater-key", base().item(item().span(2, 1)).item(circle(2))),
        ("nested", base().item(circle(0)).item(nested)),
        ("no-point", base().place("L", [9.0, 9.0]).item(mark()).item(bare)),
    ]
}

/// The record of an item at 2 is read as any other.
pub fn bad_records(set: &mut Set) {
    for kind in [BOX, CIRCLE, LINE, SPLINE, TEXT, DOT, BRACE] {
        let name = format!("kinds-{}-at-2", NAMES[usize::from(kind)]);
        for (value, v) in [
            ("nan", f64::NAN),
            ("infinity", f64::INFINITY),
            ("above-million", above(1e6)),
            ("million", 1e6),
        ] {
            let mut put = |field: &str, item: Item| {
                let doc = Doc::anchored().item(item).item(other(kind));
                under(set, format!("{name}-{field}-{value}"), &doc, but(kind, 2));
            };
            put("at", Item::new(kind).at(0.0, v));
            put("rad", Item::new(kind).rad(v));
            put("point", Item::new(kind).points(&[[0.0, 0.0], [v, 0.0]]));
            put("fill-path", Item::new(kind).part(polyline(1, false, &[[0.0, v]])));
        }
        let record = |flags, label: &str, presence| {
            Bytes::new(6).byte(kind).byte(flags).name(label).number(0).number(0).byte(presence).0
        };
        let points = |role| Bytes::new(7).byte(role).pairs(&SQUARE).0;
        let path = |form| Bytes::new(8).byte(0).byte(0).byte(form).pairs(&SQUARE).0;
        for (what, records) in [
            ("flag-32", vec![record(32, "", 0)]),
            ("presence-32", vec![record(0, "", 32)]),
            ("label-with-32", vec![record(0, "a b", 0)]),
            ("points-twice", vec![record(0, "", 0), points(0), points(0)]),
            ("points-role-2", vec![record(0, "", 0), points(2)]),
            ("path-form-2", vec![record(0, "", 0), path(2)]),
        ] {
            let mut all = Doc::anchored().records();
            all.extend(records);
            all.push(vec![0]);
            let case = Case::place(format!("{name}-{what}"), blocks(&all.concat()));
            set.cases.push(case.with(|c| c.kinds = but(kind, 2)));
        }
    }
}

/// The built-in table over and over.
fn of_length(n: usize) -> Vec<u8> {
    BUILT_IN.iter().copied().cycle().take(n).collect()
}

/// Tables that are refused, over a stream that is not.
pub fn refused(set: &mut Set) {
    let good = Doc::anchored().item(sharp(0.0, 0.0, 2.0, 2.0)).item(dot(1.0, 1.0));
    let mut put = |what: &str, kinds| under(set, format!("kinds-refused-{what}"), &good, kinds);
    for n in [0, 1, 10, 12, 22, 255, 256, 256 + 11] {
        put(&format!("length-{n}"), of_length(n));
    }
    for (kind, name) in (BOX..=BRACE).zip(NAMES) {
        for entry in [3, 4, 128, 255] {
            put(&format!("{name}-at-{entry}"), but(kind, entry));
        }
    }
    for entry in [0, 1, 3, 255] {
        put(&format!("block-at-{entry}"), but(BLOCK_KIND, entry));
    }
    let [before @ .., brace, block] = BUILT_IN;
    put("block-before-brace", [&before[..], &[block, brace]].concat());
}

/// Tables that are refused, one of each sort, over streams that are refused by
/// other numbers.
pub fn refused_first(set: &mut Set) {
    let stream = Doc::anchored().item(sharp(0.0, 0.0, 2.0, 2.0)).stream();
    let mut streams: Vec<(String, Case)> =
        tiers::refusals().into_iter().map(|(n, case)| (n.to_string(), case)).collect();
    for (what, bytes) in [
        ("part-of-a-block", stream[..300].to_vec()),
        ("a-block-and-a-byte", [&stream[..], &[0]].concat()),
        ("0", vec![0; 65 * BLOCK]),
    ] {
        streams.push((what.to_string(), Case::place("", bytes)));
    }
    for (sort, kinds) in [
        ("none", vec![]),
        ("short", of_length(10)),
        ("long", of_length(12)),
        ("first-entry", but(BOX, 3)),
        ("last-entry", but(BRACE, 255)),
        ("block", but(BLOCK_KIND, 0)),
    ] {
        for (what, case) in &streams {
            set.cases.push(case.clone().with(|c| {
                (c.name, c.kinds) = (format!("kinds-refused-{sort}-and-{what}"), kinds.clone());
            }));
        }
    }
}
