// Many names and labels. Names are looked up in batches, those of host features
// and those of pairs of variables apart: where a batch ends, what one batch
// knows of another, and names that are alike.
//
// The oracle looks for each pair among all variables, which takes a quarter of a
// second for a batch: there are fewer streams of so many pairs.

use super::earth::spot;
use super::*;
use crate::names::{sized, BATCH, FEW, MOST};
use std::fmt;

#[derive(Clone, Copy, PartialEq)]
enum By {
    Feature,
    Pair,
}

use By::{Feature, Pair};

impl fmt::Display for By {
    fn fmt(&self, f: &mut fmt::Formatter) -> fmt::Result {
        f.write_str(if *self == Feature { "feature" } else { "pair" })
    }
}

pub fn names() -> Vec<Case> {
    let mut set = Set::default();
    for by in [Feature, Pair] {
        borders(&mut set, by);
        full(&mut set, by);
        equal_keys(&mut set, by);
        alike(&mut set, by);
        many_labels(&mut set, by);
        one_label(&mut set, by);
    }
    batches(&mut set);
    repeats(&mut set);
    repeats_of_controls(&mut set);
    orders(&mut set);
    half_pairs(&mut set);
    overridden(&mut set);
    few(&mut set);
    stems(&mut set);
    set.checked()
}

fn put(set: &mut Set, name: impl Into<String>, doc: &Doc) {
    set.cases.push(sized(name, doc));
}

fn base() -> Doc {
    Doc::mercator().with(|d| d.anchor = Some([1.0, 2.0])).item(sharp(1.0, 1.0, 2.0, 2.0))
}

fn name(number: usize) -> String {
    format!("p{number:07}")
}

fn word(hits: &[usize]) -> String {
    if hits.is_empty() {
        return "none".into();
    }
    hits.iter().map(usize::to_string).collect::<Vec<_>>().join("-")
}

fn mention(doc: Doc, by: By, name: &str, [lon, lat]: [f64; 2]) -> Doc {
    match by {
        Feature => doc.feature(name, lon, lat),
        Pair => doc.var(&format!("{name}_lon"), lon).var(&format!("{name}_lat"), lat),
    }
}

/// Names by their numbers, one after another. Those of `hits` resolve: the k-th
/// of them has a place, and its first mention is the k-th control point of a
/// grid. All other mentions are far from there.
fn crowd(by: By, numbers: impl Iterator<Item = usize>, hits: &[usize]) -> Doc {
    let mut doc = base();
    let mut met = BTreeSet::new();
    for i in numbers {
        let first = hits.iter().position(|h| *h == i).filter(|k| met.insert(*k));
        doc = mention(doc, by, &name(i), first.map_or([20.0, 30.0], |k| spot(k).1));
    }
    hits.iter().enumerate().fold(doc, |d, (k, i)| d.place(&name(*i), spot(k).0))
}

/// The first mention of a name moves out of the limits.
fn outside(mut doc: Doc, by: By, number: usize) -> Doc {
    match by {
        Feature => {
            let feature = doc.features.iter_mut().find(|f| f.0 == name(number));
            feature.expect("it is mentioned").2 = 86.0;
            doc
        }
        Pair => doc.var(&format!("{}_lat", name(number)), 86.0),
    }
}

/// One name that resolves, or none, among one less, as many and one more than a
/// batch holds.
fn borders(set: &mut Set, by: By) {
    for n in [BATCH - 1, BATCH, BATCH + 1] {
        if by == Feature {
            put(set, format!("{n}-{by}s-unresolved"), &crowd(by, 0..n, &[]));
        }
        for at in BTreeSet::from([0, BATCH - 1, BATCH, n]).range(..=n) {
            if by == Feature || *at == n.min(BATCH) || n > BATCH && *at == 0 {
                let doc = crowd(by, 0..n + 1, &[*at]);
                put(set, format!("{n}-{by}s-unresolved-and-one-at-{at}"), &doc);
            }
        }
    }
    let doc = crowd(by, 0..BATCH + 1, &[BATCH - 1, BATCH]);
    put(set, format!("{by}s-at-both-sides-of-the-border"), &doc);
}

/// Control points in up to three batches, the places in their order and in the
/// other one.
fn batches(set: &mut Set) {
    let each = [BATCH / 3, BATCH + BATCH / 2, 2 * BATCH];
    for hits in [&each[..], &[each[0], each[2]], &each[2..]] {
        let doc = crowd(Feature, 0..3 * BATCH, hits);
        put(set, format!("features-in-{}-of-three-batches", hits.len()), &doc);
    }
    let doc = crowd(Feature, 0..2 * BATCH + 1, &each).with(|d| d.places.reverse());
    put(set, "features-in-3-of-three-batches-turned", &doc);
    // As many warnings as there are names but one, and that of the anchor.
    let doc = crowd(Feature, 0..BATCH + 1, &[BATCH]);
    for room in [BATCH, BATCH + 1, BATCH + 2] {
        let case = sized(format!("{BATCH}-features-unresolved-and-room-for-{room}"), &doc);
        set.cases.push(case.with(|c| c.warnings = room));
    }
}

/// As many control points as there may be, and more, over two batches.
fn full(set: &mut Set, by: By) {
    let over = |a: usize, b: usize| -> Vec<usize> {
        (0..a).map(|k| k * (BATCH / (MOST + 2))).chain(BATCH..BATCH + b).collect()
    };
    let doc = |hits: &[usize]| crowd(by, 0..BATCH + MOST + 2, hits);
    let half = MOST / 2;
    for (a, b) in [
        (half, half),
        (MOST, 1),
        (0, MOST),
        (1, MOST - 1),
        (MOST - 1, 1),
        (MOST, 0),
        (0, MOST + 1),
        (1, MOST),
        (half, half + 1),
        (MOST + 1, 0),
    ] {
        if by == Feature || (a, b) == (half, half) || (a, b) == (MOST, 1) {
            put(set, format!("{by}s-{a}-and-{b}-controls-in-two-batches"), &doc(&over(a, b)));
        }
    }
    // One of them outside: then it does not matter how many there are. Of a
    // batch with too many the last ones find no slot.
    for (a, b) in [(half, half), (half, half + 1), (half, half + 2), (0, MOST + 2), (MOST + 2, 0)] {
        let hits = over(a, b);
        for out in BTreeSet::from([0, half, MOST, hits.len() - 1]).range(..hits.len()) {
            if by == Feature || *out == MOST && b == MOST + 2 {
                let doc = outside(doc(&hits), by, hits[*out]);
                put(set, format!("{by}s-{a}-and-{b}-controls-outside-{out}"), &doc);
            }
        }
        if by == Feature {
            let doc = outside(doc(&hits), by, BATCH - 1);
            put(set, format!("{by}s-{a}-and-{b}-controls-and-one-unresolved-outside"), &doc);
        }
    }
}

/// Places and items of one span, for names of one batch and of two: the orders
/// of places and of items count apart.
fn equal_keys(set: &mut Set, by: By) {
    let (a, b) = (3, BATCH + 3);
    let doc = |hits: &[usize]| {
        let mut doc = crowd(by, 0..BATCH + 5, hits);
        doc.places.iter_mut().for_each(|p| (p.line, p.column) = (5, 6));
        doc
    };
    let double =
        |i: usize, at: Point| dot(at[0] + 0.25, at[1]).label(&name(i)).span(5, 6).flags(HIDDEN);
    if by == Feature {
        put(set, "two-batches-places-of-one-span", &doc(&[a, b]));
        let mut mixed = doc(&[a, b]);
        let place = mixed.places.pop().expect("there are two");
        mixed.items.insert(0, double(b, place.at));
        put(set, "two-batches-place-and-item-of-one-span", &mixed);
    }
    let other = Place { label: "other".into(), at: [9.0, 9.0], nested: 0, line: 5, column: 6 };
    for hits in [vec![a, b], vec![a], vec![b]] {
        for (places, items) in [(0, 0), (0, 1), (1, 0)] {
            let mut doc = doc(&hits);
            let doubles: Vec<Item> =
                hits.iter().zip(&doc.places).map(|(i, p)| double(*i, p.at)).collect();
            doc.places.splice(0..0, (0..places).map(|_| other.clone()));
            doc.items.splice(0..0, (0..items).map(|_| dot(0.0, 0.0)).chain(doubles));
            let before = format!("{places}-places-and-{items}-items-before");
            if by == Feature || hits.len() == 2 && places + items == 0 {
                put(set, format!("{by}s-{}-of-one-span-{before}", word(&hits)), &doc);
            }
        }
    }
}

const LETTERS: &str = "abcdefghijklmnopqrstuvwxyz01234";

/// These names, of which those have a place whose bit of `chosen` is 1.
fn chosen_of<S: AsRef<str>>(doc: Doc, by: By, names: &[S], chosen: u32) -> Doc {
    names.iter().enumerate().fold(doc, |d, (k, n)| {
        let d = mention(d, by, n.as_ref(), spot(k).1);
        if chosen >> k & 1 == 1 {
            d.place(n.as_ref(), spot(k).0)
        } else {
            d
        }
    })
}

/// Names that begin alike, and names that differ in the last byte only; alone,
/// and among more than `FEW`.
fn alike(set: &mut Set, by: By) {
    let longest = if by == Feature { 31 } else { 27 };
    let lengths: Vec<&str> = [7, 8, 9, longest].iter().map(|n| &LETTERS[..*n]).collect();
    let crowded = |many: bool| if many { crowd(by, 0..FEW + 1, &[]) } else { base() };
    for many in [false, true] {
        let among = if many { "-among-many" } else { "" };
        // Each alone, then every place but one.
        for chosen in (1..16).filter(|c: &u32| matches!(c.count_ones(), 1 | 3 | 4)) {
            let doc = chosen_of(crowded(many), by, &lengths, chosen);
            set.doc(format!("{by}s-that-begin-alike-{chosen}{among}"), &doc);
        }
        for length in [1, 6, 7, 8, 9, 15, 16, longest] {
            let ends = ['!', 'm', '~'].map(|end| format!("{}{end}", &LETTERS[..length - 1]));
            for chosen in [1, 2, 4, 5, 7] {
                let doc = chosen_of(crowded(many), by, &ends, chosen);
                set.doc(format!("{by}s-of-{length}-that-end-apart-{chosen}{among}"), &doc);
            }
        }
    }
}

/// Few names beside more labels than a batch holds names.
fn many_labels(set: &mut Set, by: By) {
    let last = BATCH + 4;
    for names in [vec![0], vec![last], vec![last, BATCH / 2, 0], vec![last + 1]] {
        for more in [0, FEW + 1] {
            let doc = crowd(by, 2 * BATCH..2 * BATCH + more, &[]);
            let doc = names
                .iter()
                .enumerate()
                .fold(doc, |d, (k, i)| mention(d, by, &name(*i), spot(k).1));
            let what = format!("{by}s-{}-and-{more}", word(&names));
            let places = (0..=last).fold(doc.clone(), |d, k| d.place(&name(k), [k as f64, 1.0]));
            put(set, format!("{what}-beside-many-places"), &places);
            let item = |k: usize| dot(k as f64, 1.0).label(&name(k)).flags(HIDDEN);
            let items = (0..=last).fold(doc, |d, k| d.item(item(k)));
            put(set, format!("{what}-beside-many-items"), &items);
        }
    }
}

/// One label more often than there are slots, by rising, falling and equal
/// keys, and the greatest in the middle.
fn one_label(set: &mut Set, by: By) {
    for n in [MOST, MOST + 1, 3 * MOST] {
        let line = |k: usize, way: &str| match way {
            "rising" => k + 1,
            "falling" => n - k,
            "bent" => n - k.abs_diff(n / 2),
            _ => 4,
        };
        for way in ["rising", "falling", "bent", "equal"] {
            for many in [false, true] {
                let among = if many { "-among-many" } else { "" };
                let strangers = if many { FEW + 1 } else { 0 };
                let doc = crowd(by, 0..strangers, &[]);
                let doc = mention(doc, by, "L", spot(0).1);
                let line = |k: usize| line(k, way) as u32;
                let places = (0..n)
                    .fold(doc.clone(), |d, k| d.place_at("L", [k as f64, 0.5], 0, line(k), 1));
                set.doc(format!("{by}-of-{n}-places-{way}{among}"), &places);
                let item = |k: usize| dot(0.5, k as f64).label("L").span(line(k), 1).flags(HIDDEN);
                let items = (0..n).fold(doc, |d, k| d.item(item(k)));
                set.doc(format!("{by}-of-{n}-items-{way}{among}"), &items);
                let both = (0..n).fold(places, |d, k| d.item(item(k)));
                set.doc(format!("{by}-of-{n}-places-and-items-{way}{among}"), &both);
            }
        }
    }
}

/// A host feature's name again, in its batch and in a later one: a batch ends
/// where it has so many different names.
fn repeats(set: &mut Set) {
    let end = BATCH + 5;
    let before = || (0..BATCH - 1).chain([0]).chain(BATCH - 1..end);
    let behind = || (0..BATCH).chain([0]).chain(BATCH..end);
    let last = || (0..BATCH).chain([BATCH - 1]).chain(BATCH..end);
    for hits in [vec![], vec![0], vec![BATCH - 1], vec![BATCH], vec![0, BATCH - 1, BATCH]] {
        let word = word(&hits);
        let mut add = |what: &str, doc: Doc| {
            put(set, format!("repeat-{what}-resolved-{word}"), &doc);
        };
        add("before-the-border", crowd(Feature, before(), &hits));
        add("behind-the-border", crowd(Feature, behind(), &hits));
        add("of-the-last-behind-the-border", crowd(Feature, last(), &hits));
        add("of-all", crowd(Feature, (0..end).chain(0..end), &hits));
    }
    for hits in [vec![], vec![7], vec![7, BATCH / 2 - 1]] {
        let four = (0..4).flat_map(|_| 0..BATCH / 2);
        put(set, format!("four-times-half-a-batch-{}", hits.len()), &crowd(Feature, four, &hits));
        let thrice = [0, 1, 2].into_iter().flat_map(|k| (k * BATCH..(k + 1) * BATCH).chain([7]));
        put(set, format!("repeat-in-three-batches-{}", hits.len()), &crowd(Feature, thrice, &hits));
    }
    for n in [BATCH, BATCH + 1] {
        let one = || std::iter::repeat(0).take(n);
        put(set, format!("one-name-{n}-times"), &crowd(Feature, one(), &[0]));
        put(set, format!("one-name-{n}-times-unresolved"), &crowd(Feature, one(), &[]));
        let then = crowd(Feature, one().chain([1]), &[1, 0]);
        put(set, format!("one-name-{n}-times-and-another"), &then);
    }
    // A mention that is no control point may lie anywhere.
    for (what, hits) in [("resolved", vec![5]), ("unresolved", vec![6])] {
        let doc = crowd(Feature, 0..end, &hits).feature(&name(5), 0.0, 86.0);
        put(set, format!("repeat-outside-in-the-second-batch-{what}"), &doc);
        let doc = crowd(Feature, 0..end, &hits).feature(&name(end - 1), 181.0, 0.0);
        put(set, format!("repeat-outside-in-its-batch-{what}"), &doc);
    }
}

/// Repeats of control points in a batch that has as many as there may be.
fn repeats_of_controls(set: &mut Set) {
    let some: Vec<usize> = (0..MOST).collect();
    let doc = crowd(Feature, (0..BATCH).chain(0..MOST), &some);
    put(set, format!("{MOST}-controls-repeated-in-the-second-batch"), &doc);
    let out =
        (0..MOST).fold(crowd(Feature, 0..BATCH, &some), |d, k| d.feature(&name(k), 181.0, 0.0));
    put(set, format!("{MOST}-controls-repeated-outside"), &out);
    let more: Vec<usize> = (0..MOST).chain([BATCH]).collect();
    for (what, at) in [("behind", MOST), ("before", 0)] {
        let mut numbers: Vec<usize> = (0..MOST).collect();
        numbers.insert(at, BATCH);
        let doc = crowd(Feature, (0..BATCH).chain(numbers), &more);
        put(set, format!("{MOST}-controls-repeated-and-one-{what}"), &doc);
        let doc = outside(doc, Feature, BATCH);
        put(set, format!("{MOST}-controls-repeated-and-one-outside-{what}"), &doc);
    }
    for n in [MOST - 1, MOST] {
        let hits: Vec<usize> = [0].into_iter().chain(BATCH..BATCH + n).collect();
        let doc = crowd(Feature, (0..BATCH).chain([0]).chain(BATCH..BATCH + MOST), &hits);
        put(set, format!("1-control-repeated-and-{n}"), &doc);
        // Its place last: where slots are short, it has none.
        let last = doc.with(|d| d.places.rotate_left(1));
        put(set, format!("1-control-repeated-place-last-and-{n}"), &last);
        let last = outside(last, Feature, BATCH + n - 1);
        put(set, format!("1-control-repeated-and-{n}-outside"), &last);
    }
}

/// Names that do not come in their order.
fn orders(set: &mut Set) {
    let n = BATCH + 5;
    for hits in [vec![0], vec![4, 5], vec![n - 1, n / 2, 0]] {
        let word = word(&hits);
        put(set, format!("features-falling-{word}"), &crowd(Feature, (0..n).rev(), &hits));
        let apart = (0..n).step_by(2).chain((1..n).step_by(2));
        put(set, format!("features-even-then-odd-{word}"), &crowd(Feature, apart, &hits));
    }
}

fn half(doc: &mut Doc, number: usize) {
    doc.vars.remove(&format!("{}_lat", name(number)));
}

/// A `_lon` without its `_lat` is no entry of a batch.
fn half_pairs(set: &mut Set) {
    let end = BATCH + 5;
    let hits = [BATCH - 1, BATCH, BATCH + 1];
    let doc = crowd(Pair, 0..end, &hits);
    put(set, "half-a-pair-at-the-border", &doc.clone().with(|d| half(d, BATCH - 1)));
    let behind = doc.with(|d| (BATCH..end).for_each(|k| half(d, k)));
    put(set, "half-pairs-behind-a-batch", &behind);
    let some = crowd(Pair, 0..end + 100, &[0, 1, 200, BATCH + 99, BATCH + 100, BATCH + 101]);
    let some = some.with(|d| (0..200).step_by(2).for_each(|k| half(d, k)));
    put(set, "half-pairs-every-second-of-200", &some);
    // As many control points as there may be, and a half that has a place.
    let hits: Vec<usize> = (0..=MOST).collect();
    for at in [0, MOST] {
        let doc = crowd(Pair, 0..=MOST, &hits).with(|d| half(d, at));
        set.doc(format!("{MOST}-pairs-and-half-a-pair-at-{at}"), &doc);
    }
    // The latitude comes a batch before its longitude.
    let far = (0..BATCH).fold(base(), |d, k| mention(d, Pair, &format!("q_lk{k:07}"), [1.0, 1.0]));
    let far = mention(far, Pair, "q", spot(0).1).place("q", spot(0).0);
    let far = mention(far, Pair, "r", spot(1).1).place("r", spot(1).0);
    put(set, "a-latitude-a-batch-before", &mention(far, Pair, "s", [1.0, 1.0]));
    let none = crowd(Pair, 0..FEW + 5, &[0, FEW]).with(|d| (0..FEW + 5).for_each(|k| half(d, k)));
    put(set, "half-pairs-only", &none);
}

/// Pairs of names that host features have, of the same and of other batches.
fn overridden(set: &mut Set) {
    let end = BATCH + 5;
    let (a, b) = (3, BATCH + 3);
    let pairs = |doc: Doc, numbers: &[usize]| {
        numbers.iter().fold(doc, |d, i| mention(d, Pair, &name(*i), [20.0, 86.0]))
    };
    let rising: Vec<usize> = (0..end).collect();
    let falling: Vec<usize> = (0..end).rev().collect();
    for (what, features) in [("rising", &rising), ("falling", &falling)] {
        for hits in [vec![a], vec![b], vec![a, b]] {
            let doc = pairs(crowd(Feature, features.iter().copied(), &hits), &[a, b]);
            let what = format!("{}-of-{what}-features", word(&hits));
            put(set, format!("overridden-{what}"), &doc);
            let doc = mention(doc, Pair, &name(end), spot(9).1).place(&name(end), spot(9).0);
            put(set, format!("overridden-{what}-and-one-more"), &doc);
            let doc = doc.with(|d| half(d, hits[0]));
            put(set, format!("overridden-{what}-by-half"), &doc);
        }
    }
    // All of them again, the last features first.
    let doc = pairs(crowd(Feature, falling.into_iter(), &[a, b]), &rising);
    let doc = mention(doc, Pair, &name(end), spot(9).1).place(&name(end), spot(9).0);
    put(set, "overridden-by-two-batches", &doc);
    // As many as there may be, and one more by a pair.
    let hits: Vec<usize> = (0..MOST / 2).chain(BATCH..BATCH + MOST / 2).collect();
    let over = pairs(crowd(Feature, 0..BATCH + MOST, &hits), &hits);
    put(set, format!("overridden-{MOST}"), &over);
    let more = mention(over, Pair, "q", [20.0, 30.0]).place("q", [1.0, 9.0]);
    put(set, format!("overridden-{MOST}-and-one-more"), &more);
    let more = more.var("q_lat", 86.0);
    put(set, format!("overridden-{MOST}-and-one-more-outside"), &more);
}

/// Names up to those that a small table holds, and one more.
fn few(set: &mut Set) {
    for n in [FEW - 1, FEW, FEW + 1] {
        for hits in [vec![], vec![0], vec![n - 1], vec![n / 2, 0, n - 1]] {
            let word = word(&hits);
            let mut add = |what: &str, doc: Doc| {
                set.doc(format!("{n}-names-{what}-resolved-{word}"), &doc);
            };
            add("features", crowd(Feature, 0..n, &hits));
            add("features-falling", crowd(Feature, (0..n).rev(), &hits));
            let again = (0..n - 1).chain([0]);
            add("features-the-first-again", crowd(Feature, again, &hits));
            let twice = (0..n / 2).chain(0..n - n / 2);
            add("features-twice", crowd(Feature, twice, &hits));
            let pairs = crowd(Pair, 0..n, &hits);
            add("pairs", pairs.clone());
            add("pairs-and-the-anchor", pairs.clone().var("geo_lon", 4.0).var("geo_lat", 5.0));
            add("pairs-the-last-half", pairs.clone().with(|d| half(d, n - 1)));
            let halves = pairs.with(|d| (0..n).step_by(3).for_each(|k| half(d, k)));
            add("pairs-and-halves", halves);
            let mixed = (n / 2..n).fold(crowd(Feature, 0..n / 2, &hits), |d, i| {
                mention(d, Pair, &name(i), [10.0, 45.0 + i as f64 * 1e-4])
            });
            add("mixed", mixed);
            let over = (0..n - n / 2).fold(crowd(Feature, 0..n / 2, &hits), |d, i| {
                mention(d, Pair, &name(i), [10.0, 45.0 + i as f64 * 1e-4])
            });
            add("mixed-overridden", over);
        }
    }
}

/// Names of host features and of variables that are one another's stems.
fn stems(set: &mut Set) {
    for many in [false, true] {
        let among = if many { "-among-many" } else { "" };
        let start = || if many { crowd(Feature, 0..FEW + 1, &[]) } else { base() };
        let labels = ["A", "A_lon", "A_lat", "A_lon_lon", "geo", "geo_lon"];
        for (k, label) in labels.iter().enumerate() {
            let features = labels.iter().enumerate().fold(start(), |d, (k, n)| {
                mention(d, Feature, n, spot(k).1).var("geo_lon", 3.0).var("geo_lat", 4.0)
            });
            let pairs = labels[..4].iter().enumerate().fold(start(), |d, (k, n)| {
                mention(d, Pair, n, spot(k).1).var("geo_lon", 3.0).var("geo_lat", 4.0)
            });
            let both = Doc { features: features.features.clone(), ..pairs.clone() };
            let one = mention(pairs.clone(), Feature, label, spot(k).1);
            for (what, doc) in
                [("features", features), ("pairs", pairs), ("both", both), ("one-feature", one)]
            {
                let alone = doc.clone().place(label, spot(k).0);
                set.doc(format!("stems-{what}-place-{label}{among}"), &alone);
                let from = labels[k..].iter().enumerate();
                let more = from.fold(doc, |d, (j, n)| d.place(n, spot(j).0));
                set.doc(format!("stems-{what}-places-from-{label}{among}"), &more);
            }
        }
    }
}
