// Bytes: blocks, checks, layout, names, floats.

use super::*;

pub fn sheet(set: &mut Set) {
    set.doc("reference-sheet", &Doc::anchored().item(sharp(0.0, 0.0, 2.0, 2.0)));
    set.doc("no-items", &Doc::anchored());
    set.doc("one-dot", &Doc::anchored().item(dot(1.0, 2.0)));
}

pub fn blocks_and_checks(set: &mut Set) {
    let good = Doc::anchored().item(sharp(0.0, 0.0, 2.0, 2.0)).stream();
    for length in [0, 1, 511, 513, 1023] {
        let mut bytes = good.clone();
        bytes.resize(length, 0);
        set.raw(format!("length-{length}"), bytes);
    }
    for count in [2, 63, 64, 65] {
        let mut bytes = good.clone();
        bytes.resize(count * BLOCK, 0);
        mend(&mut bytes);
        set.raw(format!("trailing-zero-blocks-{count}"), bytes);
    }
    for length in [32_767, 32_769] {
        let mut bytes = good.clone();
        bytes.resize(64 * BLOCK, 0);
        mend(&mut bytes);
        bytes.resize(length, 0);
        set.raw(format!("input-of-{length}-bytes"), bytes);
    }
    let three = Doc::anchored().item(line(&[[0.5, 0.25]; 80])).stream();
    for (name, at) in [("first", 508), ("second", 1020), ("last", 1532)] {
        let mut bytes = three.clone();
        bytes[at] ^= 1;
        set.raw(format!("check-wrong-in-{name}-block"), bytes);
    }
    let mut bytes = three.clone();
    let check = u32::from_le_bytes(bytes[1020..1024].try_into().expect("four bytes"));
    bytes[1020..1024].copy_from_slice(&check.wrapping_sub(1).to_le_bytes());
    set.raw("check-without-index", bytes);
    let mut bytes = three.clone();
    for k in 0..BLOCK {
        bytes.swap(BLOCK + k, 2 * BLOCK + k);
    }
    set.raw("blocks-swapped", bytes);
    let mut bytes = three.clone();
    bytes[100..104].reverse();
    bytes[508..512].reverse();
    set.raw("words-by-the-other-end", bytes);
    let mut bytes = three;
    bytes[1300] ^= 0x80;
    set.raw("payload-bit-flipped", bytes);
    // A sum above 2^32 wraps.
    set.doc("check-wraps", &Doc::anchored().item(line(&[[-1.5, -2.5]; 25])));
}

pub fn layout(set: &mut Set) {
    let one = |b: Bytes| vec![Doc::new().records().remove(0), b.0, vec![0]];
    let doc = Doc::anchored().feature("A", 0.0, 0.0).place("A", [0.0, 0.0]).item(dot(0.0, 0.0));
    let base = doc.with(|d| d.scale = Some(100.0)).records();
    let closed = |mut records: Vec<Vec<u8>>| {
        records.push(vec![0]);
        records
    };
    set.records("all-tags", closed(base.clone()));
    set.raw("only-zeros", blocks(&[0]));
    for left in 0..4 {
        let mut payload = Doc::anchored().item(dot(0.0, 0.0)).records().concat();
        fill(&mut payload, PAYLOAD - left, false);
        set.raw(format!("no-end-{left}-bytes-before-the-border"), blocks(&payload));
        payload.push(0);
        set.raw(format!("end-{left}-bytes-before-the-border"), blocks(&payload));
    }
    let mut twice = base.clone();
    twice.insert(1, base[0].clone());
    set.records("rescale-twice", closed(twice));
    set.records("rescale-missing", closed(base[1..].to_vec()));
    let mut late = base.clone();
    late.swap(0, 1);
    set.records("rescale-not-first", closed(late));
    for k in 1..base.len() - 1 {
        let mut swapped = base.clone();
        swapped.swap(k, k + 1);
        set.records(format!("tags-out-of-order-{k}"), closed(swapped));
    }
    for tag in [9, 10, 128, 255] {
        set.records(format!("tag-{tag}"), one(Bytes::new(tag)));
    }
    let option = |o: u8| Bytes::new(2).byte(o).float(1.0);
    set.records("option-0", one(option(0)));
    set.records("option-7", one(option(7)));
    set.records("option-8", one(option(8)));
    set.records("option-255", one(option(255)));
    set.records("option-repeated", one(Bytes([option(3).0, option(3).0].concat())));
    set.records("option-falls", one(Bytes([option(4).0, option(3).0].concat())));
    set.records("option-7-repeated", one(Bytes([option(7).0, option(7).0].concat())));
    set.records("option-7-before-6", one(Bytes([option(7).0, option(6).0].concat())));
    set.records("frame-byte-2", one(Bytes::new(2).byte(1).byte(2)));
    let item = |kind, flags, presence| {
        Bytes::new(6).byte(kind).byte(flags).name("").number(0).number(0).byte(presence)
    };
    set.records("kind-11", one(item(11, 0, 0)));
    for flags in [32, 64, 128] {
        set.records(format!("flag-{flags}"), one(item(0, flags, 0)));
        set.records(format!("presence-{flags}"), one(item(0, 0, flags)));
    }
    let nested = Bytes::new(5).name("A").pair([0.0, 0.0]).byte(2).number(0).number(0);
    set.records("nested-byte-2", one(nested));
    let after = |parts: &[Vec<u8>]| one(Bytes([item(4, 0, 0).0, parts.concat()].concat()));
    let points = |role| Bytes::new(7).byte(role).pairs(&SQUARE).0;
    set.records("points-role-2", after(&[points(2)]));
    set.records("points-twice", after(&[points(0), points(0)]));
    set.records("fill-points-twice", after(&[points(1), points(0), points(1)]));
    set.records("path-role-2", after(&[Bytes::new(8).byte(2).byte(0).byte(1).pairs(&SQUARE).0]));
    set.records("path-closed-2", after(&[Bytes::new(8).byte(0).byte(2).byte(1).pairs(&SQUARE).0]));
    set.records("path-form-2", after(&[Bytes::new(8).byte(0).byte(0).byte(2).pairs(&SQUARE).0]));
    set.records("place-after-points", after(&[points(0), Bytes::new(5).0]));
    set.records("variable-after-item", after(&[Bytes::new(4).name("A").float(1.0).0]));
    set.records("points-without-item", one(Bytes(points(0))));
    set.records("path-without-item", one(Bytes(polyline(0, false, &SQUARE).record())));
    let place = Bytes::new(5).name("A").pair([0.0, 0.0]).byte(0).number(0).number(0).0;
    set.records("points-after-place", one(Bytes([place, points(0)].concat())));
    let both = line(&SQUARE).part(curve(1, true, [0.0, 0.0], &[ARCH])).fill_points(&TRIANGLE);
    let both = both.part(polyline(0, false, &SQUARE)).part(polyline(1, true, &TRIANGLE));
    set.doc("points-and-paths-in-any-order", &Doc::anchored().item(both.clone()).item(both));
    cut_off(set);
    let good = Doc::anchored().item(dot(0.0, 0.0)).payload();
    for (name, at) in [("after-the-end", good.len()), ("at-the-last-byte", PAYLOAD - 1)] {
        let mut payload = good.clone();
        payload.resize(PAYLOAD, 0);
        payload[at] = 1;
        set.raw(format!("tail-not-zero-{name}"), blocks(&payload));
    }
    let mut payload = good.clone();
    payload.resize(PAYLOAD * 3, 0);
    payload[PAYLOAD * 2 + 7] = 4;
    set.raw("tail-not-zero-in-a-later-block", blocks(&payload));
    set.raw("records-after-the-end", blocks(&[good.clone(), good].concat()));
}

/// Records that draw nothing, up to a length.
fn fill(payload: &mut Vec<u8>, length: usize, by_places: bool) {
    let (least, most) = if by_places { (28, 58) } else { (13, 44) };
    while payload.len() < length {
        let gap = length - payload.len();
        let size = if gap <= most { gap } else { most.min(gap - least) };
        let record = if by_places {
            let name = "y".repeat(size - least + 1);
            Bytes::new(5).name(&name).pair([0.0, 0.0]).byte(0).number(0).number(0)
        } else {
            let name = "y".repeat(size - least);
            Bytes::new(6).byte(BLOCK_KIND).byte(0).name(&name).number(0).number(0).byte(0)
        };
        payload.extend(record.0);
    }
}

/// A record that the stream ends in, after each of its bytes.
fn cut_off(set: &mut Set) {
    let records = |item: Item| Doc::new().item(item).records().split_off(1).concat();
    let place = Bytes::new(5).name("cut").pair([0.0, 0.0]).byte(0).number(7).number(9).0;
    let tails = [
        ("place", place),
        ("item", records(sharp(0.0, 0.0, 1.0, 1.0).label("cut").r(1.0).rad(0.5))),
        ("points", records(line(&TRIANGLE))),
        ("cubics", records(Item::new(SPLINE).part(curve(0, false, [0.0, 0.0], &[ARCH])))),
        ("polyline", records(path(Item::new(SPLINE), true, &TRIANGLE))),
    ];
    for (name, tail) in tails {
        for keep in 1..=tail.len() {
            let mut payload = Doc::anchored().records().concat();
            fill(&mut payload, PAYLOAD - keep, name == "place");
            payload.extend(&tail[..keep]);
            set.raw(format!("cut-off-{name}-{keep}"), blocks(&payload));
        }
    }
    let count = Bytes::new(7).byte(0).count(65_535).pair([1.0, 1.0]).0;
    set.records(
        "count-beyond-the-stream",
        vec![Doc::anchored().item(Item::new(LINE)).records().concat(), count],
    );
    let count = Bytes::new(8).byte(0).byte(0).byte(0).pair([0.0, 0.0]).count(65_535).0;
    set.records(
        "cubics-beyond-the-stream",
        vec![Doc::anchored().item(Item::new(ARC)).records().concat(), count],
    );
}

pub fn names(set: &mut Set) {
    let first = Doc::anchored().records();
    let with = |record: Vec<u8>, at: usize| {
        let mut records = first.clone();
        records.insert(at, record);
        records.push(vec![0]);
        records
    };
    let feature = |name: &str| Bytes::new(3).name(name).float(0.0).float(0.0).0;
    let place =
        |name: &str| Bytes::new(5).name(name).pair([0.0, 0.0]).byte(0).number(0).number(0).0;
    let item = |name: &str| {
        Bytes::new(6).byte(8).byte(0).name(name).number(0).number(0).byte(1).pair([0.0, 0.0]).0
    };
    let long = "n".repeat(31);
    let longer = "n".repeat(32);
    for (case, name) in [
        ("of-1", "!"),
        ("of-31", long.as_str()),
        ("of-32", longer.as_str()),
        ("of-0", ""),
        ("with-33-and-126", "!~"),
        ("with-32", "a b"),
        ("with-127", "a\u{7f}"),
        ("with-10", "a\n"),
        ("with-0", "a\0b"),
        ("with-200", "\u{c8}"),
    ] {
        set.records(format!("feature-name-{case}"), with(feature(name), 1));
        set.records(format!("place-name-{case}"), with(place(name), first.len()));
        set.records(format!("item-label-{case}"), with(item(name), first.len()));
        set.records(
            format!("variable-name-{case}"),
            with(Bytes::new(4).name(name).float(1.0).0, if name < "geo" { 1 } else { first.len() }),
        );
    }
    let variables = |names: &[&str]| {
        let mut records = vec![first[0].clone()];
        records.extend(names.iter().map(|n| Bytes::new(4).name(n).float(1.0).0));
        records.push(vec![0]);
        records
    };
    let anchor = ["geo_frame", "geo_lat", "geo_lon"];
    set.records(
        "variables-rise-by-prefix",
        variables(&[&["a", "ab", "abc"], &anchor[..]].concat()),
    );
    set.records("variables-fall-by-prefix", variables(&[&["ab", "a"], &anchor[..]].concat()));
    set.records("variables-equal", variables(&[&["a", "a"], &anchor[..]].concat()));
    set.records("variables-upper-before-lower", variables(&[&["B", "a"], &anchor[..]].concat()));
    set.records("variables-lower-before-upper", variables(&[&["a", "B"], &anchor[..]].concat()));
    set.records("variables-fall", variables(&["geo_lat", "geo_frame", "geo_lon"]));
}

/// A scene with every float field, and a way to set each.
type Setter = fn(&mut Doc, f64);

fn fields() -> Vec<(&'static str, bool, Setter)> {
    vec![
        ("rescale", false, |d, v| d.rescale = v),
        ("anchor-longitude", false, |d, v| d.anchor = Some([v, 1.0])),
        ("anchor-latitude", false, |d, v| d.anchor = Some([1.0, v])),
        ("scale", false, |d, v| d.scale = Some(v)),
        ("bearing", false, |d, v| d.bearing = Some(v)),
        ("flatten", false, |d, v| d.flatten = Some(v)),
        ("view-scale", false, |d, v| d.view_scale = Some(v)),
        ("step", false, |d, v| d.step = Some(v)),
        ("feature-longitude", false, |d, v| d.features.push(("none".into(), v, 0.0))),
        ("feature-latitude", false, |d, v| d.features.push(("none".into(), 0.0, v))),
        ("variable", false, |d, v| _ = d.vars.insert("other".into(), v)),
        ("place-x", true, |d, v| *d = d.clone().place("P", [v, 0.0])),
        ("place-y", true, |d, v| *d = d.clone().place("P", [0.0, v])),
        ("at-x", true, |d, v| d.items.push(dot(v, 0.0))),
        ("at-y", true, |d, v| d.items.push(dot(0.0, v))),
        ("w", true, |d, v| d.items.push(dot(0.0, 0.0).size(v, 1.0))),
        ("h", true, |d, v| d.items.push(dot(0.0, 0.0).size(1.0, v))),
        ("r", true, |d, v| d.items.push(dot(0.0, 0.0).r(v))),
        ("rad", true, |d, v| d.items.push(dot(0.0, 0.0).rad(v))),
        ("point-x", true, |d, v| d.items.push(dot(0.0, 0.0).points(&[[v, 0.0]]))),
        ("point-y", true, |d, v| d.items.push(dot(0.0, 0.0).points(&[[0.0, 0.0], [0.0, v]]))),
        ("fill-point", true, |d, v| d.items.push(dot(0.0, 0.0).fill_points(&[[v, 0.0]]))),
        ("path-start", true, |d, v| {
            d.items.push(dot(0.0, 0.0).part(curve(0, false, [0.0, v], &[])))
        }),
        ("cubic-1", true, |d, v| {
            d.items.push(dot(0.0, 0.0).part(curve(
                0,
                false,
                [0.0, 0.0],
                &[[[v, 0.0], [0.0, 0.0], [0.0, 0.0]]],
            )))
        }),
        ("cubic-2", true, |d, v| {
            d.items.push(dot(0.0, 0.0).part(curve(
                1,
                false,
                [0.0, 0.0],
                &[[[0.0, 0.0], [0.0, v], [0.0, 0.0]]],
            )))
        }),
        ("cubic-3", true, |d, v| {
            d.items.push(dot(0.0, 0.0).part(curve(
                0,
                true,
                [0.0, 0.0],
                &[ARCH, [[0.0, 0.0], [0.0, 0.0], [v, 0.0]]],
            )))
        }),
        ("path-point", true, |d, v| {
            d.items.push(dot(0.0, 0.0).part(polyline(1, false, &[[0.0, v]])))
        }),
        ("hidden-w", true, |d, v| d.items.push(dot(0.0, 0.0).size(v, 1.0).flags(HIDDEN))),
    ]
}

pub fn floats(set: &mut Set) {
    let base = Doc::anchored().with(|d| d.scale = Some(0.001));
    for (field, canvas, put) in fields() {
        let values = [
            ("nan", f64::NAN),
            ("negative-nan", -f64::NAN),
            ("infinity", f64::INFINITY),
            ("minus-infinity", f64::NEG_INFINITY),
            ("largest", f64::MAX),
            ("million", 1e6),
            ("minus-million", -1e6),
            ("above-million", above(1e6)),
            ("below-minus-million", -above(1e6)),
            ("minus-zero", -0.0),
            ("smallest", f64::from_bits(1)),
        ];
        for (name, value) in values {
            // Away from the limits these say little of a field that has none.
            if canvas || !value.is_finite() || value.abs() < 1.0 || value == f64::MAX {
                set.doc(format!("field-{field}-{name}"), &base.clone().with(|d| put(d, value)));
            }
        }
    }
    let square = line(&SQUARE).flags(CLOSED);
    let curved = Item::new(SPLINE).part(curve(0, false, [0.0, 0.0], &[ARCH]));
    for (name, flatten) in [
        ("zero", 0.0),
        ("minus-zero", -0.0),
        ("negative", -1.0),
        ("just-below-zero", -f64::from_bits(1)),
        ("smallest", f64::from_bits(1)),
        ("1e-9", 1e-9),
        ("huge", 1e300),
    ] {
        let doc = Doc::anchored().item(square.clone()).item(dot(0.0, 0.0).r(1.0));
        set.doc(format!("flatten-{name}"), &doc.with(|d| d.flatten = Some(flatten)));
    }
    for flatten in [0.01, 0.001, 0.5, 2.0] {
        let doc = Doc::anchored().item(curved.clone()).item(Item::new(CIRCLE).at(0.0, 0.0).r(1.0));
        set.doc(format!("flatten-{flatten}"), &doc.with(|d| d.flatten = Some(flatten)));
    }
    for (name, rescale) in [
        ("zero", 0.0),
        ("minus-zero", -0.0),
        ("negative", -2.0),
        ("half", 0.5),
        ("three", 3.0),
        ("1e6", 1e6),
        ("smallest", f64::from_bits(1)),
    ] {
        let doc = Doc::anchored().item(square.clone());
        set.doc(format!("rescale-{name}"), &doc.with(|d| d.rescale = rescale));
    }
}
