// One case for each seed: many names beside few labels, or few names beside
// many labels. Names are spelled with few letters, so that they repeat, begin
// alike and resolve in one batch and in another.

use crate::case::Case;
use crate::random::Random;
use crate::write::*;

/// Most different names of a batch, where a stream has more than `FEW`.
pub const BATCH: usize = 11_264;
pub const FEW: usize = 64;
/// Most control points.
pub const MOST: usize = 64;

pub fn case(seed: u64) -> Case {
    let mut r = Random::new(seed ^ 0x1f83_d9ab_fb41_bd6b);
    r.next();
    let doc = if r.chance(4) { many_labels(&mut r) } else { many_names(&mut r) };
    sized(format!("names-{seed}"), &doc)
}

/// With room for the whole stream and all of its warnings.
pub fn sized(name: impl Into<String>, doc: &Doc) -> Case {
    Case::doc(name, doc).with(|c| {
        c.limit = 0;
        c.warnings = doc.features.len() + doc.vars.len() + 512;
    })
}

/// How the names of a stream are spelled: the k-th of them, from 1 on, is the
/// stem and k written with these letters.
struct Spelling {
    stem: &'static str,
    letters: &'static [u8],
    pool: usize,
}

impl Spelling {
    fn draw(r: &mut Random) -> Spelling {
        Spelling {
            stem: r.pick(&["", "", "k", "stem_of_7", "seven_b", "a_stem_of_18_bytes"]),
            letters: r.pick(&[&b"ab"[..], b"ab_", b"_lonat", b"!~", b"0123456789abcdef"]),
            pool: r.pick(&[5, 1_000, BATCH + 1, 2 * BATCH, 3 * BATCH, 20 * BATCH, 20 * BATCH]),
        }
    }

    /// The last 27 bytes at most: a variable's name is longer by 4.
    fn name(&self, number: usize) -> String {
        let mut rest = number;
        let mut letters = Vec::new();
        while rest > 0 {
            letters.push(char::from(self.letters[(rest - 1) % self.letters.len()]));
            rest = (rest - 1) / self.letters.len();
        }
        let whole: String = self.stem.chars().chain(letters.into_iter().rev()).collect();
        whole[whole.len().saturating_sub(27)..].to_string()
    }

    fn any(&self, r: &mut Random) -> String {
        self.name(1 + r.below(self.pool))
    }

    /// So many names: drawn, rising or falling.
    fn names(&self, r: &mut Random, count: usize) -> Vec<String> {
        let from = r.below(self.pool);
        let way = r.below(3);
        let number = |r: &mut Random, k: usize| match way {
            0 => r.below(self.pool),
            1 => (from + k) % self.pool,
            _ => self.pool - 1 - (from + k) % self.pool,
        };
        (0..count).map(|k| self.name(1 + number(r, k))).collect()
    }
}

/// A scene whose scale does not hang on the fit alone.
fn base(r: &mut Random) -> Doc {
    let doc = Doc::mercator().item(Item::new(BOX).at(1.0, 1.0).size(0.5, 0.25));
    if r.chance(3) {
        return doc.var("geo_lon", 5.0).var("geo_lat", 6.0);
    }
    doc.with(|d| d.anchor = (!r.chance(8)).then_some([7.0, 8.0]))
}

/// A position near one spot, at times outside the limits.
fn position(r: &mut Random) -> [f64; 2] {
    let lat = if r.chance(500) { 86.0 } else { 45.0 };
    [10.0 + r.between(-0.01, 0.01), lat + r.between(-0.01, 0.01)]
}

/// The names as host features, those from `split` on as pairs of variables.
fn mention(r: &mut Random, mut doc: Doc, names: &[String], split: usize) -> Doc {
    let half = r.pick(&[3, 40, 3_000]);
    for (k, name) in names.iter().enumerate() {
        let [lon, lat] = position(r);
        if k < split {
            doc = doc.feature(name, lon, lat);
            continue;
        }
        doc = doc.var(&format!("{name}_lon"), lon);
        if !r.chance(half) {
            doc = doc.var(&format!("{name}_lat"), lat);
        }
    }
    doc
}

/// A place or an item that is not drawn, its key one of few.
fn label(r: &mut Random, doc: &mut Doc, label: String) {
    let at = [r.between(-5.0, 5.0), r.between(-5.0, 5.0)];
    let nested = r.chance(4);
    let (line, column) = (r.below(3) as u32, r.below(3) as u32);
    if r.chance(2) {
        doc.places.push(Place { label, at, nested: u8::from(nested), line, column });
        return;
    }
    let flags = HIDDEN | if nested { NESTED } else { 0 };
    let item = Item::new(DOT).flags(flags).label(&label).span(line, column);
    doc.items.push(if r.chance(9) { item } else { item.at(at[0], at[1]) });
}

fn many_names(r: &mut Random) -> Doc {
    let mut spelling = Spelling::draw(r);
    let mut count = match r.below(5) {
        0 => r.pick(&[FEW, BATCH, 2 * BATCH]) - 1 + r.below(3),
        1 => r.below(FEW * 4),
        _ => r.below(3 * BATCH),
    };
    let mut pairs = [0, count.min(FEW * 4)][r.below(2)];
    if r.chance(15) {
        // Seldom: the oracle takes a quarter of a second for so many pairs.
        spelling.pool = 20 * BATCH;
        pairs = BATCH + BATCH / 10 + r.below(100);
        count = pairs + r.below(BATCH);
    }
    let split = count - pairs;
    let names = spelling.names(r, count);
    let mut doc = base(r);
    doc = mention(r, doc, &names, split);
    for _ in 0..r.pick(&[0, 1, 2, 3, 5, 9, 30, MOST, 2 * MOST]) {
        // A name of the stream, or one that may not be.
        let name = match names.len() {
            0 => spelling.any(r),
            n if r.chance(4) => names[n - 1 - r.below(n.min(9))].clone(),
            n if r.chance(2) => names[r.below(n)].clone(),
            _ => spelling.any(r),
        };
        label(r, &mut doc, name);
    }
    doc
}

fn many_labels(r: &mut Random) -> Doc {
    let spelling = Spelling::draw(r);
    let count = r.pick(&[1, 2, 5, FEW, FEW + 1]);
    let names = spelling.names(r, count);
    let split = r.below(count + 1);
    let mut doc = base(r);
    doc = mention(r, doc, &names, split);
    for _ in 0..r.pick(&[FEW + 1, 1_000, BATCH + 1, 2 * BATCH]) {
        let name = spelling.any(r);
        label(r, &mut doc, name);
    }
    doc
}
