// Paths, rings and lines by the static library beside the source's: every bit of
// every point, the allowance after, the draws, and what is not written.
//
// compare ask COUNT SEED: so many cases for `oracle densify`.
// compare answers CASES ANSWERS: the same by the library.

use std::collections::BTreeMap;
use std::io::Write as _;
use std::process::exit;

mod cases;
mod host;
#[path = "../splitmix.rs"]
mod splitmix;

use cases::{BOX, Case, ELLIPSE, LINE, Laid, seeded};
use host::Drawing;
use splitmix::Random;

/// What has to occur.
const KINDS: [&str; 31] = [
    "path: polyline",
    "path: closed polyline",
    "path: curve",
    "path: closed curve",
    "ellipse",
    "box: sharp",
    "box: rounded",
    "line",
    "no point",
    "no cubic",
    "a segment of no length",
    "a segment at its cap",
    "a segment of infinite length",
    "a ring at its cap",
    "a number across a block's border",
    "a path to the payload's end",
    "a path beyond the payload",
    "half a point behind a line",
    "closed by a point",
    "closed already",
    "closed by the other zero",
    "nothing left, nothing short",
    "short: a segment",
    "short: an ellipse",
    "short: a rounded box",
    "cut piece",
    "floor: a piece",
    "floor: a segment",
    "floor: an ellipse",
    "floor: a rounded box",
    "floor: a sharp box",
];
const SHOWN: usize = 10;
/// Floats on both sides of a lent slice.
const MARGIN: usize = 4;

/// What the oracle says of a case.
struct Answer<'a> {
    left: usize,
    hit: bool,
    points: &'a [u64],
    draws: &'a [[u64; 4]],
}

#[derive(Default)]
struct Tally {
    seen: BTreeMap<&'static str, usize>,
    cases: usize,
    points: usize,
    draws: usize,
    short: usize,
    different: usize,
}

impl Tally {
    fn see(&mut self, kind: &'static str, here: bool) {
        assert!(KINDS.contains(&kind));
        *self.seen.entry(kind).or_default() += usize::from(here);
    }

    fn compare(&mut self, number: usize, case: &Case, answer: &Answer) {
        let mut random = seeded(number as u64);
        let result = self
            .points(case, answer, &mut random)
            .and_then(|()| self.draws(case, answer, &mut random));
        self.cases += 1;
        if let Err(how) = result {
            self.different += 1;
            if self.different <= SHOWN {
                let (kind, left) = (case.kind, case.left);
                println!("case {number}, kind {kind}, {left} left: {how}");
                println!("    {:?}", case.numbers);
            }
        }
    }

    /// Under slices of several lengths: exact, longer, and too short.
    fn points(&mut self, case: &Case, answer: &Answer, r: &mut Random) -> Result<(), String> {
        self.points += answer.points.len() / 2;
        self.see_case(case, answer);
        let laid = (case.kind < ELLIPSE).then(|| cases::lay(case, r));
        let exact = answer.points.len();
        let mut rooms = vec![exact, exact + 1 + r.below(7)];
        if exact > 0 {
            rooms.extend([exact - 1, r.below(exact)]);
        }
        for room in rooms {
            let half = case.kind == LINE && r.chance(4);
            self.see("half a point behind a line", half);
            let ask = |work: &mut [f64]| call(case, laid.as_ref(), half, work);
            let (d, written, kept) = lent(room, ask);
            let wrong = |what: &str| Err(format!("{what} with room for {room} of {exact} floats"));
            if !kept {
                return wrong("a float outside the slice changed");
            }
            if d.ok != (exact <= room) {
                return wrong(if d.ok { "ok" } else { "not ok" });
            }
            if !d.ok {
                continue;
            }
            if (d.at, d.left, d.hit) != (exact, answer.left, answer.hit) {
                let ours = format!("at {}, left {}, hit {}", d.at, d.left, d.hit);
                let theirs = format!("{exact}, {}, {}", answer.left, answer.hit);
                return wrong(&format!("{ours} instead of {theirs}"));
            }
            if let Some(i) = (0..exact).find(|i| !same(case, written[*i], answer.points[*i])) {
                let [ours, theirs] = [written[i], answer.points[i]].map(f64::from_bits);
                return wrong(&format!("float {i}: {ours:?} instead of {theirs:?}"));
            }
            if (exact..room).any(|i| written[i] != pattern(MARGIN + i)) {
                return wrong("a float behind the points changed");
            }
        }
        match laid {
            Some(laid) => self.place(case, &laid, r),
            None => Ok(()),
        }
    }

    /// Where a path lies; one that lies beyond the payload writes nothing.
    fn place(&mut self, case: &Case, laid: &Laid, r: &mut Random) -> Result<(), String> {
        let p = laid.path;
        let mut floats: Vec<usize> = (p.at..laid.end).step_by(8).collect();
        if p.curve {
            floats.extend([p.start, p.start + 8]);
        }
        let across = floats.iter().any(|f| f / 508 != (f + 7) / 508);
        self.see("a number across a block's border", across);
        self.see("a path to the payload's end", laid.end == laid.room);
        let body = laid.end - p.at;
        let mut outside = p;
        match r.below(8) {
            0 => outside.at = laid.room - body + 1,
            1 => outside.at = laid.room + 1,
            2 => outside.at = usize::MAX - r.below(64),
            3 if p.curve => outside.start = laid.room - 15,
            4 if p.curve => outside.start = usize::MAX - r.below(32),
            5 => (outside.count, outside.at) = (u16::MAX, laid.room),
            _ => return Ok(()),
        }
        self.see("a path beyond the payload", true);
        let room = r.below(64);
        let ask =
            |work: &mut [f64]| host::path(&laid.stream, outside, case.numbers[0], case.left, work);
        let (d, written, kept) = lent(room, ask);
        let untouched = (0..room).all(|i| written[i] == pattern(MARGIN + i));
        if d.ok || !kept || !untouched {
            return Err("a path beyond the payload is written".into());
        }
        Ok(())
    }

    /// Our draws, made from what the library says of wants and grants.
    fn draws(&mut self, case: &Case, answer: &Answer, r: &mut Random) -> Result<(), String> {
        let curve = case.kind / 2 == 1;
        let pieces = if curve { cases::pieces(case, r) } else { 0 };
        let wants = cases::wants(case, pieces);
        if wants.len() != answer.draws.len() {
            let (ours, theirs) = (wants.len(), answer.draws.len());
            return Err(format!("{ours} draws instead of {theirs}"));
        }
        let (mut left, mut hit) = (case.left, false);
        for (i, ((want, floor), theirs)) in wants.into_iter().zip(answer.draws).enumerate() {
            let g = host::draw(left, hit, want, floor);
            self.see_draw(case, left, want, g.granted);
            (left, hit) = (g.left, g.hit);
            let ours = [want, floor, g.granted, g.left].map(|n| n as u64);
            if ours != *theirs {
                return Err(format!("draw {i}: {ours:?} instead of {theirs:?}"));
            }
            self.draws += 1;
        }
        // a curve is short where a piece is cut, and never by a draw
        let cut = curve && answer.hit;
        self.see("cut piece", cut);
        let exact = left == 0 && case.left > 0 && !answer.hit;
        self.see("nothing left, nothing short", exact);
        if (left, hit || cut) != (answer.left, answer.hit) {
            return Err(format!("after all draws: left {left}, hit {hit}"));
        }
        Ok(())
    }

    fn see_case(&mut self, case: &Case, answer: &Answer) {
        let kind = match case.kind {
            ELLIPSE => "ellipse",
            BOX if cases::corner_radius(case) <= 0.0 => "box: sharp",
            BOX => "box: rounded",
            LINE => "line",
            kind => KINDS[kind as usize],
        };
        self.see(kind, true);
        let points = answer.points.as_chunks::<2>().0;
        self.see("no point", points.is_empty());
        let ring = [1, 3, ELLIPSE, BOX].contains(&case.kind);
        let other_zero = ring && points.first() != points.last();
        self.see("closed by the other zero", other_zero);
        if case.kind == ELLIPSE || case.kind == BOX {
            return;
        }
        let own = cases::pairs(case);
        let closed = own.first() == own.last() && own.len() > 1;
        self.see("closed by a point", ring && !closed && own.len() > 1);
        self.see("closed already", ring && closed && !other_zero);
        self.see("no cubic", case.kind / 2 == 1 && own.len() == 1);
        let line = case.kind == LINE;
        let still = line && own.windows(2).any(|w| w[0] == w[1]);
        self.see("a segment of no length", still);
        self.see(
            "a segment of infinite length",
            beyond(case) && own.len() > 1,
        );
    }

    fn see_draw(&mut self, case: &Case, left: usize, want: usize, granted: usize) {
        let (short, floor) = match case.kind {
            2 | 3 => (None, "floor: a piece"),
            ELLIPSE => (Some("short: an ellipse"), "floor: an ellipse"),
            BOX if want == 4 => (None, "floor: a sharp box"),
            BOX => (Some("short: a rounded box"), "floor: a rounded box"),
            _ => (Some("short: a segment"), "floor: a segment"),
        };
        self.see(floor, left < granted);
        self.short += usize::from(granted < want);
        if let Some(kind) = short {
            self.see(kind, granted < want);
        }
        self.see("a segment at its cap", granted == 100_000);
        let around = case.kind == ELLIPSE || case.kind == BOX;
        self.see("a ring at its cap", around && granted == 4096);
    }

    fn report(&self) -> bool {
        for kind in KINDS {
            println!("{:8}  {kind}", self.seen.get(kind).unwrap_or(&0));
        }
        println!(
            "{} cases, {} points, {} draws, {} short, {} differ",
            self.cases, self.points, self.draws, self.short, self.different
        );
        let met = KINDS.iter().all(|k| self.seen.get(k) > Some(&0));
        if !met {
            println!("a kind of case did not occur");
        }
        met && self.different == 0
    }
}

/// A line whose scale is beyond a registration's has positions that are no
/// number, for the sake of its draws.
fn beyond(case: &Case) -> bool {
    case.kind == LINE && case.numbers[5] > 1e9
}

fn same(case: &Case, ours: u64, theirs: u64) -> bool {
    let nan = |bits: u64| f64::from_bits(bits).is_nan();
    ours == theirs || beyond(case) && nan(ours) && nan(theirs)
}

/// What stands in a slice before it is lent: numbers beyond every coordinate.
fn pattern(i: usize) -> u64 {
    5e6f64.to_bits() | i as u64
}

/// Calls with a slice of so many floats: the answer, the slice after, and whether
/// what stands around it is as it was.
fn lent(room: usize, ask: impl Fn(&mut [f64]) -> Drawing) -> (Drawing, Vec<u64>, bool) {
    let all = room + 2 * MARGIN;
    let mut work: Vec<f64> = (0..all).map(|i| f64::from_bits(pattern(i))).collect();
    let d = ask(&mut work[MARGIN..MARGIN + room]);
    let after: Vec<u64> = work.iter().map(|v| v.to_bits()).collect();
    let kept = (0..MARGIN)
        .chain(MARGIN + room..all)
        .all(|i| after[i] == pattern(i));
    (d, after[MARGIN..MARGIN + room].to_vec(), kept)
}

fn call(case: &Case, laid: Option<&Laid>, half: bool, work: &mut [f64]) -> Drawing {
    let n = &case.numbers;
    match (case.kind, laid) {
        (ELLIPSE, _) => host::ellipse(first(n), case.left, work),
        (BOX, _) => host::box_ring(first(n), case.left, work),
        (LINE, _) => {
            let mut points = n[7..].to_vec();
            points.extend(half.then_some(1.0));
            host::line(first(n), &points, case.left, work)
        }
        (_, Some(laid)) => host::path(&laid.stream, laid.path, n[0], case.left, work),
        _ => panic!("a path lies in a stream"),
    }
}

fn first<const N: usize>(numbers: &[f64]) -> [f64; N] {
    *numbers.first_chunk().expect("a case has its numbers")
}

fn ask(count: usize, seed: u64) -> Vec<u8> {
    let mut random = seeded(seed);
    let mut out: Vec<u64> = Vec::new();
    for _ in 0..count {
        let case = cases::case(&mut random);
        out.extend([case.kind, case.left as u64, case.numbers.len() as u64]);
        out.extend(case.numbers.iter().map(|v| v.to_bits()));
    }
    out.iter().flat_map(|w| w.to_le_bytes()).collect()
}

fn answers(asked: &[u64], answered: &[u64]) -> bool {
    let mut tally = Tally::default();
    let (mut asked, mut answered) = (asked, answered);
    while let ([kind, left, count, behind @ ..], [points, draws, after, hit, rest @ ..]) =
        (asked, answered)
    {
        let (numbers, next) = behind.split_at(*count as usize);
        let (points, rest) = rest.split_at(2 * *points as usize);
        let (draws, rest) = rest.split_at(4 * *draws as usize);
        (asked, answered) = (next, rest);
        let case = Case {
            kind: *kind,
            left: *left as usize,
            numbers: numbers.iter().map(|n| f64::from_bits(*n)).collect(),
        };
        let answer = Answer {
            left: *after as usize,
            hit: *hit == 1,
            points,
            draws: draws.as_chunks().0,
        };
        tally.compare(tally.cases, &case, &answer);
    }
    assert!(
        asked.is_empty() && answered.is_empty(),
        "every case has an answer"
    );
    tally.report()
}

fn main() {
    let args: Vec<String> = std::env::args().skip(1).collect();
    let args: Vec<&str> = args.iter().map(String::as_str).collect();
    let words = |p: &str| -> Vec<u64> {
        let bytes = std::fs::read(p).expect("the file can be read");
        let words = bytes.as_chunks().0.iter();
        words.map(|b| u64::from_le_bytes(*b)).collect()
    };
    let ok = match args[..] {
        ["ask", count, seed] => {
            let number = |s: &str| s.parse().expect("a number");
            let cases = ask(number(count) as usize, number(seed));
            std::io::stdout()
                .write_all(&cases)
                .expect("the cases can be written");
            true
        }
        ["answers", cases, answered] => answers(&words(cases), &words(answered)),
        _ => {
            eprintln!("compare ask COUNT SEED | answers CASES ANSWERS");
            exit(2);
        }
    };
    exit(i32::from(!ok));
}
