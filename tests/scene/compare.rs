// Refusals 1 to 6 and 19, and the questions to a scene, asked of the static library and
// compared with the oracle's answers, for every case of a file that `generate`
// wrote. Arguments: the cases, and what `oracle batch --scene` says of them. A
// stream that is longer than its case lends room for (E 0), or whose kind table
// is refused (E 20), is not asked.

use std::collections::BTreeMap;
use std::process::exit;

#[path = "../answers.rs"]
mod answers;
mod host;

use host::Stream;

const KINDS: [&str; 11] = [
    "box", "circle", "ellipse", "arc", "line", "arrow", "spline", "text", "dot", "brace", "block",
];

/// Refusals that the stream alone decides, and 0 for none.
const NUMBERS: [u32; 8] = [0, 1, 2, 3, 4, 5, 19, 6];

fn bits(v: f64) -> String {
    format!("{:016x}", v.to_bits())
}

fn pair(x: f64, y: f64) -> String {
    format!("{} {}", bits(x), bits(y))
}

fn spot(p: &host::Spot) -> String {
    if p.some {
        pair(p.x, p.y)
    } else {
        "-".into()
    }
}

fn value(v: &host::Value) -> String {
    if v.some {
        bits(v.value)
    } else {
        "-".into()
    }
}

fn span(line: u32, col: u32) -> String {
    if (line, col) == (0, 0) {
        "-".into()
    } else {
        format!("{line} {col}")
    }
}

fn list(points: &[host::Spot]) -> String {
    let all: Vec<String> = points.iter().map(spot).collect();
    format!("{} {}", all.len(), all.join(" "))
        .trim_end()
        .to_string()
}

/// The scene as the library answers, in the oracle's lines.
fn scene(s: &Stream) -> Vec<String> {
    let mut out = vec![format!("S {}", bits(s.rescale()))];
    let frame = s.frame();
    let frame = if frame.some {
        frame.frame.to_string()
    } else {
        "-".into()
    };
    let [scale, bearing, view_scale] = [s.scale(), s.bearing(), s.view_scale()].map(|v| value(&v));
    let anchor = spot(&s.anchor());
    let (flatten, step) = (bits(s.flatten()), bits(s.step()));
    out.push(format!(
        "O {frame} {anchor} {scale} {bearing} {flatten} {view_scale} {step}"
    ));
    let mut names = Vec::new();
    for (i, f) in s.features().enumerate() {
        let name = s.text(f.at, f.len);
        out.push(format!("N {i} {name} {}", pair(f.lon, f.lat)));
        names.push((f.at, f.len));
    }
    for (i, v) in s.variables().enumerate() {
        let name = s.text(v.at, v.len);
        out.push(format!("V {i} {name} {}", bits(v.value)));
        if name != "geo_lon" && name.ends_with("_lon") {
            names.push((v.at, v.len - 4));
        }
    }
    for (i, p) in s.places().enumerate() {
        let label = s.text(p.at, p.len);
        let nested = u8::from(p.nested);
        let span = span(p.line, p.col);
        out.push(format!("A {i} {label} {} {nested} {span}", pair(p.x, p.y)));
    }
    for (i, it) in s.items().enumerate() {
        item(s, i, &it, &mut out);
    }
    for (at, len) in names {
        let point = spot(&s.label(at, len));
        out.push(format!("L {} {point}", s.text(at, len)));
    }
    out
}

fn item(s: &Stream, i: usize, it: &host::Item, out: &mut Vec<String>) {
    let kind = KINDS[usize::from(it.kind)];
    let marks = [it.hidden, it.nested, it.closed, it.fill, it.screen];
    let flags: u32 = (0..).zip(marks).map(|(k, m)| u32::from(m) << k).sum();
    let label = if it.len == 0 {
        "-".into()
    } else {
        s.text(it.label, it.len)
    };
    let sizes = [&it.w, &it.h, &it.r, &it.rad].map(value).join(" ");
    let (span, at) = (span(it.line, it.col), spot(&it.at));
    out.push(format!("I {i} {kind} {flags} {label} {span} {at} {sizes}"));
    for role in [0, 1] {
        let p = s.points(it.next, role);
        if p.some {
            let points = s.list(p.at, usize::from(p.count));
            out.push(format!("J {role} {}", list(&points)));
        }
    }
    for role in [0, 1] {
        for p in s.paths(it.next, role) {
            let closed = u8::from(p.closed);
            let count = usize::from(p.count);
            let points = if p.curve {
                let mut all = s.list(p.start, 1);
                all.extend(s.list(p.at, 3 * count));
                all
            } else {
                s.list(p.at, count)
            };
            let form = u8::from(!p.curve);
            out.push(format!("K {role} {closed} {form} {}", list(&points)));
        }
    }
}

/// What was compared, by the first letter of the oracle's lines, and how many
/// labels resolved to nothing.
#[derive(Default)]
struct Tally {
    refused: BTreeMap<u32, u32>,
    lines: BTreeMap<char, u32>,
    unresolved: u32,
    different: u32,
}

impl Tally {
    fn compare(&mut self, name: &str, stream: &[u8], answer: &[&str]) {
        let Some(theirs) = answers::refusal(answer) else {
            return;
        };
        let theirs = if NUMBERS.contains(&theirs) { theirs } else { 0 };
        let stream = Stream::new(stream);
        let ours = stream.refusal();
        *self.refused.entry(theirs).or_default() += 1;
        if ours != theirs {
            self.different += 1;
            println!("{name}: {ours} instead of {theirs}");
            return;
        }
        if theirs == 0 {
            let dumped = answer.iter().filter(|l| l.starts_with(is_scene));
            self.lines(name, &scene(&stream), &dumped.copied().collect::<Vec<_>>());
        }
    }

    fn lines(&mut self, name: &str, ours: &[String], theirs: &[&str]) {
        for line in theirs {
            let letter = line.chars().next().unwrap_or('?');
            *self.lines.entry(letter).or_default() += 1;
            self.unresolved += u32::from(letter == 'L' && line.ends_with(" -"));
        }
        let differs = (0..ours.len().max(theirs.len()))
            .find(|i| ours.get(*i).map(String::as_str) != theirs.get(*i).copied());
        if let Some(i) = differs {
            self.different += 1;
            let (a, b) = (ours.get(i), theirs.get(i));
            println!("{name}: {a:?} instead of {b:?}");
        }
    }

    fn report(&self) -> bool {
        println!("refusal  streams");
        for (number, count) in &self.refused {
            println!("{number:7}  {count:7}");
        }
        let kinds = [
            ('O', "scenes"),
            ('N', "features"),
            ('V', "variables"),
            ('A', "places"),
            ('I', "items"),
            ('J', "lists of points"),
            ('K', "paths"),
            ('L', "labels"),
        ];
        let mut met = NUMBERS.iter().all(|n| self.refused.contains_key(n)) && self.unresolved > 0;
        for (letter, what) in kinds {
            let count = self.lines.get(&letter).copied().unwrap_or_default();
            println!("{count:9} {what}");
            met &= count > 0;
        }
        println!("{:9} of the labels name nothing", self.unresolved);
        let total: u32 = self.refused.values().sum();
        println!("{total} streams, {} differ", self.different);
        if !met {
            println!("a number, or a kind of line, did not occur");
        }
        met && self.different == 0
    }
}

fn is_scene(c: char) -> bool {
    "SONVAIJKL".contains(c)
}

fn main() {
    let mut args = std::env::args().skip(1);
    let (Some(cases), Some(answers)) = (args.next(), args.next()) else {
        eprintln!("compare CASES ANSWERS");
        exit(2);
    };
    let cases = std::fs::read(cases).expect("the cases can be read");
    let answers = std::fs::read_to_string(answers).expect("the answers can be read");
    let mut tally = Tally::default();
    answers::each(&cases, &answers, |name, stream, answer| {
        tally.compare(name, stream, answer)
    });
    exit(i32::from(!tally.report()));
}
