// Registration by the static library beside the oracle's.
//
// compare streams CASES ANSWERS: refusals 1 to 14 and 19, method, control
//   points, warnings 1 to 4 and every field of the registration, for every case
//   of a file that `generate` wrote and what `oracle batch --registration` says.
//   A case whose stream is too long (E 0) or whose kind table is refused (E 20)
//   is not asked.
// compare ask ANSWERS COUNT: so many canvas points for `oracle project`, through
//   the registrations that stand in the answers.
// compare points POINTS PROJECTED: the same points by the library.

use std::collections::BTreeMap;
use std::io::Write as _;
use std::process::exit;

#[path = "../abi.rs"]
mod abi;
#[path = "../answers.rs"]
mod answers;

use abi::Registration;

#[repr(C)]
struct Outcome {
    number: u32,
    registration: Registration,
}

#[repr(C)]
struct Warned {
    ok: bool,
    used: usize,
}

#[repr(C)]
struct LonLat {
    lon: f64,
    lat: f64,
}

unsafe extern "C" {
    fn register_stream(s: *const u8, n: usize) -> Outcome;
    fn register_warnings(s: *const u8, n: usize, out: *mut u32, len: usize) -> Warned;
    fn register_project(r: Registration, x: f64, y: f64) -> LonLat;
}

/// The answer as the oracle writes it: G, R and W lines of kinds 1 to 4.
fn lines(stream: &[u8], r: &Registration) -> Vec<String> {
    let numbers = [r.lon, r.lat, r.x, r.y, r.scale, r.bearing];
    let bits = numbers.map(|v| format!("{:016x}", v.to_bits())).join(" ");
    let mut out = vec![
        format!("G {bits}"),
        format!("R {} {}", r.method, r.controls),
    ];
    let mut warnings = vec![u32::MAX; stream.len() / 4];
    // SAFETY: both slices are alive during the call, and nobody else has them.
    let said = unsafe {
        let (to, room) = (warnings.as_mut_ptr(), warnings.len());
        register_warnings(stream.as_ptr(), stream.len(), to, room)
    };
    assert!(said.ok, "a stream has room for its warnings");
    let (used, behind) = warnings.split_at(said.used);
    assert!(behind.iter().all(|w| *w == u32::MAX));
    out.extend(used.chunks(2).map(|w| format!("W {} {}", w[0], w[1])));
    out
}

/// Refusals that come before the slices, and 0 for none.
const NUMBERS: [u32; 16] = [0, 1, 2, 3, 4, 5, 19, 6, 7, 8, 9, 10, 11, 12, 13, 14];

#[derive(Default)]
struct Tally {
    numbers: BTreeMap<u32, u32>,
    methods: BTreeMap<u32, u32>,
    kinds: BTreeMap<String, u32>,
    different: u32,
}

impl Tally {
    fn compare(&mut self, name: &str, stream: &[u8], answer: &[&str]) {
        let Some(theirs) = answers::refusal(answer) else {
            return;
        };
        // SAFETY: the slice is alive during the call, which only reads it.
        let ours = unsafe { register_stream(stream.as_ptr(), stream.len()) };
        let number = if NUMBERS.contains(&theirs) { theirs } else { 0 };
        *self.numbers.entry(number).or_default() += 1;
        if ours.number != number {
            return self.differ(name, &ours.number, &number);
        }
        if number != 0 {
            return;
        }
        // a stream that lacks space has its registration printed, and no more
        let whole = theirs == 0;
        let expected: Vec<&str> = answer.iter().copied().filter(|l| told(l)).collect();
        let all = lines(stream, &ours.registration);
        let found: Vec<&str> = all.iter().map(String::as_str).collect();
        let found = if whole { &found[..] } else { &found[..1] };
        *self.methods.entry(ours.registration.method).or_default() += 1;
        for line in expected.iter().filter(|l| l.starts_with('W')) {
            *self.kinds.entry(line[..3].to_string()).or_default() += 1;
        }
        if found != expected {
            self.differ(name, &found, &expected);
        }
    }

    fn differ(&mut self, name: &str, ours: &dyn std::fmt::Debug, theirs: &dyn std::fmt::Debug) {
        self.different += 1;
        println!("{name}: {ours:?} instead of {theirs:?}");
    }

    fn report(&self) -> bool {
        println!("refusal  streams");
        for (number, count) in &self.numbers {
            println!("{number:7}  {count:7}");
        }
        println!("methods {:?}, warnings {:?}", self.methods, self.kinds);
        let total: u32 = self.numbers.values().sum();
        println!("{total} streams, {} differ", self.different);
        let met = NUMBERS.iter().all(|n| self.numbers.contains_key(n))
            && self.methods.len() == 3
            && self.kinds.len() == 4;
        if !met {
            println!("a number, a method or a warning did not occur");
        }
        met && self.different == 0
    }
}

/// What an answer says of the registration.
fn told(line: &str) -> bool {
    line.starts_with(['G', 'R'])
        || line
            .strip_prefix("W ")
            .is_some_and(|l| l.starts_with(['1', '2', '3', '4']))
}

/// xorshift64*: the points need no more.
struct Random(u64);

impl Random {
    fn next(&mut self) -> u64 {
        self.0 ^= self.0 >> 12;
        self.0 ^= self.0 << 25;
        self.0 ^= self.0 >> 27;
        self.0.wrapping_mul(0x2545_f491_4f6c_dd1d)
    }

    /// A canvas coordinate: up to a million, small, zero or at the limit.
    fn coordinate(&mut self) -> f64 {
        let unit = (self.next() >> 11) as f64 / (1u64 << 53) as f64 * 2.0 - 1.0;
        match self.next() % 8 {
            0 => [0.0, -0.0, 1e6, -1e6][(self.next() % 4) as usize],
            1 => unit * 1e6,
            2 => unit * 1e-6,
            _ => unit * 100.0,
        }
    }
}

fn ask(answers: &str, count: usize) {
    let registrations: Vec<Vec<f64>> = answers
        .lines()
        .filter_map(|l| l.strip_prefix("G "))
        .map(|l| l.split(' ').map(number).collect())
        .collect();
    let mut random = Random(0x9e37_79b9_7f4a_7c15);
    let mut out = Vec::new();
    for i in 0..count {
        let mut point = registrations[i % registrations.len()].clone();
        point.extend([random.coordinate(), random.coordinate()]);
        out.extend(point.iter().flat_map(|v| v.to_le_bytes()));
    }
    std::io::stdout()
        .write_all(&out)
        .expect("the points can be written");
}

fn number(bits: &str) -> f64 {
    f64::from_bits(u64::from_str_radix(bits, 16).expect("a pattern"))
}

fn points(asked: &[u8], projected: &[u8]) -> bool {
    let f = |b: &[u8]| f64::from_le_bytes(b.try_into().expect("eight bytes"));
    let (mut total, mut different) = (0, 0);
    for (point, theirs) in asked.chunks_exact(64).zip(projected.chunks_exact(16)) {
        let v: Vec<f64> = point.chunks_exact(8).map(f).collect();
        let r = Registration {
            lon: v[0],
            lat: v[1],
            x: v[2],
            y: v[3],
            scale: v[4],
            bearing: v[5],
            method: 0,
            controls: 0,
        };
        // SAFETY: the call takes and gives numbers only.
        let ours = unsafe { register_project(r, v[6], v[7]) };
        let same = ours.lon.to_bits() == f(&theirs[..8]).to_bits()
            && ours.lat.to_bits() == f(&theirs[8..]).to_bits();
        total += 1;
        if !same {
            different += 1;
            println!("{v:?}: ({}, {})", ours.lon, ours.lat);
        }
    }
    println!("{total} points, {different} differ");
    total > 0 && asked.len() / 64 == projected.len() / 16 && different == 0
}

fn main() {
    let args: Vec<String> = std::env::args().skip(1).collect();
    let args: Vec<&str> = args.iter().map(String::as_str).collect();
    let bytes = |p: &str| std::fs::read(p).expect("the file can be read");
    let text = |p: &str| std::fs::read_to_string(p).expect("the file can be read");
    let ok = match args[..] {
        ["streams", cases, answers] => {
            let mut tally = Tally::default();
            answers::each(&bytes(cases), &text(answers), |name, stream, answer| {
                tally.compare(name, stream, answer)
            });
            tally.report()
        }
        ["ask", answers, count] => {
            ask(&text(answers), count.parse().expect("a number of points"));
            true
        }
        ["points", asked, projected] => points(&bytes(asked), &bytes(projected)),
        _ => {
            eprintln!(
                "compare streams CASES ANSWERS | ask ANSWERS COUNT | points POINTS PROJECTED"
            );
            exit(2);
        }
    };
    exit(i32::from(!ok));
}
