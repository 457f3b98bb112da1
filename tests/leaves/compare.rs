// Compares every leaf of the static library with its stand-in, bit for bit; any
// NaN equals any NaN. Arguments: COUNT for each leaf, and SEED.

mod archive;
mod arguments;
mod digits;
#[path = "../standins.rs"]
mod standins;

use std::process::exit;
use std::time::Instant;

use arguments::{Arguments, Random};
use digits::RootDigits;

// Differences shown for each leaf.
const SHOWN: u64 = 5;

// What a leaf gives: a value, and the number of digits where it tells one.
struct Answer {
    value: f64,
    digits: Option<u32>,
}

impl<T: Into<f64>> From<T> for Answer {
    fn from(value: T) -> Answer {
        Answer {
            value: value.into(),
            digits: None,
        }
    }
}

impl Answer {
    fn rooted(r: RootDigits) -> Answer {
        Answer {
            value: r.root,
            digits: Some(r.digits),
        }
    }

    fn equals(&self, other: &Answer) -> bool {
        let values = self.value.to_bits() == other.value.to_bits();
        (values || self.value.is_nan() && other.value.is_nan()) && self.digits == other.digits
    }
}

struct Leaf {
    name: &'static str,
    pair: bool,
    archive: fn(f64, f64) -> Answer,
    standin: fn(f64, f64) -> Answer,
}

macro_rules! one {
    ($name:ident) => {
        Leaf {
            name: stringify!($name),
            pair: false,
            archive: |x, _| archive::$name(x).into(),
            standin: |x, _| standins::$name(x).into(),
        }
    };
}

macro_rules! two {
    ($name:ident) => {
        Leaf {
            name: stringify!($name),
            pair: true,
            archive: |x, y| archive::$name(x, y).into(),
            standin: |x, y| standins::$name(x, y).into(),
        }
    };
}

const LEAVES: [Leaf; 21] = [
    one!(abs),
    two!(max),
    two!(min),
    one!(is_finite),
    one!(trunc),
    one!(ceil),
    one!(round),
    one!(rem_euclid_360),
    one!(root),
    Leaf {
        name: "root_digits",
        pair: false,
        archive: |x, _| Answer::rooted(archive::root_digits(x)),
        standin: |x, _| Answer::rooted(digits::root_digits(x)),
    },
    two!(hypot),
    one!(sin),
    one!(cos),
    one!(tan),
    one!(ln),
    one!(exp),
    one!(atan),
    two!(atan2),
    one!(acos),
    one!(to_radians),
    one!(to_degrees),
];

struct Tally<'a> {
    leaf: &'a Leaf,
    compared: u64,
    differences: u64,
    // Arguments without digits, with an exact root, and with 54 digits of another.
    told: [u64; 3],
    shown: Vec<String>,
}

fn written(x: f64) -> String {
    format!("{:#018x} ({x:?})", x.to_bits())
}

fn answer(a: &Answer) -> String {
    match a.digits {
        None => written(a.value),
        Some(n) => format!("{} of {n} digits", written(a.value)),
    }
}

impl Tally<'_> {
    fn compare(&mut self, (x, y): Arguments) {
        let archive = (self.leaf.archive)(x, y);
        let standin = (self.leaf.standin)(x, y);
        self.compared += 1;
        if let Some(n) = standin.digits {
            self.told[usize::from(n > 0) + usize::from(n == 54)] += 1;
        }
        if archive.equals(&standin) {
            return;
        }
        self.differences += 1;
        if self.differences <= SHOWN {
            let mut line = format!("    of {}", written(x));
            if self.leaf.pair {
                line += &format!(", {}", written(y));
            }
            line += &format!(
                ": archive {}, stand-in {}",
                answer(&archive),
                answer(&standin)
            );
            self.shown.push(line);
        }
    }
}

fn run<'a>(leaf: &'a Leaf, count: u64, seed: u64) -> Tally<'a> {
    let mut tally = Tally {
        leaf,
        compared: 0,
        differences: 0,
        told: [0; 3],
        shown: Vec::new(),
    };
    let edges = if leaf.pair {
        arguments::pair_edges()
    } else {
        arguments::edges(leaf.name)
    };
    for &x in &edges {
        if leaf.pair {
            for &y in &edges {
                tally.compare((x, y));
            }
        } else {
            tally.compare((x, 0.0));
        }
    }
    let mut random = Random::new(seed, leaf.name);
    let hard = arguments::hard(leaf.name);
    let in_use = arguments::in_use(leaf.name);
    while tally.compared < count {
        let turn = tally.compared % 4;
        tally.compare(match turn {
            0 if leaf.pair => arguments::any_pair(&mut random, &edges),
            0 => (arguments::anything(&mut random, &edges), 0.0),
            1 => hard(&mut random),
            _ => in_use(&mut random),
        });
    }
    tally
}

fn argument(index: usize) -> u64 {
    let text = std::env::args().nth(index);
    text.and_then(|t| t.parse().ok()).unwrap_or_else(|| {
        eprintln!("two whole numbers are wanted: COUNT SEED");
        exit(2)
    })
}

fn main() {
    let (count, seed) = (argument(1), argument(2));
    let start = Instant::now();
    println!("{:<16}{:>14}{:>14}", "leaf", "arguments", "differences");
    let (mut compared, mut differences) = (0, 0);
    for leaf in &LEAVES {
        let tally = run(leaf, count, seed);
        println!(
            "{:<16}{:>14}{:>14}",
            leaf.name, tally.compared, tally.differences
        );
        if tally.told != [0; 3] {
            let [none, exact, other] = tally.told;
            println!("    no digits {none}, an exact root {exact}, 54 digits of another {other}");
        }
        for line in &tally.shown {
            println!("{line}");
        }
        compared += tally.compared;
        differences += tally.differences;
    }
    println!("{:<16}{compared:>14}{differences:>14}", "total");
    println!("seed {seed}, {:.1} seconds", start.elapsed().as_secs_f64());
    if differences > 0 {
        exit(1);
    }
}
