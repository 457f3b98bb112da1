// Nanoseconds a call of each leaf: the static library, the stand-ins and Rust's
// own library, on the same random arguments from the ranges in use. The calls
// do not wait for each other; all three pay one call.

#[path = "../tests/leaves/archive.rs"]
mod archive;
#[allow(dead_code)]
#[path = "../tests/leaves/arguments.rs"]
mod arguments;
#[allow(dead_code)]
#[path = "../tests/leaves/digits.rs"]
mod digits;
#[path = "../tests/standins.rs"]
mod standins;

use std::hint::black_box;
use std::time::Instant;

use arguments::{Arguments, Random};

// More than a processor's branch predictor learns by heart.
const CALLS: usize = 65_536;

// The nanoseconds a call of each round.
struct Times(Vec<f64>);

impl Times {
    fn least(&self) -> f64 {
        self.0.iter().copied().fold(f64::INFINITY, f64::min)
    }

    fn median(&self) -> f64 {
        let mut sorted = self.0.clone();
        sorted.sort_by(f64::total_cmp);
        sorted[sorted.len() / 2]
    }
}

// Never inlined, so that each leaf's loop stands alone.
#[inline(never)]
fn round<R>(list: &[Arguments], call: impl Fn(f64, f64) -> R) -> f64 {
    let start = Instant::now();
    for &(x, y) in list {
        black_box(call(x, y));
    }
    start.elapsed().as_secs_f64() * 1e9 / list.len() as f64
}

fn row<R, S>(
    name: &str,
    rounds: usize,
    archive: impl Fn(f64, f64) -> R,
    standin: impl Fn(f64, f64) -> S,
    library: impl Fn(f64, f64) -> S,
) {
    let mut random = Random::new(1, name);
    let source = arguments::in_use(name);
    let list: Vec<Arguments> = (0..CALLS).map(|_| source(&mut random)).collect();
    let mut times = [const { Times(Vec::new()) }; 3];
    for _ in 0..rounds {
        times[0].0.push(round(&list, &archive));
        times[1].0.push(round(&list, &standin));
        times[2].0.push(round(&list, &library));
    }
    print!("{name:<16}");
    for one in &times {
        print!("{:>10.1}{:>8.1}", one.least(), one.median());
    }
    let [a, s, l] = times.map(|one| one.least());
    println!("{:>12.2}{:>10.2}", a / s, a / l);
}

macro_rules! one {
    ($rounds:expr, $name:ident, $result:ty, $library:expr) => {
        one!($rounds, stringify!($name), $name, $result, $library)
    };
    ($rounds:expr, $row:expr, $name:ident, $result:ty, $library:expr) => {{
        #[inline(never)]
        fn standin(x: f64) -> $result {
            standins::$name(x)
        }
        #[inline(never)]
        fn library(x: f64) -> $result {
            $library(x)
        }
        row(
            $row,
            $rounds,
            |x, _| archive::$name(x),
            |x, _| standin(x),
            |x, _| library(x),
        );
    }};
}

macro_rules! two {
    ($rounds:expr, $name:ident, $library:expr) => {{
        #[inline(never)]
        fn standin(x: f64, y: f64) -> f64 {
            standins::$name(x, y)
        }
        #[inline(never)]
        fn library(x: f64, y: f64) -> f64 {
            $library(x, y)
        }
        row(
            stringify!($name),
            $rounds,
            |x, y| archive::$name(x, y),
            standin,
            library,
        );
    }};
}

fn main() {
    let text = std::env::args().nth(1);
    let rounds: usize = text.and_then(|t| t.parse().ok()).unwrap_or(0);
    if rounds == 0 {
        eprintln!("a whole number above 0 is wanted: ROUNDS");
        std::process::exit(2);
    }
    println!("nanoseconds a call, {CALLS} calls a round, {rounds} rounds; ratios of the least");
    println!(
        "{:<16}{:>18}{:>18}{:>18}{:>12}{:>10}",
        "", "archive", "stand-in", "Rust library", "archive /", "archive /"
    );
    println!(
        "{:<16}{:>10}{:>8}{:>10}{:>8}{:>10}{:>8}{:>12}{:>10}",
        "leaf", "least", "median", "least", "median", "least", "median", "stand-in", "library"
    );
    one!(rounds, abs, f64, f64::abs);
    two!(rounds, max, f64::max);
    two!(rounds, min, f64::min);
    one!(rounds, is_finite, bool, f64::is_finite);
    one!(rounds, trunc, f64, f64::trunc);
    one!(rounds, ceil, f64, f64::ceil);
    one!(rounds, round, f64, f64::round);
    one!(rounds, rem_euclid_360, f64, |x: f64| x.rem_euclid(360.0));
    one!(rounds, root, f64, f64::sqrt);
    one!(rounds, "root_inches", root, f64, f64::sqrt);
    two!(rounds, hypot, f64::hypot);
    one!(rounds, sin, f64, f64::sin);
    one!(rounds, cos, f64, f64::cos);
    one!(rounds, tan, f64, f64::tan);
    one!(rounds, ln, f64, f64::ln);
    one!(rounds, exp, f64, f64::exp);
    one!(rounds, atan, f64, f64::atan);
    two!(rounds, atan2, f64::atan2);
    one!(rounds, acos, f64, f64::acos);
    one!(rounds, to_radians, f64, f64::to_radians);
    one!(rounds, to_degrees, f64, f64::to_degrees);
}
