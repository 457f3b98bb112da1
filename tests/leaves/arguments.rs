// Arguments for the leaves: edges, everything, hard families, ranges in use.
// Only single IEEE operations, so that a seed gives the same ones everywhere.

use std::f64::consts::{FRAC_PI_2, FRAC_PI_4, LN_2, PI};

#[path = "witnesses.rs"]
mod witnesses;

// A leaf of one argument leaves the second one aside.
pub type Arguments = (f64, f64);
pub type Source = fn(&mut Random) -> Arguments;

// Splitmix64.
pub struct Random(u64);

impl Random {
    // The name sets the leaves apart, so that none shifts the others' arguments.
    pub fn new(seed: u64, name: &str) -> Random {
        let mut state = seed;
        for byte in name.bytes() {
            state = (state ^ u64::from(byte)).wrapping_mul(0x0000_0100_0000_01b3);
        }
        Random(state)
    }

    fn word(&mut self) -> u64 {
        self.0 = self.0.wrapping_add(0x9e37_79b9_7f4a_7c15);
        let mut z = self.0;
        z = (z ^ (z >> 30)).wrapping_mul(0xbf58_476d_1ce4_e5b9);
        z = (z ^ (z >> 27)).wrapping_mul(0x94d0_49bb_1331_11eb);
        z ^ (z >> 31)
    }

    fn below(&mut self, n: u64) -> u64 {
        ((u128::from(self.word()) * u128::from(n)) >> 64) as u64
    }

    fn between(&mut self, low: f64, high: f64) -> f64 {
        let unit = (self.word() >> 11) as f64 / power_of_two(53);
        low + (high - low) * unit
    }

    fn within(&mut self, limit: f64) -> f64 {
        self.between(-limit, limit)
    }

    fn whole(&mut self, low: i64, high: i64) -> i64 {
        low + self.below((high - low + 1) as u64) as i64
    }

    fn signed(&mut self, x: f64) -> f64 {
        if self.word() & 1 == 0 { x } else { -x }
    }

    // At most four floats away.
    fn near(&mut self, x: f64) -> f64 {
        step(x, self.whole(-4, 4))
    }
}

// The float n places above x in order; below it, for a negative n.
fn step(x: f64, n: i64) -> f64 {
    // Its own inverse; both zeros have place 0.
    let place = |bits: i64| if bits < 0 { i64::MIN - bits } else { bits };
    f64::from_bits(place(place(x.to_bits() as i64).wrapping_add(n)) as u64)
}

// 2^e, also where that is subnormal.
fn power_of_two(e: i64) -> f64 {
    if e < -1022 {
        f64::from_bits(1 << (e + 1074))
    } else {
        f64::from_bits(((e + 1023) as u64) << 52)
    }
}

fn around(list: &mut Vec<f64>, x: f64, reach: i64) {
    for n in -reach..=reach {
        list.push(step(x, n));
    }
}

fn both_signs(list: Vec<f64>) -> Vec<f64> {
    list.iter().flat_map(|&x| [x, -x]).collect()
}

// The edges of every leaf.
fn common_edges() -> Vec<f64> {
    let mut list = vec![
        0.0,
        f64::NAN,
        f64::from_bits(0x7ff0_0000_0000_0001),
        f64::from_bits(0x7fff_ffff_ffff_ffff),
        f64::INFINITY,
        f64::MAX,
        step(f64::MAX, -1),
        0.1,
        0.4,
        0.6,
        3.0,
        3.5,
        1e6,
        1e9,
        1e15,
        1e22,
        1e100,
        1e300,
        FRAC_PI_4,
        LN_2,
    ];
    // Smallest and largest subnormal, smallest normal; where squares underflow and overflow.
    for x in [
        f64::from_bits(2),
        f64::MIN_POSITIVE,
        1.5e-162,
        1.5e-154,
        1.3407807929942597e154,
    ] {
        around(&mut list, x, 1);
    }
    for x in [0.5, 1.0, 1.5, 2.0, 2.5] {
        around(&mut list, x, 3);
    }
    // Where halves and then whole numbers end, and where integers overflow.
    for e in [31, 32, 51, 52, 53, 62, 63, 64] {
        let x = power_of_two(e);
        around(&mut list, x, 2);
        list.extend([x - 1.5, x - 0.5, x + 0.5, x + 1.5]);
    }
    for x in [FRAC_PI_2, PI, 2.0 * PI, 85.06, 90.0, 180.0, 360.0, 700.0] {
        around(&mut list, x, 1);
    }
    list
}

// The edges of a leaf of two arguments are all pairs of these.
pub fn pair_edges() -> Vec<f64> {
    both_signs(common_edges())
}

pub fn edges(leaf: &str) -> Vec<f64> {
    let mut list = common_edges();
    for e in -1074..=1023 {
        around(&mut list, power_of_two(e), 2);
    }
    match leaf {
        "trunc" | "ceil" | "round" => {
            for n in 0..=64 {
                around(&mut list, n as f64 / 2.0, 2);
                around(&mut list, (n as f64 + 0.5) * 1e9, 2);
            }
        }
        "rem_euclid_360" => {
            for n in 1..=64 {
                around(&mut list, n as f64 * 90.0, 2);
            }
            for e in -1074..=1014 {
                around(&mut list, 360.0 * power_of_two(e), 2);
            }
        }
        "root" | "root_digits" => {
            // 94,906,265 has the largest square below 2^53.
            for n in (1..=256).chain(94_906_010..=94_906_265) {
                let side = n as f64;
                around(&mut list, side * side, 2);
            }
        }
        "sin" | "cos" | "tan" => {
            for n in 1..=1024 {
                around(&mut list, n as f64 * FRAC_PI_4, 4);
                around(&mut list, n as f64 * (2.0 * PI), 4);
            }
            for e in -1074..=1020 {
                around(&mut list, 2.0 * PI * power_of_two(e), 4);
            }
            list.extend(witnesses::SINE.map(f64::from_bits));
            list.extend(witnesses::COSINE.map(f64::from_bits));
        }
        "ln" => list.extend(witnesses::LOGARITHM.map(f64::from_bits)),
        "exp" => {
            list.extend(witnesses::EXPONENTIAL.map(f64::from_bits));
            for n in 0..=2050 {
                around(&mut list, n as f64 * LN_2 / 2.0, 4);
            }
            // The bounds, and where the true exponential leaves the range.
            for x in [
                699.0,
                700.0,
                701.0,
                709.782712893384,
                745.1332191019412,
                1000.0,
            ] {
                around(&mut list, x, 4);
            }
        }
        "atan" => {
            list.extend(witnesses::ARCTANGENT.map(f64::from_bits));
            for n in 1..=64 {
                around(&mut list, n as f64, 4);
                around(&mut list, 1.0 / n as f64, 4);
            }
        }
        "acos" => {
            for n in 0..=64 {
                around(&mut list, n as f64 / 64.0, 4);
            }
        }
        _ => {}
    }
    both_signs(list)
}

// Every bit pattern alike.
fn any_bits(random: &mut Random) -> f64 {
    f64::from_bits(random.word())
}

// Every exponent alike, those of the subnormals too; some with few bits set.
fn any_exponent(random: &mut Random) -> f64 {
    let mut fraction = random.word() >> 12;
    match random.below(4) {
        0 => fraction &= random.word() & random.word(),
        1 => fraction &= u64::MAX << random.below(53),
        _ => {}
    }
    let e = random.whole(-1074, 1023);
    let bits = if e < -1022 {
        (1 << 52 | fraction) >> (-1022 - e)
    } else {
        ((e + 1023) as u64) << 52 | fraction
    };
    let x = f64::from_bits(bits);
    random.signed(x)
}

pub fn anything(random: &mut Random, edges: &[f64]) -> f64 {
    match random.below(8) {
        0..=2 => any_bits(random),
        3..=6 => any_exponent(random),
        _ => edges[random.below(edges.len() as u64) as usize],
    }
}

pub fn any_pair(random: &mut Random, edges: &[f64]) -> Arguments {
    let x = anything(random, edges);
    let y = match random.below(4) {
        0 => random.near(x),
        1 => random.near(-x),
        _ => anything(random, edges),
    };
    (x, y)
}

// A half, or a float next to one, of up to 53 bits.
fn near_half(random: &mut Random) -> f64 {
    let n = random.word() >> random.whole(11, 63);
    random.near(n as f64 + 0.5)
}

// A number whose root is all but the middle between two floats: n odd, of 54
// bits, and n*n equal to a small number modulo 2^55, so that n*n without that
// number is a float.
fn near_middle(random: &mut Random) -> f64 {
    // Odd squares are 1 modulo 8; each such number is a square modulo 2^55, and
    // the root is found bit by bit.
    let small = 8 * random.whole(-1 << 20, 1 << 20) + 1;
    let mut n: u64 = 1;
    for bit in 3..55 {
        let rest = n.wrapping_mul(n).wrapping_sub(small as u64);
        if rest >> bit & 1 == 1 {
            n += 1 << (bit - 1);
        }
    }
    n %= 1 << 54;
    if n < 1 << 53 {
        n = (1 << 54) - n;
    }
    let square = (i128::from(n) * i128::from(n) - i128::from(small)) as u128;
    let x = if square >> 107 == 0 {
        (square >> 54) as f64
    } else {
        2.0 * (square >> 55) as f64
    };
    x * power_of_two(2 * random.whole(-510, 480))
}

fn exact_square(random: &mut Random) -> f64 {
    let n = (random.word() >> random.whole(38, 63)) as f64;
    let square = n * n * power_of_two(2 * random.whole(-300, 300));
    match random.below(2) {
        0 => square,
        _ => random.near(square),
    }
}

// The square of an odd number below 2^27 under every even exponent that leaves it
// whole in the format, those of the subnormals too, or a float next to it.
fn odd_square(random: &mut Random) -> f64 {
    let n = random.word() >> random.whole(37, 63) | 1;
    let square = n * n;
    let above = 64 - i64::from(square.leading_zeros());
    if above > 53 {
        // Such a square is no float, but its root is still the nearest to one.
        return square as f64 * power_of_two(2 * random.whole(-500, 480));
    }
    let x = square as f64 * power_of_two(2 * random.whole(-537, (1024 - above) / 2));
    match random.below(3) {
        0 => step(x, random.signed(1.0) as i64),
        _ => x,
    }
}

fn with_sign(random: &mut Random, x: f64) -> Arguments {
    (random.signed(x), 0.0)
}

// Random arguments close to where a leaf's recipe turns.
pub fn hard(leaf: &str) -> Source {
    match leaf {
        "abs" | "to_radians" | "to_degrees" => |r| (any_exponent(r), 0.0),
        // Ties, zeros of both signs among them.
        "max" | "min" => |r| {
            let (x, y) = (r.below(4) as f64, r.below(4) as f64);
            (r.signed(x), r.signed(y))
        },
        "is_finite" => |r| {
            let fraction = if r.below(2) == 0 { 0 } else { r.word() >> 12 };
            let x = f64::from_bits((0x7fd + r.below(3)) << 52 | fraction);
            with_sign(r, x)
        },
        "trunc" | "ceil" | "round" => |r| {
            let x = match r.below(4) {
                0 => r.between(0.0, 4.0),
                1 => r.below(1 << 55) as f64 / 4.0,
                _ => near_half(r),
            };
            with_sign(r, x)
        },
        "rem_euclid_360" => |r| {
            let turns = r.below(10_000) as f64 * 360.0;
            let x = match r.below(3) {
                0 => r.near(turns),
                1 => turns + r.within(1e-9),
                _ => r.between(0.0, 1e-12),
            };
            with_sign(r, x)
        },
        "root" => |r| match r.below(2) {
            0 => (near_middle(r), 0.0),
            _ => (exact_square(r), 0.0),
        },
        "root_digits" => |r| match r.below(4) {
            0 => (near_middle(r), 0.0),
            _ => (odd_square(r), 0.0),
        },
        // Squares of few bits, so that the sum is exact or nearly so.
        "hypot" => |r| {
            let scale = power_of_two(r.whole(-500, 480));
            let ratio = power_of_two(-r.whole(0, 60));
            let (x, y) = (r.below(1 << 26) as f64, r.below(1 << 26) as f64);
            (r.signed(x * scale), r.signed(y * scale * ratio))
        },
        "sin" | "cos" | "tan" => |r| {
            let quarters = r.below(1 << 22) as f64 * FRAC_PI_2;
            let x = match r.below(2) {
                0 => r.near(quarters),
                _ => quarters + r.within(1e-6),
            };
            with_sign(r, x)
        },
        "ln" => |r| match r.below(2) {
            0 => (1.0 + r.within(1e-6), 0.0),
            _ => {
                let power = power_of_two(r.whole(-1070, 1023));
                (r.near(power), 0.0)
            }
        },
        "exp" => |r| {
            let x = match r.below(2) {
                0 => {
                    let halves = r.below(2048) as f64 * LN_2 / 2.0;
                    r.near(halves)
                }
                _ => r.between(690.0, 710.0),
            };
            with_sign(r, x)
        },
        "atan" => |r| {
            let x = match r.below(3) {
                0 => r.near(1.0),
                1 => 1.0 + r.within(1e-6),
                _ => 1.0 / r.between(0.0, 1.0),
            };
            with_sign(r, x)
        },
        "atan2" => |r| {
            let x = r.within(1e6);
            let y = match r.below(4) {
                0 => r.near(x),
                1 => 0.0,
                _ => x * r.within(1e-9),
            };
            let y = r.signed(y);
            if r.below(2) == 0 { (x, y) } else { (y, x) }
        },
        "acos" => |r| {
            let x = match r.below(3) {
                0 => r.near(1.0),
                1 => 1.0 - r.between(0.0, 1e-9),
                _ => r.between(0.0, 1e-9),
            };
            with_sign(r, x)
        },
        _ => panic!("no leaf {leaf}"),
    }
}

fn latitude(random: &mut Random) -> f64 {
    random.within(85.06)
}

fn canvas(random: &mut Random) -> f64 {
    random.within(1e6)
}

// Each size alike, from a thousandth up.
fn metres(random: &mut Random) -> f64 {
    let mut limit = 1e-3;
    for _ in 0..random.below(19) {
        limit *= 10.0;
    }
    random.within(limit)
}

// The ranges that placing a scene uses.
pub fn in_use(leaf: &str) -> Source {
    match leaf {
        "abs" | "is_finite" => |r| match r.below(3) {
            0 => (canvas(r), 0.0),
            1 => (metres(r), 0.0),
            _ => (r.within(180.0), 0.0),
        },
        "max" | "min" | "hypot" | "atan2" => |r| match r.below(2) {
            0 => (canvas(r), canvas(r)),
            _ => (metres(r), metres(r)),
        },
        "trunc" | "ceil" => |r| match r.below(3) {
            0 => (canvas(r), 0.0),
            1 => (r.between(0.0, 1e5), 0.0),
            _ => (r.within(4.0), 0.0),
        },
        // Degrees as whole numbers of 1e-9 degree, halves among them.
        "round" => |r| match r.below(3) {
            0 => (canvas(r), 0.0),
            1 => (r.within(180.0) * 1e9, 0.0),
            _ => (r.whole(-180_000_000_000, 180_000_000_000) as f64 + 0.5, 0.0),
        },
        "rem_euclid_360" => |r| match r.below(3) {
            0 => (r.between(-180.0, 540.0), 0.0),
            1 => (r.within(7200.0), 0.0),
            _ => (canvas(r), 0.0),
        },
        "root" | "root_digits" => |r| match r.below(3) {
            0 => (r.between(0.0, 1e12), 0.0),
            1 => (r.between(1.0, 2.0), 0.0),
            _ => {
                let x = metres(r);
                (x * x, 0.0)
            }
        },
        // The squares of a site grid's lengths.
        "root_inches" => |r| {
            let inches = r.whole(1, 16_383) as f64;
            (inches * inches, 0.0)
        },
        "sin" | "cos" | "tan" => |r| match r.below(4) {
            0 => (latitude(r) * (PI / 180.0), 0.0),
            1 => (FRAC_PI_4 + latitude(r) * (PI / 180.0) / 2.0, 0.0),
            2 => (r.within(PI), 0.0),
            _ => (r.within(4.0 * PI), 0.0),
        },
        // The tangents of those angles.
        "ln" => |r| match r.below(3) {
            0 => (r.between(0.04, 1.0), 0.0),
            1 => (1.0 / r.between(0.04, 1.0), 0.0),
            _ => (r.between(0.5, 2.0), 0.0),
        },
        "exp" => |r| match r.below(4) {
            0 => (r.within(700.0), 0.0),
            _ => (r.within(4.0), 0.0),
        },
        "atan" => |r| match r.below(3) {
            0 => (r.between(0.0, 1.0), 0.0),
            1 => (r.between(0.0, 64.0), 0.0),
            _ => (r.within(64.0), 0.0),
        },
        "acos" => |r| (r.within(1.0), 0.0),
        "to_radians" => |r| match r.below(2) {
            0 => (latitude(r), 0.0),
            _ => (r.within(360.0), 0.0),
        },
        "to_degrees" => |r| match r.below(2) {
            0 => (r.within(FRAC_PI_2), 0.0),
            _ => (r.within(4.0), 0.0),
        },
        _ => panic!("no leaf {leaf}"),
    }
}
