// The stand-ins for the elementary leaves: each operation rounded once, in the
// order of the recipe. Std gives only what is exact or correctly rounded
// (abs, trunc, ceil, round, sqrt, %). No inner attributes, so that `#[path]`
// and `include!` both work.

use std::f64::consts::{FRAC_PI_2, LN_2, PI};

// Exact up to 22!, so that a quotient by it is rounded once.
const fn factorial(n: usize) -> f64 {
    let mut product = 1.0;
    let mut i = 2;
    while i <= n {
        product *= i as f64;
        i += 1;
    }
    product
}

const fn alternating(k: usize) -> f64 {
    if k % 2 == 0 { 1.0 } else { -1.0 }
}

// Lowest term first: 1/1!, -1/3!, .. 1/21!.
const SINE: [f64; 11] = {
    let mut table = [0.0; 11];
    let mut k = 0;
    while k < 11 {
        table[k] = alternating(k) / factorial(2 * k + 1);
        k += 1;
    }
    table
};

// 1/0!, -1/2!, .. 1/20!.
const COSINE: [f64; 11] = {
    let mut table = [0.0; 11];
    let mut k = 0;
    while k < 11 {
        table[k] = alternating(k) / factorial(2 * k);
        k += 1;
    }
    table
};

// 1/0!, 1/1!, .. 1/18!.
const EXPONENTIAL: [f64; 19] = {
    let mut table = [0.0; 19];
    let mut k = 0;
    while k < 19 {
        table[k] = 1.0 / factorial(k);
        k += 1;
    }
    table
};

// 1/1, 1/3, .. 1/33.
const LOGARITHM: [f64; 17] = {
    let mut table = [0.0; 17];
    let mut k = 0;
    while k < 17 {
        table[k] = 1.0 / (2 * k + 1) as f64;
        k += 1;
    }
    table
};

// 1/1, -1/3, .. -1/23.
const ARCTANGENT: [f64; 12] = {
    let mut table = [0.0; 12];
    let mut k = 0;
    while k < 12 {
        table[k] = alternating(k) / (2 * k + 1) as f64;
        k += 1;
    }
    table
};

fn horner(table: &[f64], x: f64) -> f64 {
    let mut k = table.len() - 1;
    let mut sum = table[k];
    while k > 0 {
        k -= 1;
        sum = sum * x + table[k];
    }
    sum
}

fn odd_series(table: &[f64], x: f64) -> f64 {
    horner(table, x * x) * x
}

// NaN and a zero of either sign inside the bounds pass unchanged.
fn held(x: f64, low: f64, high: f64) -> f64 {
    if x < low {
        low
    } else if x > high {
        high
    } else {
        x
    }
}

pub fn abs(x: f64) -> f64 {
    x.abs()
}

// Std leaves the sign of max(0.0, -0.0) open; here the first operand wins a tie.
pub fn max(x: f64, y: f64) -> f64 {
    if x.is_nan() || x < y { y } else { x }
}

pub fn min(x: f64, y: f64) -> f64 {
    if x.is_nan() || y < x { y } else { x }
}

pub fn is_finite(x: f64) -> bool {
    x.is_finite()
}

pub fn trunc(x: f64) -> f64 {
    x.trunc()
}

pub fn ceil(x: f64) -> f64 {
    x.ceil()
}

pub fn round(x: f64) -> f64 {
    x.round()
}

pub fn rem_euclid_360(x: f64) -> f64 {
    let r = x % 360.0;
    if r < 0.0 { r + 360.0 } else { r }
}

pub fn root(x: f64) -> f64 {
    x.sqrt()
}

pub fn hypot(x: f64, y: f64) -> f64 {
    root(x * x + y * y)
}

// The quadrant (0 to 3) of |t| and the angle within it.
fn quadrant(t: f64) -> (f64, f64) {
    let r = t.abs() % (2.0 * PI);
    let q = min((r / FRAC_PI_2).trunc(), 3.0);
    (q, r - q * FRAC_PI_2)
}

fn sine_series(u: f64) -> f64 {
    odd_series(&SINE, u)
}

fn cosine_series(u: f64) -> f64 {
    horner(&COSINE, u * u)
}

pub fn sin(t: f64) -> f64 {
    let (q, u) = quadrant(t);
    let s = if q == 0.0 {
        sine_series(u)
    } else if q == 1.0 {
        cosine_series(u)
    } else if q == 2.0 {
        -sine_series(u)
    } else {
        -cosine_series(u)
    };
    if t < 0.0 { -s } else { s }
}

pub fn cos(t: f64) -> f64 {
    let (q, u) = quadrant(t);
    if q == 0.0 {
        cosine_series(u)
    } else if q == 1.0 {
        -sine_series(u)
    } else if q == 2.0 {
        -cosine_series(u)
    } else {
        sine_series(u)
    }
}

pub fn tan(t: f64) -> f64 {
    sin(t) / cos(t)
}

// v = m * 2^e with 1 <= m < 2, for v positive and finite.
fn parts(v: f64) -> (f64, f64) {
    // 2^54 lifts a subnormal into the normal range without rounding.
    let (v, lift) = if v < f64::MIN_POSITIVE {
        (v * (1u64 << 54) as f64, 54)
    } else {
        (v, 0)
    };
    let bits = v.to_bits();
    let e = (bits >> 52) as i64 - 1023 - lift;
    let m = f64::from_bits(bits & ((1 << 52) - 1) | 1023 << 52);
    (m, e as f64)
}

pub fn ln(v: f64) -> f64 {
    if v.is_nan() || v < 0.0 {
        return f64::NAN;
    }
    if v == 0.0 {
        return f64::NEG_INFINITY;
    }
    if v == f64::INFINITY {
        return v;
    }
    let (m, e) = parts(v);
    let s = (m - 1.0) / (m + 1.0);
    e * LN_2 + 2.0 * odd_series(&LOGARITHM, s)
}

pub fn exp(v: f64) -> f64 {
    if v.is_nan() {
        return v;
    }
    let v = held(v, -700.0, 700.0);
    let k = (v / LN_2).round();
    // k is within -1010 .. 1010, so 2^k is a normal number.
    let power = f64::from_bits(((k as i64 + 1023) as u64) << 52);
    horner(&EXPONENTIAL, v - k * LN_2) * power
}

pub fn atan(v: f64) -> f64 {
    if v < 0.0 {
        return -atan(-v);
    }
    let angle = if v > 1.0 {
        FRAC_PI_2 - atan(1.0 / v)
    } else {
        let half = v / (1.0 + root(1.0 + v * v));
        let quarter = half / (1.0 + root(1.0 + half * half));
        4.0 * odd_series(&ARCTANGENT, quarter)
    };
    held(angle, 0.0, FRAC_PI_2)
}

pub fn atan2(y: f64, x: f64) -> f64 {
    if y.is_nan() || x.is_nan() {
        return f64::NAN;
    }
    let acute = if x == 0.0 {
        FRAC_PI_2
    } else {
        atan(y.abs() / x.abs())
    };
    let upper = if x < 0.0 { PI - acute } else { acute };
    if y < 0.0 { -upper } else { upper }
}

pub fn acos(v: f64) -> f64 {
    2.0 * atan(root((1.0 - v) / (1.0 + v)))
}

pub fn to_radians(x: f64) -> f64 {
    x * (PI / 180.0)
}

pub fn to_degrees(x: f64) -> f64 {
    x * (180.0 / PI)
}
