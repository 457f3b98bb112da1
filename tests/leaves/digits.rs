// The root and the number of its binary digits, to the letter of change iii: on
// whole numbers of 128 bits, one digit a turn from the highest, ended as soon as
// nothing remains to be taken off.

// As `root_digits` of the static library answers.
#[repr(C)]
#[derive(Clone, Copy)]
pub struct RootDigits {
    pub root: f64,
    pub digits: u32,
}

pub fn root_digits(x: f64) -> RootDigits {
    if x.is_nan() || x == 0.0 || x == f64::INFINITY {
        return RootDigits { root: x, digits: 0 };
    }
    if x < 0.0 {
        return RootDigits {
            root: f64::NAN,
            digits: 0,
        };
    }
    // x is rest * 2^e, exactly. An even e and 107 or 108 binary digits of rest
    // leave 54 before the root's point, the first of them a 1.
    let field = (x.to_bits() >> 52) as i32;
    let fraction = u128::from(x.to_bits() & ((1 << 52) - 1));
    let (mut rest, mut e) = match field {
        0 => (fraction, -1074),
        _ => (fraction | 1 << 52, field - 1075),
    };
    while rest >> 106 == 0 || e % 2 != 0 {
        rest <<= 1;
        e -= 1;
    }
    let (mut root, mut digits) = (0u128, 0);
    while digits < 54 && rest > 0 {
        let place = 53 - digits;
        digits += 1;
        // What the square grows by if the digit at this place is a 1.
        let grown = (2 * root + (1 << place)) << place;
        if grown <= rest {
            rest -= grown;
            root += 1 << place;
        }
    }
    // 53 digits fit; the last decides, and what remains behind it. A tie goes to
    // even.
    let (kept, last) = (root >> 1, root & 1 == 1);
    let up = last && (rest > 0 || kept & 1 == 1);
    let scale = f64::from_bits(((e / 2 + 1 + 1023) as u64) << 52);
    RootDigits {
        root: (kept + u128::from(up)) as f64 * scale,
        digits,
    }
}
