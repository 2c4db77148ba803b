//! The stand-ins of the specification, written plainly in Rust from its text alone.
//!
//! They take the place of Rust's float methods in the published Rust, so that both sides of a
//! comparison compute by the same formulas. Each operation is one operation on doubles, rounded
//! once, in the order of the text; Rust neither reorders them nor contracts a multiply and an add.

use std::cell::Cell;
use std::f64::consts::PI;

// ---------------------------------------------------------------------------------------------
// Least, greatest, floor, power 3, degrees
// ---------------------------------------------------------------------------------------------

/// The first where it is below the second, else the second (so the second where comparison fails).
pub fn min_of_2(first: f64, second: f64) -> f64 {
    if first < second {
        first
    } else {
        second
    }
}

/// The first where it is above the second, else the second (so the second where comparison fails).
pub fn max_of_2(first: f64, second: f64) -> f64 {
    if first > second {
        first
    } else {
        second
    }
}

/// "The float method min or max drops a NaN; otherwise as `min_of_2`, `max_of_2`."
pub fn float_min(a: f64, b: f64) -> f64 {
    if a.is_nan() {
        b
    } else if b.is_nan() {
        a
    } else {
        min_of_2(a, b)
    }
}

pub fn float_max(a: f64, b: f64) -> f64 {
    if a.is_nan() {
        b
    } else if b.is_nan() {
        a
    } else {
        max_of_2(a, b)
    }
}

/// "Floor is exact."
pub fn floor(x: f64) -> f64 {
    x.floor()
}

/// "Power 3 is (a·a)·a."
pub fn cube(a: f64) -> f64 {
    (a * a) * a
}

/// "Degrees to radians multiplies by PI / 180, back by 180 / PI (constants as doubles)."
pub fn to_radians(degrees: f64) -> f64 {
    degrees * (PI / 180.0)
}

pub fn to_degrees(radians: f64) -> f64 {
    radians * (180.0 / PI)
}

// ---------------------------------------------------------------------------------------------
// Sine, cosine, tangent
// ---------------------------------------------------------------------------------------------

/// k mod 4 and the rest r, of a with |a| ≤ 64; nothing beyond, and for NaN.
fn quarter_and_rest(a: f64) -> Option<(i64, f64)> {
    if !(-64.0 <= a && a <= 64.0) {
        return None;
    }
    let two_over_pi = f64::from_bits(0x3FE45F306DC9C883);
    let half_pi_high = f64::from_bits(0x3FF921FB54400000);
    let half_pi_low = f64::from_bits(0x3DD0B4611A626331);
    let k = floor(a * two_over_pi + 0.5);
    let r = (a - k * half_pi_high) - k * half_pi_low;
    // "k mod 4 (0 to 3, also for k below 0)": k is a whole number from -41 to 41.
    Some(((k as i64).rem_euclid(4), r))
}

/// "From h = 1, n = 8 down to 1: sine h ← 1 − (t/(2n(2n+1)))·h, times r at the end."
fn sine_series(r: f64) -> f64 {
    let t = r * r;
    let mut h = 1.0;
    for n in (1..=8).rev() {
        h = 1.0 - (t / whole(2 * n * (2 * n + 1))) * h;
    }
    h * r
}

/// "Cosine h ← 1 − (t/((2n−1)2n))·h."
fn cosine_series(r: f64) -> f64 {
    let t = r * r;
    let mut h = 1.0;
    for n in (1..=8).rev() {
        h = 1.0 - (t / whole((2 * n - 1) * 2 * n)) * h;
    }
    h
}

/// "By k mod 4 sine is s, c, −s, −c."
pub fn sin(a: f64) -> f64 {
    match quarter_and_rest(a) {
        None => f64::NAN,
        Some((0, r)) => clamp(sine_series(r)),
        Some((1, r)) => clamp(cosine_series(r)),
        Some((2, r)) => clamp(-sine_series(r)),
        Some((_, r)) => clamp(-cosine_series(r)),
    }
}

/// "Cosine c, −s, −c, s."
pub fn cos(a: f64) -> f64 {
    match quarter_and_rest(a) {
        None => f64::NAN,
        Some((0, r)) => clamp(cosine_series(r)),
        Some((1, r)) => clamp(-sine_series(r)),
        Some((2, r)) => clamp(-cosine_series(r)),
        Some((_, r)) => clamp(sine_series(r)),
    }
}

/// Both at once.
pub fn sin_cos(a: f64) -> (f64, f64) {
    let Some((quarter, r)) = quarter_and_rest(a) else {
        return (f64::NAN, f64::NAN);
    };
    let (s, c) = (sine_series(r), cosine_series(r));
    let (sine, cosine) = match quarter {
        0 => (s, c),
        1 => (c, -s),
        2 => (-s, -c),
        _ => (-c, s),
    };
    (clamp(sine), clamp(cosine))
}

/// "Tangent is their quotient."
pub fn tan(a: f64) -> f64 {
    let (sine, cosine) = sin_cos(a);
    sine / cosine
}

/// "Results clamp to −1..1", and so does what an arcsine is asked of.
fn clamp(x: f64) -> f64 {
    if x < -1.0 {
        -1.0
    } else if x > 1.0 {
        1.0
    } else {
        x
    }
}

/// A small whole number as a double, exactly.
fn whole(n: i32) -> f64 {
    n as f64
}

// ---------------------------------------------------------------------------------------------
// Arcsine, arccosine, root
// ---------------------------------------------------------------------------------------------

/// "Any number above 1 as 1 and below −1 as −1; NaN remains NaN"; "odd for a below 0." −0.0 is not
/// below 0, and a·h keeps its sign.
pub fn asin(a: f64) -> f64 {
    if a.is_nan() {
        return f64::NAN;
    }
    let a = clamp(a);
    if a < 0.0 {
        return -asin(-a);
    }
    if a <= 0.5 {
        let t = a * a;
        let mut h = 1.0;
        for n in (1..=24).rev() {
            let odd = 2 * n - 1;
            h = 1.0 + ((t * whole(odd * odd)) / whole(2 * n * (2 * n + 1))) * h;
        }
        a * h
    } else {
        PI / 2.0 - 2.0 * asin(sqrt((1.0 - a) / 2.0))
    }
}

/// "Arccosine is PI/2 − arcsine": of any number above 1 it is 0, of any below −1 it is PI.
pub fn acos(a: f64) -> f64 {
    PI / 2.0 - asin(a)
}

/// "The root is the double nearest to the exact square root": what IEEE 754 asks of `f64::sqrt`.
pub fn sqrt(x: f64) -> f64 {
    x.sqrt()
}

/// The same root, stated over whole numbers, as a check on the machine's and for measurements.
///
/// A positive double is m · 2^e with whole m below 2^53. With m and e chosen so that e is even and
/// m has 107 or 108 bits, the whole root of m has 54 bits: one more than a double keeps. Where its
/// last bit is 0 the exact root lies below the half and rounds down. Where it is 1 the exact root
/// lies above the half and rounds up: it cannot be the half itself, since an odd number's square is
/// odd and m, shifted by 54 bits or more, is even.
pub fn sqrt_by_whole_numbers(x: f64) -> f64 {
    if x.is_nan() || x == 0.0 || x == f64::INFINITY {
        return x; // ±0 and +∞ are their own roots
    }
    if x < 0.0 {
        return f64::NAN;
    }
    let bits = x.to_bits();
    let exponent = (bits >> 52) as i32; // the sign is 0 here
    let fraction = bits & 0x000F_FFFF_FFFF_FFFF;
    let (mut m, mut e) = match exponent {
        0 => (fraction as u128, -1074),
        _ => ((fraction | 0x0010_0000_0000_0000) as u128, exponent - 1075),
    };
    let mut shift = m.leading_zeros() as i32 - 20; // m · 2^shift has 108 bits
    if (e - shift) % 2 != 0 {
        shift -= 1; // 107 bits, and an even exponent
    }
    m <<= shift;
    e -= shift;
    let root = m.isqrt() as u64; // 54 bits
    let nearest = (root >> 1) + (root & 1); // 53 bits, or 2^53
                                            // nearest · 2^(e/2 + 1) is a normal double: the least root is that of 2^-1074.
    nearest as f64 * f64::from_bits(((e / 2 + 1 + 1023) as u64) << 52)
}

// ---------------------------------------------------------------------------------------------
// u to the power −1.253
// ---------------------------------------------------------------------------------------------

/// "u to the −1.253, 3 ≤ u ≤ 14 (else NaN)."
pub fn pow_minus_1_253(u: f64) -> f64 {
    if !(3.0 <= u && u <= 14.0) {
        return f64::NAN;
    }
    let m = if u < 5.6 {
        2
    } else if u < 11.2 {
        3
    } else {
        4
    };
    pow_minus_1_253_scaled(u, m)
}

/// The same by a given m, whichever range u is in.
pub fn pow_minus_1_253_scaled(u: f64, m: i32) -> f64 {
    let w = u / whole(1 << m);
    let z = (w - 1.0) / (w + 1.0);
    let mut h = 1.0 / 23.0;
    for n in (0..=10).rev() {
        h = 1.0 / whole(2 * n + 1) + (z * z) * h;
    }
    let l = whole(m) * f64::from_bits(0x3FE62E42FEFA39EF) + (2.0 * z) * h;
    let v = (-1.253 * l) / 16.0;
    let mut h = 1.0;
    for n in (1..=16).rev() {
        h = 1.0 + (v / whole(n)) * h;
    }
    for _ in 0..4 {
        h = h * h;
    }
    h
}

// ---------------------------------------------------------------------------------------------
// What the published Rust asks of them beyond ±1
// ---------------------------------------------------------------------------------------------

/// Whether an arcsine and an arccosine were asked of a number above 1, and of one below −1.
#[derive(Clone, Copy, Default)]
pub struct Beyond {
    pub arcsine_above: bool,
    pub arcsine_below: bool,
    pub arccosine_above: bool,
    pub arccosine_below: bool,
}

thread_local! {
    static BEYOND: Cell<Beyond> = Cell::default();
}

/// What a call gives, and what the published Rust asked beyond ±1 in the course of it.
pub fn beyond_in<T>(call: impl FnOnce() -> T) -> (T, Beyond) {
    let before = BEYOND.take();
    let answer = call();
    (answer, BEYOND.replace(before))
}

/// Notes an argument beyond ±1; there are few of them.
#[cold]
fn note(note: fn(&mut Beyond)) {
    BEYOND.with(|cell| {
        let mut beyond = cell.get();
        note(&mut beyond);
        cell.set(beyond);
    });
}

// ---------------------------------------------------------------------------------------------
// The names under which the published Rust calls them
// ---------------------------------------------------------------------------------------------

/// The slicer renames `.sin()` to `.stand_in_sin()` and so on, and changes nothing else.
pub trait StandIns {
    fn stand_in_sin(self) -> f64;
    fn stand_in_cos(self) -> f64;
    fn stand_in_tan(self) -> f64;
    fn stand_in_asin(self) -> f64;
    fn stand_in_acos(self) -> f64;
    fn stand_in_floor(self) -> f64;
    fn stand_in_to_radians(self) -> f64;
    fn stand_in_to_degrees(self) -> f64;
    fn stand_in_min(self, other: f64) -> f64;
    fn stand_in_max(self, other: f64) -> f64;
    fn stand_in_powi(self, n: i32) -> f64;
    fn stand_in_powf(self, y: f64) -> f64;
}

impl StandIns for f64 {
    fn stand_in_sin(self) -> f64 {
        sin(self)
    }
    fn stand_in_cos(self) -> f64 {
        cos(self)
    }
    fn stand_in_tan(self) -> f64 {
        tan(self)
    }
    fn stand_in_asin(self) -> f64 {
        if self > 1.0 {
            note(|beyond| beyond.arcsine_above = true);
        } else if self < -1.0 {
            note(|beyond| beyond.arcsine_below = true);
        }
        asin(self)
    }
    fn stand_in_acos(self) -> f64 {
        if self > 1.0 {
            note(|beyond| beyond.arccosine_above = true);
        } else if self < -1.0 {
            note(|beyond| beyond.arccosine_below = true);
        }
        acos(self)
    }
    fn stand_in_floor(self) -> f64 {
        floor(self)
    }
    fn stand_in_to_radians(self) -> f64 {
        to_radians(self)
    }
    fn stand_in_to_degrees(self) -> f64 {
        to_degrees(self)
    }
    fn stand_in_min(self, other: f64) -> f64 {
        float_min(self, other)
    }
    fn stand_in_max(self, other: f64) -> f64 {
        float_max(self, other)
    }
    fn stand_in_powi(self, n: i32) -> f64 {
        assert_eq!(n, 3, "there is a stand-in for power 3 alone");
        cube(self)
    }
    fn stand_in_powf(self, y: f64) -> f64 {
        assert_eq!(y, -1.253, "there is a stand-in for the power -1.253 alone");
        pow_minus_1_253(self)
    }
}
