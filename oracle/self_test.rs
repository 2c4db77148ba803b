//! The comparison tried on itself: right functions must pass, and each wrong one must be found.
//!
//! Both sides are Rust here; the library is not called.

use crate::comparison::{compare, same, Outcome, Settings, Tally, With};
use crate::guarded::{Guarded, Side, OUT_OF_BOUNDS};
use crate::listing::{self, Program};
use crate::probes::{Digits, Probes, SinCos};
use crate::published::wrong::{wrong_sides, Wrong};
use crate::published::{interface, irradiance, sun, wrong};
use crate::random::{power_of_two, ulps_from};
use crate::{numbers, published, stand_ins, words};
use std::path::Path;

// --- The right functions, behind the C interface ---

macro_rules! one_double {
    ($($name:ident)*) => {
        $(extern "C" fn $name(x: f64) -> f64 {
            stand_ins::$name(x)
        })*
    };
}
macro_rules! two_doubles {
    ($($name:ident)*) => {
        $(extern "C" fn $name(a: f64, b: f64) -> f64 {
            stand_ins::$name(a, b)
        })*
    };
}
one_double!(floor cube to_radians to_degrees sqrt sin cos tan asin acos pow_minus_1_253);
two_doubles!(min_of_2 max_of_2 float_min float_max);

extern "C" fn sin_cos(x: f64) -> SinCos {
    let (sin, cos) = stand_ins::sin_cos(x);
    SinCos { sin, cos }
}

unsafe fn lent<'a>(start: *const u8, len: usize) -> &'a [u8] {
    std::slice::from_raw_parts(start, len)
}
unsafe fn lent_mut<'a>(start: *mut u8, len: usize) -> &'a mut [u8] {
    std::slice::from_raw_parts_mut(start, len)
}

unsafe extern "C" fn word_count(start: *const u8, len: usize) -> usize {
    words::word_count(lent(start, len))
}
unsafe extern "C" fn word_at(start: *const u8, len: usize, k: usize) -> u64 {
    words::word_at(lent(start, len), k)
}
unsafe extern "C" fn double_at(start: *const u8, len: usize, k: usize) -> f64 {
    words::double_at(lent(start, len), k)
}
unsafe extern "C" fn store_word(start: *mut u8, len: usize, k: usize, w: u64) {
    words::store_word(lent_mut(start, len), k, w)
}
unsafe extern "C" fn store_double(start: *mut u8, len: usize, k: usize, x: f64) {
    words::store_double(lent_mut(start, len), k, x)
}
unsafe extern "C" fn digits_at(start: *const u8, len: usize, at: usize) -> Digits {
    words::digits_at(lent(start, len), at)
}
unsafe extern "C" fn store_digits(start: *mut u8, len: usize, at: usize, w: u64) {
    words::store_digits(lent_mut(start, len), at, w)
}

const RIGHT: Probes = Probes {
    min_of_2,
    max_of_2,
    float_min,
    float_max,
    floor,
    cube,
    to_radians,
    to_degrees,
    sqrt,
    sin,
    cos,
    sin_cos,
    tan,
    asin,
    acos,
    pow_minus_1_253,
    word_count,
    word_at,
    double_at,
    store_word,
    store_double,
    digits_at,
    store_digits,
    init_earth_orbit_deviation: interface::init_earth_orbit_deviation,
    init_solar_declination: interface::init_solar_declination,
    init_equation_of_time: interface::init_equation_of_time,
    init_time_shift: interface::init_time_shift,
    init_solar_time: interface::init_solar_time,
    init_solar_hour_angle: interface::init_solar_hour_angle,
    init_solar_altitude: interface::init_solar_altitude,
    init_solar_zenith_angle: interface::init_solar_zenith_angle,
    init_solar_azimuth_angle: interface::init_solar_azimuth_angle,
    init_air_mass: interface::init_air_mass,
    init_extra_terrestrial_radiation: interface::init_extra_terrestrial_radiation,
    init_direct_beam_radiation: interface::init_direct_beam_radiation,
    init_dimensionless_clearness_parameter: interface::init_dimensionless_clearness_parameter,
    init_dimensionless_sky_brightness_parameter:
        interface::init_dimensionless_sky_brightness_parameter,
    table_row: interface::table_row,
    init_f1_circumsolar_brightness_coefficient:
        interface::init_f1_circumsolar_brightness_coefficient,
    init_f2_horizontal_brightness_coefficient: interface::init_f2_horizontal_brightness_coefficient,
    hour: interface::hour,
    year: interface::year,
};

// --- The wrong ones: each differs in a single way, most of them in few cases ---

extern "C" fn min_that_gives_the_first(a: f64, b: f64) -> f64 {
    if b < a {
        b
    } else {
        a
    }
}
extern "C" fn max_with_an_equal_first(a: f64, b: f64) -> f64 {
    if a >= b {
        a
    } else {
        b
    }
}
extern "C" fn min_that_keeps_a_nan(a: f64, b: f64) -> f64 {
    stand_ins::min_of_2(a, b)
}
extern "C" fn max_of_the_machine(a: f64, b: f64) -> f64 {
    if a.is_nan() || b.is_nan() || a != b {
        a.max(b)
    } else {
        a
    }
}
extern "C" fn floor_without_minus_zero(x: f64) -> f64 {
    x.floor() + 0.0
}
extern "C" fn floor_that_drops_great_halves(x: f64) -> f64 {
    // from 2^51 on a double still has halves, and they must go downwards
    if x.abs() >= power_of_two(51) {
        x.trunc()
    } else {
        x.floor()
    }
}
extern "C" fn cube_rounded_once_more(x: f64) -> f64 {
    (x * x) * (x * 0.75) + (x * x) * (x * 0.25)
}
extern "C" fn radians_by_division(x: f64) -> f64 {
    x * std::f64::consts::PI / 180.0
}
extern "C" fn degrees_by_division(x: f64) -> f64 {
    x * 180.0 / std::f64::consts::PI
}
extern "C" fn root_wrong_next_to_the_half(x: f64) -> f64 {
    // one step off where the exact root lies within a hundred-thousandth of the half
    let root = x.sqrt();
    let step = ulps_from(root, 1) - root;
    let over = root.mul_add(root, -x); // twice the root times what was rounded away
    if over.is_finite() && over.abs() > 0.99999 * root * step {
        ulps_from(root, if over > 0.0 { -1 } else { 1 })
    } else {
        root
    }
}
extern "C" fn sine_of_another_quarter(a: f64) -> f64 {
    // the sign of the wrong quarter, for one k below 0
    let right = stand_ins::sin(a);
    if a < -4.0 && a > -5.0 {
        -right
    } else {
        right
    }
}
extern "C" fn sine_that_shuts_64_out(a: f64) -> f64 {
    if a == 64.0 {
        f64::NAN
    } else {
        stand_ins::sin(a)
    }
}
extern "C" fn cosine_of_the_machine(a: f64) -> f64 {
    if a.abs() <= 64.0 {
        a.cos()
    } else {
        f64::NAN
    }
}
extern "C" fn both_swapped(a: f64) -> SinCos {
    let (sin, cos) = stand_ins::sin_cos(a);
    SinCos { sin: cos, cos: sin }
}
extern "C" fn tangent_one_step_off(a: f64) -> f64 {
    let right = stand_ins::tan(a);
    if a > 63.9 {
        ulps_from(right, 1)
    } else {
        right
    }
}
extern "C" fn arcsine_with_half_above(a: f64) -> f64 {
    // the branch at 0.5 taken the other way, at 0.5 alone
    if a == 0.5 {
        std::f64::consts::PI / 2.0 - 2.0 * stand_ins::asin(((1.0 - a) / 2.0).sqrt())
    } else {
        stand_ins::asin(a)
    }
}
extern "C" fn arcsine_without_minus_zero(a: f64) -> f64 {
    stand_ins::asin(a) + 0.0
}
extern "C" fn arcsine_nan_above_1(a: f64) -> f64 {
    if a > 1.0 {
        f64::NAN
    } else {
        stand_ins::asin(a)
    }
}
extern "C" fn arcsine_nan_below_minus_1(a: f64) -> f64 {
    if a < -1.0 {
        f64::NAN
    } else {
        stand_ins::asin(a)
    }
}
extern "C" fn arcsine_of_minus_1_on_both_sides(a: f64) -> f64 {
    stand_ins::asin(if a > 1.0 { -1.0 } else { a })
}
extern "C" fn arcsine_of_a_nan_as_of_1(a: f64) -> f64 {
    stand_ins::asin(if a.is_nan() { 1.0 } else { a })
}
extern "C" fn arcsine_nan_at_infinity(a: f64) -> f64 {
    if a.is_infinite() {
        f64::NAN
    } else {
        stand_ins::asin(a)
    }
}
extern "C" fn arccosine_nan_beyond_1(a: f64) -> f64 {
    if a.abs() > 1.0 {
        f64::NAN
    } else {
        stand_ins::acos(a)
    }
}
extern "C" fn arccosine_clamped_nearby_alone(a: f64) -> f64 {
    // what rounding can do to a sum is put right, and nothing further off
    if a.abs() > 1.0000001 {
        f64::NAN
    } else {
        stand_ins::acos(a)
    }
}
extern "C" fn arccosine_minus_zero_above_1(a: f64) -> f64 {
    if a > 1.0 {
        -0.0
    } else {
        stand_ins::acos(a)
    }
}
extern "C" fn power_with_a_moved_bound(u: f64) -> f64 {
    // (at 5.6 and 11.2 themselves both ranges give the same double)
    if u >= 5.6 && u < 5.601 {
        stand_ins::pow_minus_1_253_scaled(u, 2)
    } else {
        stand_ins::pow_minus_1_253(u)
    }
}
unsafe extern "C" fn count_with_part_words(_: *const u8, len: usize) -> usize {
    len.div_ceil(8)
}
unsafe extern "C" fn word_highest_first(start: *const u8, len: usize, k: usize) -> u64 {
    word_at(start, len, k).swap_bytes()
}
unsafe extern "C" fn word_at_wrapped_place(start: *const u8, len: usize, k: usize) -> u64 {
    word_at(start, len, k.wrapping_mul(8) / 8)
}
unsafe extern "C" fn double_without_sign(start: *const u8, len: usize, k: usize) -> f64 {
    let x = double_at(start, len, k);
    if x == 0.0 {
        0.0
    } else {
        x
    }
}
unsafe extern "C" fn store_one_byte_short(start: *mut u8, len: usize, k: usize, w: u64) {
    let old = word_at(start, len, k);
    store_word(start, len, k, w & (u64::MAX >> 8) | old & !(u64::MAX >> 8))
}
unsafe extern "C" fn store_nan_as_it_is(start: *mut u8, len: usize, k: usize, x: f64) {
    store_word(start, len, k, x.to_bits())
}
unsafe extern "C" fn digits_of_lower_case(start: *const u8, len: usize, at: usize) -> Digits {
    words::digits_at(&lent(start, len).to_ascii_uppercase(), at)
}
unsafe extern "C" fn store_digits_of_lower_case(start: *mut u8, len: usize, at: usize, w: u64) {
    store_digits(start, len, at, w);
    if at.checked_add(16).is_some_and(|end| end <= len) {
        lent_mut(start, len)[at..at + 16].make_ascii_lowercase();
    }
}

/// Each wrong function on doubles or words, with the name under which it must be found.
fn numbers_and_words() -> Vec<Wrong> {
    wrong_sides! { RIGHT;
        min_of_2: min_that_gives_the_first,
        max_of_2: max_with_an_equal_first,
        float_min: min_that_keeps_a_nan,
        float_max: max_of_the_machine,
        floor: floor_without_minus_zero,
        floor: floor_that_drops_great_halves,
        cube: cube_rounded_once_more,
        to_radians: radians_by_division,
        to_degrees: degrees_by_division,
        sqrt: root_wrong_next_to_the_half,
        sin: sine_of_another_quarter,
        sin: sine_that_shuts_64_out,
        cos: cosine_of_the_machine,
        sin_cos: both_swapped,
        tan: tangent_one_step_off,
        asin: arcsine_with_half_above,
        asin: arcsine_without_minus_zero,
        asin: arcsine_nan_above_1,
        asin: arcsine_nan_below_minus_1,
        asin: arcsine_of_minus_1_on_both_sides,
        asin: arcsine_of_a_nan_as_of_1,
        asin: arcsine_nan_at_infinity,
        acos: arccosine_nan_beyond_1,
        acos: arccosine_clamped_nearby_alone,
        acos: arccosine_minus_zero_above_1,
        pow_minus_1_253: power_with_a_moved_bound,
        word_count: count_with_part_words,
        word_at: word_highest_first,
        word_at: word_at_wrapped_place,
        double_at: double_without_sign,
        store_word: store_one_byte_short,
        store_double: store_nan_as_it_is,
        digits_at: digits_of_lower_case,
        store_digits: store_digits_of_lower_case,
    }
}

type Section = Box<dyn Fn(&Settings, &Probes) -> Outcome>;

/// Sections, and the functions that they have to find.
fn sections() -> Vec<(Section, Vec<Wrong>)> {
    let lowest = |settings: &Settings, probes: &Probes| {
        let (least, most) = (published::min_of_2, published::max_of_2);
        numbers::least_and_most(settings, probes, least, most)?;
        numbers::section(settings, probes)?;
        words::section(settings, probes)
    };
    vec![
        (Box::new(lowest), numbers_and_words()),
        (Box::new(sun::section), wrong::sun(RIGHT)),
        (Box::new(irradiance::section), wrong::irradiance(RIGHT)),
    ]
}

fn must(holds: bool, words: &str) -> Outcome {
    match holds {
        true => Ok(()),
        false => Err(format!("self-test: {words}")),
    }
}

/// What counts as the same, and that a comparison of nothing says nothing.
fn rules(settings: &Settings) -> Outcome {
    let quiet = f64::from_bits(0x7FF8_0000_0000_0000);
    let other = f64::from_bits(0xFFF0_0000_0000_0001);
    must(same(quiet, other), "two NaN patterns must be the same")?;
    must(
        !same(quiet, 1.0) && !same(1.0, quiet),
        "a NaN and a number must differ",
    )?;
    must(!same(0.0, -0.0), "0.0 and -0.0 must differ")?;
    must(!same(1.0, ulps_from(1.0, 1)), "neighbours must differ")?;

    let nothing = compare("nothing", std::iter::empty(), |[x]: [f64; 1]| [x], |x| x)?;
    must(
        settings
            .report("nothing", With::PlainForm, nothing)
            .is_err(),
        "an empty comparison must be an error",
    )?;
    let only_nan = Tally {
        compared: 5,
        both_nan: 5,
    };
    must(
        settings.report("NaN", With::PlainForm, only_nan).is_err(),
        "a comparison of NaN alone must be an error",
    )?;
    must(
        irradiance::nan_is_told(settings),
        "a NaN in an hour in range must be an error",
    )
}

/// That something wrong was found, and where it should be: the words begin with these.
fn must_be_found(what: &str, place: &str, outcome: Outcome) -> Outcome {
    match outcome {
        Ok(()) => Err(format!("self-test: {what} was not found")),
        Err(words) => must(
            words.starts_with(place),
            &format!("{what} was found in the wrong place: {words}"),
        ),
    }
}

/// How many wrong functions were found.
fn functions(settings: &Settings) -> Result<usize, String> {
    let mut found = 0;
    for (section, wrong) in sections() {
        section(settings, &RIGHT)
            .map_err(|words| format!("self-test, right functions: {words}"))?;
        for (name, what, probes) in &wrong {
            must_be_found(what, &format!("{name} "), section(settings, probes))?;
            found += 1;
        }
    }
    Ok(found)
}

/// Shade listings: this program, made to write one rightly, then wrongly. How many were found.
fn listings(settings: &Settings, this_program: &Path) -> Result<usize, String> {
    let listing_in = |way: &str| {
        let arguments = &["--shade-listing", way];
        let path = this_program;
        listing::run(settings, &Program { path, arguments })
    };
    for way in listing::wrong::RIGHT {
        listing_in(way).map_err(|words| format!("self-test, {way}: {words}"))?;
    }
    let mut found = 0;
    for way in listing::wrong::wrong_ways() {
        must_be_found(way, "listing differs", listing_in(way))?;
        found += 1;
    }
    Ok(found)
}

/// This program, made to read one byte outside a buffer, must be stopped.
fn guard_pages(this_program: &Path) -> Outcome {
    for side in ["before", "after"] {
        let output = std::process::Command::new(this_program)
            .args(["--read-outside", side])
            .output()
            .map_err(|error| error.to_string())?;
        must(
            output.status.code() == Some(OUT_OF_BOUNDS),
            &format!("a read {side} the buffer was not stopped"),
        )?;
    }
    Ok(())
}

pub fn run(seed: u64) -> Outcome {
    let settings = Settings {
        seed,
        count: 60_000,
        print: false,
    };
    let this_program = std::env::current_exe().map_err(|error| error.to_string())?;
    rules(&settings)?;
    let found = functions(&settings)? + listings(&settings, &this_program)?;
    guard_pages(&this_program)?;
    println!("self-test: {found} wrong functions and listings found, both guard pages hold");
    Ok(())
}

/// Reads one byte outside a buffer of 8, which must stop the program.
pub fn read_outside(side: &str) -> Outcome {
    let mut guarded = Guarded::holding(8);
    let byte = match side {
        "before" => guarded
            .lend("a read before", Side::Front, 8, 0)
            .wrapping_sub(1),
        "after" => guarded
            .lend("a read after", Side::Back, 8, 8)
            .wrapping_add(8),
        _ => return Err(String::from("usage: --read-outside before|after")),
    };
    let value = unsafe { byte.read_volatile() };
    Err(format!("a read {side} the buffer gave {value}"))
}
