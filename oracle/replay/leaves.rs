//! Functions of one to three doubles.

use super::file::{File, Record};
use crate::comparison::Settings;
use crate::published::interface::*;
use crate::random::{chief_edges, ulps_from};
use crate::stand_ins::*;

const KIND: u64 = 3;
const EACH: usize = 50;

/// A function, how many of the three it reads, and where its useful arguments lie.
type Leaf = (fn(f64, f64, f64) -> f64, usize, (f64, f64));

/// Their places, from 1 on, are their numbers in the file.
const LEAVES: [Leaf; 25] = [
    (|x, _, _| sin(x), 1, (-10.0, 10.0)),
    (|x, _, _| cos(x), 1, (-10.0, 10.0)),
    (|x, _, _| tan(x), 1, (-10.0, 10.0)),
    (|x, _, _| asin(x), 1, (-1.0, 1.0)),
    (|x, _, _| acos(x), 1, (-1.0, 1.0)),
    (|x, _, _| pow_minus_1_253(x), 1, (3.0, 14.0)),
    (|x, _, _| sqrt(x), 1, (0.0, 1000.0)),
    (|x, _, _| floor(x), 1, (-100.0, 100.0)),
    (|x, _, _| cube(x), 1, (-10.0, 10.0)),
    (|x, _, _| to_radians(x), 1, (-360.0, 360.0)),
    (|x, _, _| to_degrees(x), 1, (-7.0, 7.0)),
    (|x, y, _| min_of_2(x, y), 2, (-10.0, 10.0)),
    (|x, y, _| max_of_2(x, y), 2, (-10.0, 10.0)),
    (|x, y, _| float_min(x, y), 2, (-10.0, 10.0)),
    (|x, y, _| float_max(x, y), 2, (-10.0, 10.0)),
    (|x, _, _| init_solar_declination(x), 1, (0.0, 360.0)),
    (
        |x, _, _| init_extra_terrestrial_radiation(x),
        1,
        (0.0, 360.0),
    ),
    (|x, _, _| init_solar_hour_angle(x), 1, (-5.0, 30.0)),
    (|x, y, z| init_solar_altitude(x, y, z), 3, (-90.0, 90.0)),
    (|x, _, _| init_solar_zenith_angle(x), 1, (0.0, 90.0)),
    (|x, _, _| init_air_mass(x), 1, (0.0, 90.0)),
    (
        |x, y, z| init_dimensionless_clearness_parameter(x, y, z),
        3,
        (0.0, 90.0),
    ),
    (
        |x, y, z| init_dimensionless_sky_brightness_parameter(x, y, z),
        3,
        (0.0, 40.0),
    ),
    (
        |x, y, z| init_f1_circumsolar_brightness_coefficient(x, y, z),
        3,
        (0.0, 8.0),
    ),
    (
        |x, y, z| init_f2_horizontal_brightness_coefficient(x, y, z),
        3,
        (0.0, 8.0),
    ),
];

pub fn file(settings: &Settings) -> Result<File, String> {
    let mut random = settings.random("replayed leaves");
    let edges = chief_edges();
    let mut file = File::default();
    for (place, (function, count, (low, high))) in LEAVES.into_iter().enumerate() {
        let mut numbers = 0;
        for turn in 0..EACH {
            let mut arguments = [0.0; 3];
            for x in &mut arguments[..count] {
                *x = match turn % 5 {
                    0 => edges[random.below(edges.len())],
                    1 => random.any_size(),
                    _ => random.uniform(low, high),
                };
            }
            if count == 2 && turn % 4 == 3 {
                arguments[1] = ulps_from(arguments[0], random.below(3) as i64 - 1);
            }
            let [x, y, z] = arguments;
            let answer = function(x, y, z);
            numbers += !answer.is_nan() as usize;
            let mut record = Record::new(KIND);
            record
                .word(place as u64 + 1)
                .doubles(&arguments)
                .answer(answer);
            file.push(&record);
        }
        if numbers < EACH / 2 {
            return Err(format!("function {}: more than half are NaN", place + 1));
        }
    }
    Ok(file)
}
