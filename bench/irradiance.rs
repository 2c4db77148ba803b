//! Nanoseconds for the sun and the irradiance of an hour: Rattle's, through the static library,
//! beside the published Rust with the stand-ins.
//!
//! Each line is measured over the hours of a year, at a site in the south of England, and divided
//! by their number. Before that both sides' results are compared, double by double.

use std::hint::black_box;
use std::process::ExitCode;

#[path = "../oracle/arguments.rs"]
#[allow(dead_code)]
mod arguments;
#[path = "../oracle/comparison.rs"]
#[allow(dead_code)]
mod comparison;
#[allow(dead_code)]
mod measure;
#[path = "../oracle/pilgartze.rs"]
#[allow(dead_code)]
mod pilgartze;
#[path = "../oracle/probes.rs"]
#[allow(dead_code)]
mod probes;
#[path = "../oracle/random.rs"]
#[allow(dead_code)]
mod random;
#[path = "../oracle/stand_ins.rs"]
#[allow(dead_code)]
mod stand_ins;
#[path = "../oracle/support.rs"]
#[macro_use]
#[allow(dead_code)]
mod support;
#[path = "../oracle/published.rs"]
#[allow(dead_code)]
mod published;

use comparison::same;
use probes::{ProbeHour, Probes, LIBRARY, YEAR, YEAR_COLUMNS};
use published::conditions::{sun_at, year_results, OneHour, Series, Site};
use published::interface;
use published::irradiance::{bytes_of, compare_years, year_by};
use random::Random;

const SITE: Site = Site {
    latitude: 51.5,
    longitude: -0.5,
    timezone: 0,
    conversion_needed: true,
    tilt: 40.0,
    orientation: 135.0,
};

/// The published functions where the library's are; the others are not measured.
const PUBLISHED: Probes = Probes {
    init_earth_orbit_deviation: interface::init_earth_orbit_deviation,
    init_solar_declination: interface::init_solar_declination,
    init_equation_of_time: interface::init_equation_of_time,
    init_time_shift: interface::init_time_shift,
    init_solar_time: interface::init_solar_time,
    init_solar_hour_angle: interface::init_solar_hour_angle,
    init_solar_altitude: interface::init_solar_altitude,
    init_solar_zenith_angle: interface::init_solar_zenith_angle,
    init_solar_azimuth_angle: interface::init_solar_azimuth_angle,
    ..LIBRARY
};

/// Altitude, zenith angle and azimuth of each hour, by the `init_` functions, each behind a call;
/// what depends on the day, once a day.
fn angles(side: &Probes, results: &mut Vec<[f64; 3]>) {
    results.clear();
    let latitude = SITE.latitude;
    unsafe {
        let shift = (side.init_time_shift)(SITE.timezone as i64, SITE.longitude);
        for day in 0..(YEAR / 24) as u32 {
            let deviation = (side.init_earth_orbit_deviation)(day);
            let declination = (side.init_solar_declination)(deviation);
            let equation_of_time = (side.init_equation_of_time)(day);
            for hour in 0..24 {
                let time = (side.init_solar_time)(hour, equation_of_time, shift);
                let hour_angle = (side.init_solar_hour_angle)(time);
                let altitude = (side.init_solar_altitude)(latitude, declination, hour_angle);
                let zenith = (side.init_solar_zenith_angle)(altitude);
                let azimuth =
                    (side.init_solar_azimuth_angle)(latitude, declination, hour_angle, altitude);
                results.push([altitude, zenith, azimuth]);
            }
        }
    }
}

fn hour_of_rattle(case: &OneHour) -> ProbeHour {
    let site = &case.site;
    unsafe {
        (black_box(LIBRARY.hour))(
            site.latitude,
            site.longitude,
            site.timezone as i64,
            case.hour,
            site.conversion_needed as u64,
            site.tilt,
            site.orientation,
            case.diffuse,
            case.direct,
            case.reflectivity,
        )
    }
}

/// An error where two lists of results differ.
fn alike<const N: usize>(what: &str, rattle: &[[f64; N]], rust: &[[f64; N]]) -> Result<(), String> {
    let pairs = rattle.iter().flatten().zip(rust.iter().flatten());
    if rattle.len() == YEAR && rust.len() == YEAR && pairs.into_iter().all(|(&a, &b)| same(a, b)) {
        Ok(())
    } else {
        Err(format!("{what}: the results differ"))
    }
}

/// Runs it, and gives the nanoseconds for each hour.
fn each_hour(what: impl FnOnce()) -> f64 {
    measure::nanoseconds(what) / YEAR as f64
}

fn measure_angles() -> Result<(), String> {
    let name = "the sun's angles, by the `init_` functions";
    let (library, published) = (&black_box(LIBRARY), &black_box(PUBLISHED));
    let (mut rattle, mut rust) = (vec![], vec![]);
    angles(library, &mut rattle);
    angles(published, &mut rust);
    alike(name, &rattle, &rust)?;
    measure::line(
        name,
        || each_hour(|| angles(library, black_box(&mut rattle))),
        || each_hour(|| angles(published, black_box(&mut rust))),
    );
    Ok(())
}

/// A single hour at a time: nothing is known of the day. The published record is filled in place,
/// so that making its lists does not count.
fn measure_single_hours(series: &Series) -> Result<(), String> {
    let name = "sun and irradiance with breakdown, a single hour";
    let cases: Vec<OneHour> = (0..YEAR)
        .map(|hour| OneHour {
            site: SITE,
            hour: hour as u32,
            diffuse: series.diffuse[hour],
            direct: series.direct[hour],
            reflectivity: series.reflectivity[hour],
        })
        .collect();
    let mut record = sun_at(0.0, 0.0, vec![]);
    let mut hour_of_rust = |case: &OneHour| {
        case.fill(black_box(&mut record));
        case.answer(&record)
    };
    let rattle: Vec<[f64; 9]> = cases.iter().map(|c| hour_of_rattle(c).doubles()).collect();
    let rust: Vec<[f64; 9]> = cases.iter().map(|c| hour_of_rust(c).doubles()).collect();
    alike(name, &rattle, &rust)?;

    let (mut rattle, mut rust) = (Vec::with_capacity(YEAR), Vec::with_capacity(YEAR));
    measure::line(
        name,
        || {
            each_hour(|| {
                rattle.clear();
                rattle.extend(cases.iter().map(hour_of_rattle));
                black_box(&mut rattle);
            })
        },
        || {
            each_hour(|| {
                rust.clear();
                rust.extend(cases.iter().map(&mut hour_of_rust));
                black_box(&mut rust);
            })
        },
    );
    Ok(())
}

/// A year at once: the published Rust fills its tables for every hour and then goes step by step.
fn measure_year(series: &Series) -> Result<(), String> {
    let name = "sun and irradiance, in a year of 8760 hours";
    let lists = [&series.diffuse, &series.direct, &series.reflectivity].map(|x| bytes_of(x));
    let [diffuse, direct, reflectivity] = &lists;
    let lists = [&diffuse[..], &direct[..], &reflectivity[..]];
    let year = black_box(LIBRARY.year);

    let mut bytes = vec![0; YEAR * YEAR_COLUMNS * 8];
    let mut rows = vec![];
    let count = year_by(year, &SITE, lists, &mut bytes);
    if count != YEAR as u64 {
        return Err(format!("{name}: Rattle gives {count} hours"));
    }
    year_results(&SITE, series.clone(), &mut rows);
    compare_years(&bytes_of(rows.as_flattened()), &bytes)?;

    measure::line(
        name,
        || {
            each_hour(|| {
                black_box(year_by(year, &SITE, lists, black_box(&mut bytes)));
            })
        },
        || {
            let series = series.clone(); // the record takes its lists; copying them does not count
            each_hour(|| year_results(black_box(&SITE), series, black_box(&mut rows)))
        },
    );
    Ok(())
}

fn run() -> Result<(), String> {
    let mut random = Random::new(1, "bench");
    let mut between =
        |high: f64| -> Vec<f64> { (0..YEAR).map(|_| random.uniform(0.0, high)).collect() };
    let series = Series {
        diffuse: between(400.0),
        direct: between(900.0),
        reflectivity: between(1.0),
    };
    measure::heading("an hour's");
    measure_angles()?;
    measure_single_hours(&series)?;
    measure_year(&series)
}

fn main() -> ExitCode {
    match run() {
        Ok(()) => ExitCode::SUCCESS,
        Err(words) => {
            eprintln!("bench: {words}");
            ExitCode::from(1)
        }
    }
}
