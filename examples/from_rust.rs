//! Calls from Rust: a day in June at a window to the south with an overhang, a factor that is refused, and
//! the window in strips, behind a hedge.

#[path = "../oracle/pilgartze.rs"]
#[allow(dead_code)]
mod pilgartze;

use pilgartze::*;

const HOURS: usize = 24;

const SITE: Site = Site {
    latitude: 51.5,
    longitude: 0.0,
    timezone: 0,
    start_day: 171,
    series_step: 1.0,
    leap_year: 0,
    direct_beam_conversion: 0,
    // with the same sectors all the year these do not matter
    first_leaf_day: 0,
    last_leaf_day: 0,
};

const WINDOW: Surface = Surface {
    tilt: 90.0,
    orientation: 180.0,
    base_height: 1.0,
    height: 1.5,
    width: 1.2,
};

fn main() {
    let times = RunTimes {
        start: 171.0 * 24.0,
        end: 172.0 * 24.0,
        step: 1.0,
    };
    let weather = Weather {
        diffuse: &bytes_of(&[120.0; HOURS]),
        direct: &bytes_of(&[500.0; HOURS]),
        reflectivity: &bytes_of(&[0.2; HOURS]),
    };
    let (sky, overhang) = (sector(0.0, 360.0, &[]), window_object(1, 0.5, 0.1, 0.0));
    let shading = Shading::all_year(EDITION_2, &sky, &overhang);
    let mut days = vec![0; DAYS_LENGTH];
    let mut totals = vec![0; totals_length(SITE.leap_year)];
    let mut results = vec![0; 8 * ROW * HOURS];
    match run(
        &SITE,
        &times,
        &WINDOW,
        weather,
        shading,
        &mut days,
        &mut totals,
        &mut results,
    ) {
        Ok(Accepted { count, sum }) => println!("{count} steps, {sum:.1} Wh/m2 of direct sun"),
        Err(Refused { refusal, step }) => println!("{refusal} at step {step}"),
    }
    let rows = doubles_of(&results);
    println!("at noon the factor is {:.3}", rows[ROW * 12 + 5]);

    let below_the_horizon = factor(EDITION_2, -1.0, 0.0, &WINDOW, &sky, &overhang);
    println!(
        "a sun below the horizon: {}",
        below_the_horizon.unwrap_err()
    );

    let hedge = window_object(0, 2.5, 1.0, 0.5);
    let in_strips = TallGlazing {
        tilt: WINDOW.tilt,
        orientation: WINDOW.orientation,
        base_height: WINDOW.base_height,
        width: WINDOW.width,
        heights: &bytes_of(&[0.5, 0.6, 0.4]),
    };
    match strips(EDITION_2, 20.0, 0.0, &in_strips, &sky, &hedge) {
        Ok(factor) => println!("in three strips behind a hedge the factor is {factor:.3}"),
        Err(refusal) => println!("the strips: {refusal}"),
    }
}
