//! Jobs at the edges, one by one.

use super::cases::{Aims, Maker};
use crate::pilgartze::window_object;
use crate::published::jobs::*;
use crate::published::shading::{
    edition_fine, Numbers, MOST_SECTORS, MOST_WINDOW_OBJECTS, ORIENTATION, SECTOR_WORDS,
    WINDOW_WORDS,
};
use crate::random::{ulps_from, Random, NAN_PATTERNS};
use crate::shading::call::{sector, Scene, LEFT_FIN, OVERHANG, REVEAL, RIGHT_FIN};
use crate::shading::editions::{EDITIONS, WRONG_EDITIONS};
use crate::shading::scenes::edges_of_range;
use crate::shading::walks::{all_ends, obstacle_at, sectors_ending};

/// Accepted jobs to change in one place: some steps, one of them at least partly in the shade.
pub fn plain_jobs(maker: &mut Maker) -> Vec<Job> {
    let mut judge = Judge::new();
    let mut jobs = vec![];
    while jobs.len() < 2 {
        let job = maker.sound_job();
        let Left {
            answer, results, ..
        } = judge.run_on_copies(&job);
        let rows = doubles_of(&results);
        let shaded = rows.chunks_exact(ROW).take(answer.count as usize);
        let shaded = shaded.filter(|row| 0.0 < row[5] && row[5] < 1.0 && row[2] > 1.0);
        let short = job.series.iter().all(|series| series.len() < 1000);
        let fits = answer.number == 0 && (4..16).contains(&answer.count) && short;
        if fits && shaded.count() > 2 && job.site.leap_year == jobs.len() as u64 {
            jobs.push(job);
        }
    }
    jobs
}

/// Each number at each edge, all others as they were.
fn single_fields(jobs: &mut Vec<Job>, job: &Job) {
    let mut push = |change: &dyn Fn(&mut Job)| {
        let mut other = job.clone();
        change(&mut other);
        jobs.push(other);
    };
    for x in edges_of_range(SITE_RANGES[0]) {
        push(&|job| job.site.latitude = x);
    }
    for x in edges_of_range(SITE_RANGES[1]) {
        push(&|job| job.site.longitude = x);
    }
    for x in edges_of_range(SITE_RANGES[2]) {
        push(&|job| job.site.series_step = x);
    }
    for n in -15..=15 {
        push(&|job| job.site.timezone = n);
    }
    for n in [1i64 << 32, -1 << 32, i64::MIN, i64::MAX, (1 << 32) + 1] {
        push(&|job| job.site.timezone = n);
    }
    for n in [0, 1, 2, 3, 364, 365, 366, 367, 1 << 32, 1 << 63, u64::MAX] {
        push(&|job| job.site.start_day = n);
        push(&|job| job.site.leap_year = n);
        push(&|job| job.site.direct_beam_conversion = n);
    }
    for (place, range) in TIME_RANGES.into_iter().enumerate() {
        for x in edges_of_range(range) {
            push(&|job| job.times[place] = x);
        }
    }
    for (place, range) in SURFACE_RANGES.into_iter().enumerate() {
        for x in edges_of_range(range) {
            push(&|job| job.surface[place] = x);
        }
    }
}

/// Each list at every length about the one that is needed, and the empty one.
fn lengths(jobs: &mut Vec<Job>, job: &Job, maker: &mut Maker) {
    let steps = steps_of(&job.site, &job.times);
    let words = steps.iter().map(|step| step.index + 1).max().unwrap_or(0);
    for list in 0..3 {
        for len in (8 * words).saturating_sub(20)..8 * words + 20 {
            let mut other = job.clone();
            other.series[list].resize(len, 0);
            jobs.push(other);
        }
        let mut other = job.clone();
        other.series[list].clear();
        jobs.push(other);
    }
    let needed = 8 * ROW * steps.len();
    for len in [0, 1, 8].into_iter().chain(needed - 60..needed + 60) {
        let mut other = job.clone();
        other.results = maker.bytes(len);
        jobs.push(other);
    }
}

/// The lists of objects at every length about a whole record, and about the most there may be.
fn object_lengths(jobs: &mut Vec<Job>, job: &Job) {
    let scene = Scene::of(&job.objects(true));
    let width = 360.0 / (MOST_SECTORS + 2) as f64;
    let around =
        (0..MOST_SECTORS + 2).map(|i| sector(i as f64 * width, (i + 1) as f64 * width, &[]));
    let near = [OVERHANG, 1.0f64.to_bits(), 0, 0];
    let window = scene
        .window
        .iter()
        .copied()
        .chain([near; MOST_WINDOW_OBJECTS + 2]);
    let long = Scene {
        edition: job.edition,
        numbers: [0.0; 7],
        sectors: around.collect(),
        window: window.take(MOST_WINDOW_OBJECTS + 2).collect(),
    }
    .call();
    let about = |most: usize, words: usize| {
        let records = [0, 1, 2, most - 1, most, most + 1, most + 2];
        let places = records.map(|records| 8 * words * records);
        places.into_iter().flat_map(move |place| {
            let lengths = place.saturating_sub(9)..place + 10;
            lengths.filter(move |&len| len <= 8 * words * (most + 2))
        })
    };
    for len in about(MOST_SECTORS, SECTOR_WORDS) {
        let mut other = job.clone();
        other.set_sectors(long.sectors[..len].to_vec());
        jobs.push(other);
    }
    for len in about(MOST_WINDOW_OBJECTS, WINDOW_WORDS) {
        let mut other = job.clone();
        other.window = long.window[..len].to_vec();
        jobs.push(other);
    }
}

/// The reading of each of some steps at each edge, in each list.
fn readings(jobs: &mut Vec<Job>, job: &Job) {
    let steps = steps_of(&job.site, &job.times);
    for (list, range) in READING_RANGES.into_iter().enumerate() {
        let mut values = edges_of_range(range);
        values.extend(NAN_PATTERNS.map(f64::from_bits));
        for x in values {
            for step in [steps[0], steps[1], steps[steps.len() - 1]] {
                let mut other = job.clone();
                let at = 8 * step.index;
                other.series[list][at..at + 8].copy_from_slice(&x.to_le_bytes());
                jobs.push(other);
            }
        }
    }
}

/// Sectors without objects.
pub fn sectors_of(bounds: &[(f64, f64)]) -> Vec<u8> {
    let sectors = bounds.iter().map(|&(start, end)| sector(start, end, &[]));
    let scene = Scene {
        edition: EDITION_1,
        numbers: [0.0; 7],
        sectors: sectors.collect(),
        window: vec![],
    };
    scene.call().sectors
}

/// The fault that leads to this number where there is no other.
pub fn fault(job: &mut Job, number: u32, variant: usize) {
    match number {
        1 => job.site.latitude = [91.0, f64::NAN][variant],
        2 if variant == 0 => job.times[2] = 0.0,
        // the hour is past the year, and the series are too short as well
        2 => job.times = [8784.0, 1.0, 1.0],
        3 => job.surface[variant] = 361.0,
        4 => job.window.push(0),
        5 => job.series[variant].clear(),
        6 => {
            let list = 2 - 2 * variant; // before or after the list that 5 makes short
            let nan = f64::NAN.to_le_bytes();
            let words = job.series[list].len() / 8;
            job.series[list] = nan.repeat(words);
        }
        7 => job.results.truncate(40),
        8 => job.set_sectors(sectors_of(&[(0.0, 1e-9), (2.0, 360.0)])),
        9 => job.set_sectors(sectors_of(&[(200.0, 100.0)])),
        10 => job.set_sectors(sectors_of(&[])),
        15 => {
            let days = [&mut job.site.first_leaf_day, &mut job.site.last_leaf_day];
            *days.into_iter().nth(variant).expect("one of two") = 366;
        }
        _ => {
            let mut scene = Scene::of(&job.objects(true));
            scene.window.truncate(15);
            let one = 1.0f64.to_bits();
            scene.window.push([REVEAL, one, one, 0]);
            job.window = scene.call().window;
        }
    }
}

/// Every set of faults: which of them is told is told by the order of the refusals.
pub fn sets_of_faults(jobs: &mut Vec<Job>, job: &Job, variant: usize) {
    for set in 1u32..1 << 11 {
        let mut other = job.clone();
        // from the last on, so that a part record stays one
        for number in (1..=11).rev().filter(|number| set >> (number - 1) & 1 == 1) {
            fault(&mut other, number, variant);
        }
        jobs.push(other);
    }
}

/// The last steps of the year, in both kinds of year.
fn ends_of_the_year(jobs: &mut Vec<Job>, job: &Job, maker: &mut Maker) {
    for leap_year in [0, 1] {
        for hours in [8760.0, 8784.0] {
            for step in [0.25, 0.3, 1.0, 7.1, 24.0] {
                for back in 0..3 {
                    for count in 0..4 {
                        let mut other = job.clone();
                        other.site.leap_year = leap_year;
                        other.site.start_day = 364;
                        let start: f64 = hours - step * back as f64;
                        let end = (start + step * count as f64).min(8784.0);
                        other.times = [start, end, step];
                        maker.fit(&mut other);
                        jobs.push(other);
                    }
                }
            }
            for steps in -2..=2 {
                let mut other = job.clone();
                other.site.leap_year = leap_year;
                other.site.start_day = 364;
                other.times = [ulps_from(hours, steps), 10.0, 1.0];
                maker.fit(&mut other);
                jobs.push(other);
            }
        }
    }
}

/// Starts, ends and steps that stand to each other in every way.
fn step_counts(jobs: &mut Vec<Job>, job: &Job, maker: &mut Maker) {
    let mut push = |times: Times| {
        let mut other = job.clone();
        other.times = times;
        other.site.start_day = (times[0] / 24.0).min(365.0) as u64;
        maker.fit(&mut other);
        jobs.push(other);
    };
    for step in [0.25, 0.3, 0.5, 1.0, 7.1, 24.0] {
        for start in [0.0, -0.0, 3.0, 5000.5, 8784.0] {
            push([start, f64::max(start, 1.0), step]);
            push([start, f64::max(start - 1.0, 1.0), step]);
            for count in 1..=4 {
                let end = start + step * count as f64;
                for ulps in -2..=2 {
                    if end <= 8783.0 {
                        push([start, ulps_from(end, ulps), step]);
                    }
                }
            }
        }
    }
    push([0.0, 3.0, 0.3]);
    push([0.0, 3.0, 1.0]);
    push([0.0, f64::from_bits(1), 1.0]);
    push([0.0, 6.0, 0.1 + 0.2]);
}

/// Indexes: before the series begin, at the turn of an entry, and one past the end.
fn indexes(jobs: &mut Vec<Job>, job: &Job, maker: &mut Maker) {
    for start in [0.0, 0.25, 5.5, 24.0, 47.9, 700.0] {
        for start_day in [0, 1, 2, 29, 365] {
            for series_step in [0.25, 0.3, 1.0, 7.1, 24.0] {
                for step in [0.25, 1.0] {
                    let mut other = job.clone();
                    other.site.start_day = start_day;
                    other.site.series_step = series_step;
                    other.times = [start, start + 7.0 * step, step];
                    maker.fit(&mut other);
                    jobs.push(other.clone());
                    let list = other.results.len() % 3;
                    let len = other.series[list].len();
                    other.series[list].truncate(len - 8);
                    jobs.push(other);
                }
            }
        }
    }
}

/// The direct reading −0.0 at every step: what counts as direct is then a part of the diffuse light.
fn minus_zero_direct(jobs: &mut Vec<Job>, job: &Job) {
    let mut other = job.clone();
    let words = other.series[1].len() / 8;
    other.series[1] = (-0.0f64).to_le_bytes().repeat(words);
    jobs.push(other);
}

/// The sun square on the glass, where the incidence's sum is above 1, and overhead, where the
/// altitude's is; among other steps, and by itself.
fn square_and_overhead(jobs: &mut Vec<Job>, job: &Job, maker: &mut Maker) {
    for (latitude, longitude, hour) in [(-8.067087, 8.26, 11.0), (-7.854071, 10.648195, 1427.0)] {
        for (before, after) in [(0.0, 1.0), (2.0, 1.0), (1.0, 3.0)] {
            let mut other = job.clone();
            other.site.latitude = latitude;
            other.site.longitude = longitude;
            other.site.timezone = 0;
            other.site.start_day = 0;
            other.site.direct_beam_conversion = 0;
            other.surface[0] = 15.0;
            other.surface[1] = 180.0;
            other.times = [hour - before, hour + after, 1.0];
            other.set_sectors(sectors_of(&[(0.0, 360.0)]));
            maker.fit(&mut other);
            jobs.push(other);
        }
    }
}

/// Sites and hours at which the altitude's sum is above 1, one of them with an azimuth above 180: so
/// that the sectors are walked along where the surface faces that way, and no sector, a gap or a
/// turned sector is told; by itself and after other steps. Then hours with a sum below −1. Not part
/// of `edges`, whose jobs are those from which the answers that are kept are chosen.
pub fn under_the_sun() -> Vec<Job> {
    let mut maker = Maker::new(Random::new(1, "jobs under the sun"));
    let plain = plain_jobs(&mut maker).swap_remove(0);
    let sites = [
        (0xC035_6F7D_494F_4469, 0x4038_B0A3_D70A_3D6D, 322.0),
        ((-7.854071f64).to_bits(), 10.648195f64.to_bits(), 1427.0),
    ];
    let lists: [&[(f64, f64)]; 4] = [
        &[(0.0, 360.0)],
        &[(0.0, 180.0), (180.0, 360.0)],
        &[(0.0, 100.0), (120.0, 360.0)],
        &[(300.0, 200.0)],
    ];
    let mut jobs = vec![];
    for (latitude, longitude, hour) in sites {
        for orientation in (0..=36).map(|tenth| 10.0 * tenth as f64 - 4.0 * (tenth % 2) as f64) {
            for (bounds, before) in lists.into_iter().zip([0.0, 1.0, 0.0, 2.0]) {
                let mut job = plain.clone();
                job.site.latitude = f64::from_bits(latitude);
                job.site.longitude = f64::from_bits(longitude);
                (job.site.timezone, job.site.start_day) = (0, 0);
                job.surface[..2].copy_from_slice(&[0.0, orientation]);
                job.times = [hour - before, hour + 1.0, 1.0];
                job.set_sectors(sectors_of(bounds));
                maker.fit(&mut job);
                jobs.push(job);
            }
        }
    }
    jobs.extend((0..100).map(|_| maker.aimed_job(Aims::FromBehind, 1)));
    jobs
}

/// The job with one of its steps alone, the sun square on the surface but for the altitude.
pub fn one_step(job: &Job, maker: &mut Maker) -> (Job, Numbers) {
    let mut job = job.clone();
    let steps = steps_of(&job.site, &job.times);
    let step = steps[steps.len() / 2];
    let (altitude, azimuth) = maker.sun_of(&job.site, &[step]);
    job.times = [step.time, step.time + 1.0, 1.0];
    job.surface[0] = 90.0;
    job.surface[1] = 180.0 - azimuth;
    job.window.clear();
    maker.fit(&mut job);
    let [tilt, orientation, base_height, height, width] = job.surface;
    let numbers = [
        altitude,
        azimuth,
        tilt,
        orientation,
        base_height,
        height,
        width,
    ];
    (job, numbers)
}

/// Jobs of one step whose walk ends in each way at each place. Every sector's shade is another.
pub fn walks() -> Vec<Job> {
    let mut maker = Maker::new(Random::new(1, "walk jobs"));
    let mut jobs = vec![];
    for job in plain_jobs(&mut maker) {
        let (job, numbers) = one_step(&job, &mut maker);
        for walked in all_ends() {
            let obstacle = |place: usize| obstacle_at(&numbers, place);
            let sectors = sectors_ending(walked, MOST_SECTORS, numbers[ORIENTATION], obstacle);
            let scene = Scene {
                edition: job.edition,
                numbers,
                sectors,
                window: vec![],
            };
            let mut job = job.clone();
            job.set_sectors(scene.call().sectors);
            jobs.push(job);
        }
    }
    jobs
}

/// A bad reading at the first step, and a series that ends before the last: the series is told, as 5
/// is tried of all steps before 6. Each list with each.
fn bad_reading_then_short_series() -> Vec<Job> {
    let mut maker = Maker::new(Random::new(1, "bad reading, short series"));
    let mut jobs = vec![];
    for plain in plain_jobs(&mut maker) {
        for lists in 0..9 {
            let (bad, short) = (lists % 3, lists / 3);
            let mut job = plain.clone();
            (job.site.series_step, job.site.start_day) = (1.0, 10);
            job.times = [245.0, 250.0, 1.0];
            maker.fit(&mut job);
            let steps = steps_of(&job.site, &job.times);
            let (first, last) = (steps[0].index, steps[steps.len() - 1].index);
            let at = 8 * first;
            job.series[bad][at..at + 8].copy_from_slice(&f64::NAN.to_le_bytes());
            job.series[short].truncate(8 * last);
            jobs.push(job);
        }
    }
    jobs
}

/// Start, end and step of runs whose sums have something to tell, and the step of their weather.
const SUMMED: [(Times, f64); 16] = [
    // eleven steps, the last of which begins just before the end: 3.3 hours
    ([0.0, 3.0, 0.3], 1.0),
    ([0.0, 3.0, 0.3], 0.5),
    // half-hours and quarter-hours over hourly weather, half-hours over weather by the half-hour
    ([4000.0, 4004.0, 0.5], 1.0),
    ([4000.0, 4003.0, 0.25], 1.0),
    ([4000.0, 4004.0, 0.5], 0.5),
    // hours over hourly and over other weather
    ([4000.0, 4004.0, 1.0], 1.0),
    ([4000.0, 4004.0, 1.0], 0.25),
    ([4000.0, 4004.0, 1.0], 1.5),
    // a last step, or the only one, that passes the end
    ([4000.0, 4003.75, 1.0], 1.0),
    ([4000.0, 4004.0, 0.7], 1.0),
    ([4000.0, 4000.25, 7.1], 24.0),
    ([4000.0, 4073.0, 24.0], 1.0),
    // a start above the end: one step, which counts whole
    ([4000.0, 3.0, 0.3], 1.0),
    ([4000.0, 3999.75, 0.5], 1.0),
    ([4000.0, 3.0, 1.0], 0.5),
    ([4000.0, 3.0, 24.0], 1.0),
];

/// A job over such times with the sun on the glass and partly in the shade at every step.
fn shaded_throughout(maker: &mut Maker, judge: &mut Judge, times: Times, series_step: f64) -> Job {
    loop {
        let job = maker.job_over(series_step, times);
        let Left {
            answer, results, ..
        } = judge.run_on_copies(&job);
        let rows = doubles_of(&results);
        let mut rows = rows.chunks_exact(ROW).take(answer.count as usize);
        let shaded = rows.all(|row| row[2] > 1.0 && 0.0 < row[5] && row[5] < 1.0);
        if answer.number == 0 && shaded {
            return job;
        }
    }
}

/// The job with this direct reading at every step and no diffuse light, a part of which would count as
/// direct.
fn with_direct_alone(job: &Job, direct: f64) -> Job {
    let mut other = job.clone();
    for (list, reading) in [(0, -0.0), (1, direct)] {
        let words = other.series[list].len() / 8;
        other.series[list] = reading.to_le_bytes().repeat(words);
    }
    other
}

/// Jobs about the sum: such runs; the same with products that are all −0.0, whose sum is 0; and with
/// subnormal ones, which the halves and quarters of an hour round too. Not part of `edges` either.
pub fn sums() -> Vec<Job> {
    let mut maker = Maker::new(Random::new(1, "jobs about sums"));
    let mut judge = Judge::new();
    let mut jobs = vec![];
    for (times, series_step) in SUMMED {
        for _ in 0..2 {
            let job = shaded_throughout(&mut maker, &mut judge, times, series_step);
            jobs.push(with_direct_alone(&job, -0.0));
            jobs.push(with_direct_alone(&job, f64::from_bits(1001)));
            jobs.push(job);
        }
    }
    jobs
}

// --- Editions and fins ---

/// The job in both editions; one that names none stays as it is.
pub fn in_both_editions(job: &Job) -> [Job; 2] {
    EDITIONS.map(|edition| Job {
        edition: match edition_fine(job.edition) {
            true => edition,
            false => job.edition,
        },
        ..job.clone()
    })
}

/// All of them in edition 1, and then in edition 2.
pub fn all_in_both_editions(jobs: &[Job]) -> Vec<Job> {
    let both: Vec<[Job; 2]> = jobs.iter().map(in_both_editions).collect();
    let of = |place: usize| both.iter().map(move |both| both[place].clone());
    of(0).chain(of(1)).collect()
}

/// Some of its steps, none and one, with each edition and each word that names none.
fn every_edition(jobs: &mut Vec<Job>, job: &Job, maker: &mut Maker) {
    let mut no_steps = job.clone();
    no_steps.times = [5.0, 5.0, 1.0];
    maker.fit(&mut no_steps);
    let (first_step, _) = one_step(job, maker);
    for job in [job, &no_steps, &first_step] {
        for edition in EDITIONS.into_iter().chain(WRONG_EDITIONS) {
            jobs.push(Job {
                edition,
                ..job.clone()
            });
        }
    }
}

/// Every set of faults, and none, each with a word that names no edition, these by turns.
fn sets_with_wrong_editions(jobs: &mut Vec<Job>, job: &Job, variant: usize) {
    let mut sets = vec![job.clone()];
    sets_of_faults(&mut sets, job, variant);
    let wrong = sets.into_iter().zip(WRONG_EDITIONS.into_iter().cycle());
    jobs.extend(wrong.map(|(job, edition)| Job { edition, ..job }));
}

/// Sites and hours with the sun up in the north, or about: noons of the south, and midnights of the far
/// north in summer.
const SUNS_IN_THE_NORTH: [(f64, [f64; 3]); 4] = [
    (-33.9, [10.0, 12.0, 13.0]),
    (-52.0, [4089.0, 4091.0, 4092.0]),
    (-26.2, [8459.0, 8460.0, 8461.0]),
    (71.0, [4101.0, 4103.0, 4104.0]),
];

/// The sun's azimuth less the orientation from south: on either side, square on, at the ends of the
/// beam, outside it, and beyond 180.
const DIFFERENCES: [f64; 12] = [
    0.0, 30.0, 60.0, 90.0, 150.0, 270.0, 271.0, 290.0, 315.0, 330.0, 350.0, 359.0,
];

/// Fins of one side, of both, and of both with an overhang; an overhang alone.
fn windows() -> [Vec<u8>; 5] {
    let right = window_object(RIGHT_FIN, 0.5, 0.0, 0.0);
    let left = window_object(LEFT_FIN, 0.4, 0.05, 0.0);
    let overhang = window_object(OVERHANG, 0.3, 0.1, 0.0);
    [
        right.to_vec(),
        left.to_vec(),
        [right, left].concat(),
        [left, overhang, right].concat(),
        overhang.to_vec(),
    ]
}

/// The job at that latitude and hour, a single step, with nothing in the distance.
fn in_the_north(maker: &mut Maker, plain: &Job, latitude: f64, hour: f64) -> Job {
    let mut job = plain.clone();
    (job.site.latitude, job.site.longitude) = (latitude, 0.7);
    (job.site.timezone, job.site.leap_year) = (0, 0);
    (job.site.start_day, job.site.series_step) = ((hour / 24.0) as u64, 1.0);
    job.surface = [90.0, 0.0, 0.5, 1.0, 1.0];
    job.times = [hour, hour + 1.0, 1.0];
    job.set_sectors(sectors_of(&[(0.0, 360.0)]));
    maker.fit(&mut job);
    job
}

/// Runs of one step with the sun in the north at each of these differences, on either side, where a
/// surface can face so; and a day there, at surfaces to the north; each with each of these windows.
fn fins(maker: &mut Maker, plain: &Job) -> Vec<Job> {
    let mut jobs = vec![];
    for (latitude, hours) in SUNS_IN_THE_NORTH {
        for hour in hours {
            let mut job = in_the_north(maker, plain, latitude, hour);
            let (_, azimuth) = maker.sun_of(&job.site, &steps_of(&job.site, &job.times));
            for difference in DIFFERENCES.into_iter().flat_map(|x| [x, -x]) {
                job.surface[1] = 180.0 - (azimuth - difference);
                if (0.0..=360.0).contains(&job.surface[1]) {
                    jobs.push(job.clone());
                }
            }
        }
        for orientation in [0.0, 15.0, 345.0, 360.0] {
            let mut day = in_the_north(maker, plain, latitude, hours[0]);
            day.times = [hours[0], hours[0] + 24.0, 1.0];
            day.surface[1] = orientation;
            maker.fit(&mut day);
            jobs.push(day);
        }
    }
    let with = |job: &Job| {
        windows().map(|window| Job {
            window,
            ..job.clone()
        })
    };
    jobs.iter().flat_map(with).collect()
}

/// Jobs about the edition and about fins. Not part of `edges` either.
pub fn editions() -> Vec<Job> {
    let mut maker = Maker::new(Random::new(1, "jobs about editions"));
    let plain = plain_jobs(&mut maker);
    let mut jobs = vec![];
    for job in &plain {
        every_edition(&mut jobs, job, &mut maker);
    }
    let fins = fins(&mut maker, &plain[0]);
    jobs.extend(all_in_both_editions(&fins));
    for (variant, job) in plain.iter().enumerate() {
        sets_with_wrong_editions(&mut jobs, job, variant);
    }
    jobs
}

/// Those of edition 1 that are tried one by one.
pub fn all() -> Vec<Job> {
    let mut jobs = edges();
    jobs.extend(under_the_sun());
    jobs.extend(bad_reading_then_short_series());
    jobs.extend(sums());
    jobs
}

pub fn edges() -> Vec<Job> {
    let mut maker = Maker::new(Random::new(1, "edge jobs"));
    let mut jobs = vec![];
    for (variant, job) in plain_jobs(&mut maker).iter().enumerate() {
        jobs.push(job.clone());
        single_fields(&mut jobs, job);
        lengths(&mut jobs, job, &mut maker);
        object_lengths(&mut jobs, job);
        readings(&mut jobs, job);
        sets_of_faults(&mut jobs, job, variant);
        ends_of_the_year(&mut jobs, job, &mut maker);
        step_counts(&mut jobs, job, &mut maker);
        indexes(&mut jobs, job, &mut maker);
        minus_zero_direct(&mut jobs, job);
        square_and_overhead(&mut jobs, job, &mut maker);
    }
    jobs
}
