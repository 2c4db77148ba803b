//! Whole jobs and single steps: the specification's checks of what goes in, read off its text, and
//! then the published Rust, step by step, in edition 2 with its factor's second copy, each step with
//! the sectors of its day's season.
//!
//! Each step has its hour put into a published record of one hour, which takes a microsecond where
//! the record of a whole year takes milliseconds; `rows_by_new` has the same rows by the latter.

use super::conditions::{sun_at, OneHour, Site, FIRST_STEP};
use super::days::{fill_days, DayValues};
use super::seasons::{leaf_days_fine, Seasons, WRONG_LEAF_DAY};
use super::shading::{
    edition_fine, factor_by, sectors_of, window_of, within, Numbers, WRONG_EDITION,
};
use super::totals::{keep_totals, totals_needed};
use super::walk::{walked, Walked};
use super::wrong::Otherwise;
use super::*;
pub use crate::pilgartze::{
    doubles_of, Answer as RunAnswer, Site as JobSite, DAYS_LENGTH, EDITION_1, IRRADIANCE_ROW, ROW,
};
use crate::random::Random;
use crate::stand_ins::{beyond_in, Beyond};

/// Start, end, step.
pub type Times = [f64; 3];

/// Tilt, orientation, base height, height, width.
pub type Surface = [f64; 5];

/// Diffuse, direct, reflectivity.
pub type Readings = [f64; 3];

/// What a run is given; the table of days, the totals and the results list as they are lent.
#[derive(Clone, PartialEq)]
pub struct Job {
    pub edition: u64,
    pub site: JobSite,
    pub times: Times,
    pub surface: Surface,
    pub series: [Vec<u8>; 3],
    pub summer: Vec<u8>,
    pub winter: Vec<u8>,
    pub window: Vec<u8>,
    pub days: Vec<u8>,
    pub totals: Vec<u8>,
    pub results: Vec<u8>,
}

/// What a single-step call is given; the edition and the lists of objects are for the one with the
/// factor.
#[derive(Clone, PartialEq)]
pub struct Single {
    pub edition: u64,
    pub site: JobSite,
    pub time: f64,
    pub surface: Surface,
    pub readings: Readings,
    pub summer: Vec<u8>,
    pub winter: Vec<u8>,
    pub window: Vec<u8>,
    pub results: Vec<u8>,
}

impl Job {
    /// "An older job, with one list, is a job with two equal lists."
    pub fn set_sectors(&mut self, sectors: Vec<u8>) {
        self.summer = sectors.clone();
        self.winter = sectors;
    }
}

/// What a call gives and what it leaves in the table of days and in the totals, of a run, and in the
/// results.
pub struct Left<T> {
    pub answer: T,
    pub days: Vec<u8>,
    pub totals: Vec<u8>,
    pub results: Vec<u8>,
}

/// "On every refusal the step count and the sum are 0."
pub fn refused(number: u64, step: usize) -> RunAnswer {
    RunAnswer {
        number,
        step: step as u64,
        count: 0,
        sum: 0.0,
    }
}

/// "Latitude −90..90, longitude −180..180, timezone −13..14, start day 0..365, series step 0.25..24
/// hours, leap year or not, conversion of direct beam or not (each 0 or 1)."
pub const SITE_RANGES: [(f64, f64); 3] = [(-90.0, 90.0), (-180.0, 180.0), (0.25, 24.0)];
pub const TIME_RANGES: [(f64, f64); 3] = [(0.0, 8784.0), (0.0, 8784.0), (0.25, 24.0)];
pub const SURFACE_RANGES: [(f64, f64); 5] = [
    (0.0, 180.0),
    (0.0, 360.0),
    (0.0, 1000.0),
    (0.001, 1000.0),
    (0.001, 1000.0),
];
pub const READING_RANGES: [(f64, f64); 3] = [(0.0, 10_000.0), (0.0, 10_000.0), (0.0, 1.0)];

fn all_within(values: &[f64], ranges: &[(f64, f64)]) -> bool {
    let each = values.iter().zip(ranges);
    each.clone().count() == values.len() && each.into_iter().all(|(&x, &r)| within(x, r).is_some())
}

pub fn site_fine(site: &JobSite) -> bool {
    let doubles = [site.latitude, site.longitude, site.series_step];
    all_within(&doubles, &SITE_RANGES)
        && (-13..=14).contains(&site.timezone)
        && site.start_day <= 365
        && site.leap_year <= 1
        && site.direct_beam_conversion <= 1
}

/// "Start 0..8784, end above 0 and up to 8784, step 0.25..24 (hours)."
fn times_fine(times: &Times) -> bool {
    all_within(times, &TIME_RANGES) && times[1] > 0.0
}

pub fn surface_fine(surface: &Surface) -> bool {
    all_within(surface, &SURFACE_RANGES)
}

pub fn reading_fine(list: usize, value: f64) -> bool {
    within(value, READING_RANGES[list]).is_some()
}

/// "A step's hour not below 8760 (leap 8784)" is refused.
fn hours_of(site: &JobSite) -> u32 {
    if site.leap_year == 1 {
        8784
    } else {
        8760
    }
}

/// One step of a run whose site and times are in range.
#[derive(Clone, Copy)]
pub struct Step {
    pub time: f64,
    pub hour: u32,
    pub day: u32,
    /// The place in the series.
    pub index: usize,
}

/// The steps by the published iterator.
pub fn steps_of(site: &JobSite, times: &Times) -> Vec<Step> {
    let [start, end, step] = *times;
    SimulationTime::new(start, end, step)
        .iter()
        .map(|step| Step {
            time: step.time,
            hour: step.current_hour(),
            day: step.current_day(),
            index: step.time_series_idx(site.start_day as u32, site.series_step),
        })
        .collect()
}

/// The steps of any site and times: none where one of their fields is out of range.
pub fn steps_if_any(site: &JobSite, times: &Times) -> Vec<Step> {
    match site_fine(site) && times_fine(times) {
        true => steps_of(site, times),
        false => vec![],
    }
}

/// Stores doubles one after the other, from the word at that place on. There is one NaN, and this is
/// how it is written.
pub fn store(results: &mut [u8], place: usize, row: &[f64]) {
    for (k, &x) in row.iter().enumerate() {
        let bits = match x.is_nan() {
            true => 0x7FF8_0000_0000_0000u64,
            false => x.to_bits(),
        };
        let at = 8 * (place + k);
        results[at..at + 8].copy_from_slice(&bits.to_le_bytes());
    }
}

/// The lists of objects, in range.
pub struct Lists {
    summer: Vec<ShadingSegment>,
    winter: Vec<ShadingSegment>,
    window: Vec<WindowShadingObject>,
}

/// None where a record of one of them is not as it should be, be it walked along or not.
pub fn lists_of(summer: &[u8], winter: &[u8], window: &[u8]) -> Option<Lists> {
    Some(Lists {
        summer: sectors_of(summer)?,
        winter: sectors_of(winter)?,
        window: window_of(window)?,
    })
}

/// The steps of a run with their readings, and its lists.
type Checked = (Vec<(Step, Readings)>, Lists);

/// Checks 14, 1, 15, then 2 to 7 of a run: what passes them, or the number. Days, totals and results
/// are the lengths that are lent.
fn checked(job: &Job, lengths: [usize; 3]) -> Result<Checked, u64> {
    match edition_fine(job.edition) {
        true => others_checked(job, lengths),
        false => Err(WRONG_EDITION),
    }
}

/// "15 leaf day, either day not 0 to 365, after the site fields and before 2."
fn site_checked(site: &JobSite) -> Result<(), u64> {
    if !site_fine(site) {
        return Err(1);
    }
    match leaf_days_fine(site) {
        true => Ok(()),
        false => Err(WRONG_LEAF_DAY),
    }
}

fn others_checked(job: &Job, [days, totals, results]: [usize; 3]) -> Result<Checked, u64> {
    site_checked(&job.site)?;
    if !times_fine(&job.times) {
        return Err(2);
    }
    let steps = steps_of(&job.site, &job.times);
    if steps.iter().any(|step| step.hour >= hours_of(&job.site)) {
        return Err(2);
    }
    if !surface_fine(&job.surface) {
        return Err(3);
    }
    let lists = lists_of(&job.summer, &job.winter, &job.window).ok_or(4u64)?;
    let series = [0, 1, 2].map(|list: usize| doubles_of(&job.series[list]));
    for list in &series {
        if steps.iter().any(|step| step.index >= list.len()) {
            return Err(5);
        }
    }
    let readings = |step: &Step| [0, 1, 2].map(|list: usize| series[list][step.index]);
    for step in &steps {
        if !all_within(&readings(step), &READING_RANGES) {
            return Err(6);
        }
    }
    // "a list shorter than 8,784 bytes is refusal 7, in a run with no steps too", and so is "a totals
    // list too short for the year"
    let too_short = days < DAYS_LENGTH || totals < totals_needed(job.site.leap_year);
    if too_short || results / 8 < ROW * steps.len() {
        return Err(7);
    }
    let steps = steps.into_iter().map(|step| (step, readings(&step)));
    Ok((steps.collect(), lists))
}

/// The checks of a single step but for its results: its time, or the number. The one with the factor
/// has an edition and lists.
fn single_checked(single: &Single, with_factor: bool) -> Result<(Timestep, Option<Lists>), u64> {
    if with_factor && !edition_fine(single.edition) {
        return Err(WRONG_EDITION);
    }
    site_checked(&single.site)?;
    let step = Timestep {
        index: 0,
        time: single.time,
        step: 1.0,
    };
    let in_year = within(single.time, (0.0, 8784.0)).is_some();
    if !in_year || step.current_hour() >= hours_of(&single.site) {
        return Err(2);
    }
    if !surface_fine(&single.surface) {
        return Err(3);
    }
    let lists = match with_factor {
        true => Some(lists_of(&single.summer, &single.winter, &single.window).ok_or(4u64)?),
        false => None,
    };
    if !all_within(&single.readings, &READING_RANGES) {
        return Err(6);
    }
    Ok((step, lists))
}

/// An hour in the form of the record of one hour.
fn one_hour(
    site: &JobSite,
    surface: &Surface,
    hour: u32,
    [diffuse, direct, reflectivity]: Readings,
) -> OneHour {
    OneHour {
        site: Site {
            latitude: site.latitude,
            longitude: site.longitude,
            timezone: site.timezone as i32,
            conversion_needed: site.direct_beam_conversion == 1,
            tilt: surface[0],
            orientation: surface[1],
        },
        hour,
        diffuse,
        direct,
        reflectivity,
    }
}

/// Moves the site, in that hour, to where the sun is overhead or its altitude about one at which a
/// formula takes another branch, or turns the surface to the sun: where a sum is beyond 1 now and
/// then.
pub fn aim(random: &mut Random, site: &mut JobSite, surface: &mut Surface, hour: u32) {
    let mut aimed = one_hour(site, surface, hour, [0.0; 3]);
    let (overhead, branch) = (random.below(4) == 0, random.below(4) == 0);
    if overhead {
        aimed.sun_overhead(random);
    } else if branch {
        aimed.sun_at_a_branch(random);
    }
    if !branch {
        aimed.face_the_sun(random);
    }
    put_aim(&aimed, site, surface);
}

/// Site and surface as they were aimed, each where it is in range; whether both are.
fn put_aim(aimed: &OneHour, site: &mut JobSite, surface: &mut Surface) -> bool {
    let Site {
        latitude,
        longitude,
        tilt,
        orientation,
        ..
    } = aimed.site;
    let site_fits = all_within(&[latitude, longitude], &SITE_RANGES[..2]);
    if site_fits {
        (site.latitude, site.longitude) = (latitude, longitude);
    }
    let surface_fits = all_within(&[tilt, orientation], &SURFACE_RANGES[..2]);
    if surface_fits {
        surface[..2].copy_from_slice(&[tilt, orientation]);
    }
    site_fits && surface_fits
}

/// The same with the sun square on the glass or overhead in that hour, or else on its back or under
/// the site; for the most part with a sum beyond ±1 where one is nearby. Whether it could be done.
pub fn aim_squarely(
    random: &mut Random,
    site: &mut JobSite,
    surface: &mut Surface,
    hour: u32,
    from_behind: bool,
) -> bool {
    let mut aimed = one_hour(site, surface, hour, [0.0; 3]);
    match from_behind {
        true => aimed.aim_from_behind(random),
        false => aimed.aim_squarely(random),
    }
    put_aim(&aimed, site, surface)
}

/// "Factor times direct times step in hours, the product taken in that order." Every step counts with
/// the run's whole step, also one that passes the end.
pub fn watt_hours(&[_, _, direct, _, _, factor]: &[f64; ROW], step_hours: f64) -> f64 {
    (factor * direct) * step_hours
}

/// A step's factor, or its number, by the list of its season and by that of the other.
#[derive(Clone, Copy)]
pub struct ByBothLists {
    pub day: u32,
    pub summer: bool,
    pub own: Result<f64, u64>,
    pub other: Result<f64, u64>,
}

/// The published record, kept from call to call.
pub struct Judge {
    /// It has the sectors of one season.
    conditions: ExternalConditions,
    edition: u64,
    in_summer: bool,
    /// Those of the other.
    other_sectors: Vec<ShadingSegment>,
    window: Vec<WindowShadingObject>,
    /// The last run's steps whose season has another list than the other season.
    pub by_both_lists: Vec<ByBothLists>,
    /// The walks of the last call, those of steps inside the beam.
    pub walks: Vec<Walked>,
    /// Whether the sums of the hour that the record holds are beyond ±1.
    pub beyond: Beyond,
    /// The hours of the last call, with the same of each.
    pub sums: Vec<(u32, Beyond)>,
    /// The walks of those hours whose altitude's sum was above 1.
    pub overhead: Vec<Walked>,
}

impl Judge {
    pub fn new() -> Self {
        let conditions = sun_at(0.0, 0.0, vec![]);
        Judge {
            conditions,
            edition: EDITION_1,
            in_summer: true,
            other_sectors: vec![],
            window: vec![],
            by_both_lists: vec![],
            walks: vec![],
            beyond: Beyond::default(),
            sums: vec![],
            overhead: vec![],
        }
    }

    pub fn lend(&mut self, edition: u64, lists: Lists) {
        self.edition = edition;
        self.in_summer = true;
        self.conditions.shading_segments = Some(lists.summer);
        self.other_sectors = lists.winter;
        self.window = lists.window;
        self.forget();
    }

    /// Hands the published record the list of that season, all of its records.
    pub fn walk_in(&mut self, summer: bool) {
        if self.in_summer != summer {
            self.in_summer = summer;
            let sectors = self.conditions.shading_segments.as_mut();
            std::mem::swap(sectors.expect("a list was lent"), &mut self.other_sectors);
        }
    }

    /// Notes what the list of the other season would give in the hour that the record holds.
    fn note_both_lists(&mut self, surface: &Surface, day: u32, own: Result<f64, u64>) {
        let summer = self.in_summer;
        self.walk_in(!summer);
        let other = self.factor(surface);
        self.walk_in(summer);
        self.by_both_lists.push(ByBothLists {
            day,
            summer,
            own,
            other,
        });
    }

    /// A call begins.
    fn forget(&mut self) {
        self.by_both_lists.clear();
        self.walks.clear();
        self.sums.clear();
        self.overhead.clear();
    }

    /// The nine doubles of an hour; the record then holds it.
    pub fn hour(
        &mut self,
        site: &JobSite,
        surface: &Surface,
        hour: u32,
        readings: Readings,
    ) -> [f64; IRRADIANCE_ROW] {
        let one = one_hour(site, surface, hour, readings);
        let (answer, beyond) = beyond_in(|| {
            one.fill(&mut self.conditions);
            one.answer(&self.conditions)
        });
        self.beyond = beyond;
        answer.doubles()
    }

    /// Sun and surface at each step, and its day, where site, times and surface are in range.
    pub fn suns(
        &mut self,
        site: &JobSite,
        times: &Times,
        surface: &Surface,
    ) -> Vec<(u32, Numbers)> {
        let steps = match surface_fine(surface) {
            true => steps_if_any(site, times),
            false => vec![],
        };
        let in_year = steps.iter().filter(|step| step.hour < hours_of(site));
        let [tilt, orientation, base_height, height, width] = *surface;
        in_year
            .map(|step| {
                let row = self.hour(site, surface, step.hour, [0.0; 3]);
                let numbers = [
                    row[0],
                    row[1],
                    tilt,
                    orientation,
                    base_height,
                    height,
                    width,
                ];
                (step.day, numbers)
            })
            .collect()
    }

    /// The same for an engine that has other values of the day.
    pub fn hour_by_day(
        &mut self,
        site: &JobSite,
        surface: &Surface,
        hour: u32,
        readings: Readings,
        day: DayValues,
    ) -> [f64; IRRADIANCE_ROW] {
        let one = one_hour(site, surface, hour, readings);
        one.fill_by(day, &mut self.conditions);
        one.answer(&self.conditions).doubles()
    }

    /// The same for an engine that takes a sum beyond ±1 otherwise.
    pub fn hour_otherwise(
        &mut self,
        site: &JobSite,
        surface: &Surface,
        hour: u32,
        readings: Readings,
        way: Otherwise,
    ) -> [f64; IRRADIANCE_ROW] {
        let one = one_hour(site, surface, hour, readings);
        one.answer_otherwise(&mut self.conditions, way).doubles()
    }

    /// The factor in the hour that the record holds, or the number.
    fn factor(&self, surface: &Surface) -> Result<f64, u64> {
        let (conditions, edition) = (&self.conditions, self.edition);
        factor_by(conditions, edition, surface, &self.window, FIRST_STEP)
    }

    /// One row of a run, or the number; `lend` comes before it.
    pub fn row(
        &mut self,
        site: &JobSite,
        surface: &Surface,
        hour: u32,
        readings: Readings,
    ) -> Result<[f64; ROW], u64> {
        let doubles = self.hour(site, surface, hour, readings);
        self.sums.push((hour, self.beyond));
        self.row_of(surface, doubles)
    }

    /// The row of the hour that the record holds.
    pub fn row_of(
        &mut self,
        surface: &Surface,
        [altitude, azimuth, direct, diffuse, total, ..]: [f64; IRRADIANCE_ROW],
    ) -> Result<[f64; ROW], u64> {
        let factor = self.factor(surface);
        let number = factor.err().unwrap_or(0);
        let orientation = Orientation360(surface[1]);
        let walk = walked(&self.conditions, surface[0], orientation, number);
        self.walks.extend(walk);
        if self.beyond.arcsine_above {
            self.overhead.extend(walk);
        }
        Ok([altitude, azimuth, direct, diffuse, total, factor?])
    }

    /// The row of a run's step, by the list of its day.
    fn row_of_step(
        &mut self,
        job: &Job,
        seasons: &Seasons,
        step: Step,
        readings: Readings,
    ) -> Result<[f64; ROW], u64> {
        self.walk_in(seasons.is_summer(step.day));
        let row = self.row(&job.site, &job.surface, step.hour, readings);
        if job.summer != job.winter {
            self.note_both_lists(&job.surface, step.day, row.map(|row| row[5]));
        }
        row
    }

    /// A run, and what it leaves in the table of days, in the totals and in the results.
    pub fn run(
        &mut self,
        job: &Job,
        days: &mut [u8],
        totals: &mut [u8],
        results: &mut [u8],
    ) -> RunAnswer {
        self.forget();
        let lengths = [days.len(), totals.len(), results.len()];
        let (steps, lists) = match checked(job, lengths) {
            Ok(all) => all,
            Err(number) => return refused(number, 0),
        };
        fill_days(days);
        self.lend(job.edition, lists);
        let seasons = Seasons::of(&job.site);
        let [.., step_hours] = job.times;
        let mut rows = vec![];
        let mut answer = RunAnswer {
            number: 0,
            step: 0,
            count: steps.len() as u64,
            sum: 0.0,
        };
        for (k, &(step, readings)) in steps.iter().enumerate() {
            match self.row_of_step(job, &seasons, step, readings) {
                Ok(row) => {
                    store(results, ROW * k, &row);
                    answer.sum += watt_hours(&row, step_hours);
                    rows.push((step, row));
                }
                Err(number) => {
                    answer = refused(number, k);
                    break;
                }
            }
        }
        keep_totals(&job.site, step_hours, &rows, totals);
        answer
    }

    /// The same, and what it leaves in copies of the job's own lists.
    pub fn run_on_copies(&mut self, job: &Job) -> Left<RunAnswer> {
        let (mut days, mut totals, mut results) =
            (job.days.clone(), job.totals.clone(), job.results.clone());
        let answer = self.run(job, &mut days, &mut totals, &mut results);
        Left {
            answer,
            days,
            totals,
            results,
        }
    }

    pub fn step(&mut self, single: &Single, results: &mut [u8]) -> u64 {
        self.forget();
        let (step, lists) = match single_checked(single, true) {
            Ok(all) => all,
            Err(number) => return number,
        };
        if results.len() / 8 < ROW {
            return 7;
        }
        self.lend(single.edition, lists.expect("the lists were asked for"));
        self.walk_in(Seasons::of(&single.site).is_summer(step.current_day()));
        let (site, surface) = (&single.site, &single.surface);
        match self.row(site, surface, step.current_hour(), single.readings) {
            Ok(row) => {
                store(results, 0, &row);
                0
            }
            Err(number) => number,
        }
    }

    pub fn irradiance(&mut self, single: &Single, results: &mut [u8]) -> u64 {
        self.forget();
        let hour = match single_checked(single, false) {
            Ok((step, _)) => step.current_hour(),
            Err(number) => return number,
        };
        if results.len() / 8 < IRRADIANCE_ROW {
            return 7;
        }
        let row = self.hour(&single.site, &single.surface, hour, single.readings);
        self.sums.push((hour, self.beyond));
        store(results, 0, &row);
        0
    }
}

/// The published record of a whole job.
fn conditions_by_new(
    job: &Job,
    times: &SimulationTime,
    sectors: Vec<ShadingSegment>,
) -> ExternalConditions {
    let site = &job.site;
    let [diffuse, direct, reflectivity] =
        [0, 1, 2].map(|list: usize| doubles_of(&job.series[list]));
    ExternalConditions::new(
        &times.iter(),
        vec![],
        vec![],
        vec![],
        diffuse,
        direct,
        reflectivity,
        site.latitude,
        site.longitude,
        site.timezone as i32,
        site.start_day as u32,
        None,
        site.series_step,
        None,
        None,
        site.leap_year == 1,
        site.direct_beam_conversion == 1,
        Some(sectors),
    )
}

/// The row of one step by a record of a whole job, or the number.
fn row_by_new(
    conditions: &ExternalConditions,
    edition: u64,
    surface: &Surface,
    window: &[WindowShadingObject],
    step: Timestep,
) -> Result<[f64; ROW], u64> {
    let hour = step.current_hour() as usize;
    let CalculatedDirectDiffuseTotalIrradiance(direct, diffuse, total, _) = conditions
        .calculated_direct_diffuse_total_irradiance(
            surface[0],
            Orientation360(surface[1]),
            false,
            step,
        );
    let altitude = conditions.solar_altitudes[hour];
    let azimuth = conditions.solar_azimuth_angles[hour];
    let factor = factor_by(conditions, edition, surface, window, step)?;
    Ok([altitude, azimuth, direct, diffuse, total, factor])
}

/// The lists of sectors that the steps of a job go by: one where both are equal, or where all of its
/// steps are of one season.
pub fn lists_walked(job: &Job) -> usize {
    let seasons = Seasons::of(&job.site);
    let steps = steps_of(&job.site, &job.times);
    let summers = steps.iter().filter(|step| seasons.is_summer(step.day));
    let one_season = [0, steps.len()].contains(&summers.count());
    match one_season || job.summer == job.winter {
        true => 1,
        false => 2,
    }
}

/// The rows of a job that passes the checks, by the published record of the whole job and its own
/// steps; the number of a refusal in place of the first row that is refused. The record has one list of
/// sectors: it is made with that of the first step, and where a job goes by two lists it is handed the
/// other at each change of season.
pub fn rows_by_new(job: &Job) -> Vec<Result<[f64; ROW], u64>> {
    let [start, end, step] = job.times;
    let times = SimulationTime::new(start, end, step);
    let lists = lists_of(&job.summer, &job.winter, &job.window).expect("lists in range");
    let seasons = Seasons::of(&job.site);
    let list_of = |day: u32| match seasons.is_summer(day) {
        true => lists.summer.clone(),
        false => lists.winter.clone(),
    };
    let first = times.iter().next().map_or(0, |step| step.current_day());
    let mut conditions = conditions_by_new(job, &times, list_of(first));
    let both = lists_walked(job) == 2;
    let mut day = first;
    let mut rows = vec![];
    for step in times.iter() {
        if both && step.current_day() != day {
            day = step.current_day();
            conditions.shading_segments = Some(list_of(day));
        }
        let row = row_by_new(&conditions, job.edition, &job.surface, &lists.window, step);
        rows.push(row);
        if row.is_err() {
            break;
        }
    }
    rows
}
