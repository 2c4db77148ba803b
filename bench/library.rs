//! Runs and single steps by the library.

use crate::pilgartze::{self, *};
use crate::{Job, Row, Series};

/// A job as the library takes it: lists of bytes, and room for the days, the totals and the results.
pub struct Lent<'a> {
    job: &'a Job,
    diffuse: Vec<u8>,
    direct: Vec<u8>,
    reflectivity: Vec<u8>,
    summer: Vec<u8>,
    /// None where it is the summer's: then that is lent twice.
    winter: Option<Vec<u8>>,
    window: Vec<u8>,
    days: Vec<u8>,
    totals: Vec<u8>,
    results: Vec<u8>,
}

const SITE: Site = Site {
    latitude: crate::SITE.latitude,
    longitude: crate::SITE.longitude,
    timezone: crate::SITE.timezone as i64,
    start_day: 0,
    series_step: 1.0,
    leap_year: 0,
    direct_beam_conversion: crate::SITE.conversion_needed as u64,
    first_leaf_day: crate::SITE.first_leaf_day,
    last_leaf_day: crate::SITE.last_leaf_day,
};

const SURFACE: Surface = Surface {
    tilt: crate::SURFACE.tilt,
    orientation: crate::SURFACE.orientation,
    base_height: crate::SURFACE.base_height,
    height: crate::SURFACE.height,
    width: crate::SURFACE.width,
};

fn sectors(list: &[crate::Sector]) -> Vec<u8> {
    list.iter()
        .flat_map(|each| sector(each.start, each.end, &each.objects))
        .collect()
}

impl<'a> Lent<'a> {
    pub fn new(job: &'a Job, steps: usize) -> Self {
        let Series {
            diffuse,
            direct,
            reflectivity,
        } = &job.series;
        let window = job.window.iter();
        Lent {
            job,
            diffuse: bytes_of(diffuse),
            direct: bytes_of(direct),
            reflectivity: bytes_of(reflectivity),
            summer: sectors(&job.summer),
            winter: job.winter.as_deref().map(sectors),
            window: window
                .flat_map(|&(kind, size, distance, through)| {
                    window_object(kind, size, distance, through)
                })
                .collect(),
            days: vec![0; DAYS_LENGTH],
            totals: vec![0; totals_length(SITE.leap_year)],
            results: vec![0; steps * size_of::<Row>()],
        }
    }

    /// The number of steps and the sum, or the refusal in words.
    pub fn run(&mut self) -> Result<(usize, f64), String> {
        let times = RunTimes {
            start: self.job.start,
            end: self.job.end,
            step: self.job.step,
        };
        let weather = Weather {
            diffuse: &self.diffuse,
            direct: &self.direct,
            reflectivity: &self.reflectivity,
        };
        let shading = Shading {
            edition: self.job.edition,
            summer: &self.summer,
            winter: self.winter.as_ref().unwrap_or(&self.summer),
            window: &self.window,
        };
        let (days, totals, results) = (&mut self.days, &mut self.totals, &mut self.results);
        match pilgartze::run(
            &SITE, &times, &SURFACE, weather, shading, days, totals, results,
        ) {
            Ok(Accepted { count, sum }) => Ok((count, sum)),
            Err(Refused { refusal, step }) => Err(format!("{refusal} at step {step}")),
        }
    }

    /// The first step of the job, by the call for one step.
    pub fn step(&mut self) -> Result<(), String> {
        let series = &self.job.series;
        let (time, hour) = (self.job.start, self.job.start as usize);
        let reading = Reading {
            diffuse: series.diffuse[hour],
            direct: series.direct[hour],
            reflectivity: series.reflectivity[hour],
        };
        let shading = Shading {
            edition: self.job.edition,
            summer: &self.summer,
            winter: self.winter.as_ref().unwrap_or(&self.summer),
            window: &self.window,
        };
        let results = &mut self.results;
        pilgartze::step(&SITE, time, &SURFACE, &reading, shading, results)
            .map_err(|refusal| refusal.to_string())
    }

    /// The rows of the results.
    pub fn rows(&self) -> Vec<Row> {
        let doubles = doubles_of(&self.results);
        let rows = doubles.chunks_exact(ROW);
        rows.map(|row| row.try_into().expect("a row")).collect()
    }

    /// Factor times direct over the rows. Archives up to 2.0.0 answer it as the run's sum, later ones
    /// have the step in that: this is what one can be held to beside the other.
    pub fn shaded(&self) -> f64 {
        let rows = self.rows();
        rows.iter().fold(0.0, |sum, row| sum + row[5] * row[2])
    }
}
