//! Sums of products that round beyond ±1: how often they were met in what was compared, and how
//! many cases were aimed at them.
//!
//! The published Rust asks an arccosine of the incidence's sum alone. It asks an arcsine of the
//! altitude's sum, of a sine, and of the product of a cosine and a sine; the last two are never
//! beyond ±1.

use crate::comparison::{Outcome, Settings};
use crate::stand_ins::Beyond;

/// How many cases had each sum above 1 and below −1.
#[derive(Clone, Copy, Default)]
pub struct Sums {
    altitude: [u64; 2],
    incidence: [u64; 2],
}

impl Sums {
    pub fn note(&mut self, beyond: Beyond) {
        self.altitude[0] += beyond.arcsine_above as u64;
        self.altitude[1] += beyond.arcsine_below as u64;
        self.incidence[0] += beyond.arccosine_above as u64;
        self.incidence[1] += beyond.arccosine_below as u64;
    }

    /// Prints them; none of a kind is an error.
    pub fn report(&self, settings: &Settings, name: &str) -> Outcome {
        self.report_altitude(settings, name)?;
        one_report(settings, name, "incidence", self.incidence)
    }

    /// Those of the altitude, where there is no surface.
    pub fn report_altitude(&self, settings: &Settings, name: &str) -> Outcome {
        one_report(settings, name, "altitude", self.altitude)
    }
}

fn one_report(settings: &Settings, name: &str, angle: &str, counts: [u64; 2]) -> Outcome {
    for (side, count) in ["above 1", "below -1"].iter().zip(counts) {
        let what = format!("{name}, {angle}'s sum {side}");
        if count == 0 {
            return Err(format!("{what}: none was met"));
        }
        settings.detail(&what, count);
    }
    Ok(())
}

/// How many cases were aimed at the sun square on the glass or overhead.
#[derive(Clone, Copy, Default)]
pub struct Aimed {
    all: u64,
    aimed: u64,
    above: u64,
}

impl Aimed {
    /// `beyond` of the hour that the case was aimed at.
    pub fn note(&mut self, aimed: bool, beyond: Beyond) {
        let above = beyond.arcsine_above || beyond.arccosine_above;
        self.all += 1;
        self.aimed += aimed as u64;
        self.above += (aimed && above) as u64;
    }

    /// Prints them; less than a third of all, or none with a sum above 1, is an error.
    pub fn report(&self, settings: &Settings, name: &str) -> Outcome {
        let Aimed { all, aimed, above } = *self;
        if 3 * aimed < all {
            return Err(format!("{name}: aimed at the sun {aimed} of {all}"));
        }
        if above == 0 {
            return Err(format!("{name}: aimed at the sun, no sum above 1"));
        }
        settings.detail(&format!("{name}, aimed at the sun (of {all})"), aimed);
        settings.detail(&format!("{name}, aimed, with a sum above 1"), above);
        Ok(())
    }
}
