//! The published record of external conditions: for a single hour, with the sun where it is wanted
//! or where it is in that hour, and for a whole year.
//!
//! `ExternalConditions::new` works out every hour of a year, which takes milliseconds; for one hour
//! the fields that are read are enough.

use super::days::{day_values, DayValues};
use super::*;
use crate::probes::{ProbeHour, YEAR, YEAR_COLUMNS};

pub fn angle(degrees: f64) -> Orientation360 {
    Orientation360::new(degrees).expect("an angle from 0 to 360")
}

pub(super) fn sector(start: f64, end: f64, objects: Vec<ShadingObject>) -> ShadingSegment {
    ShadingSegment {
        start360: angle(start),
        end360: angle(end),
        shading_objects: objects,
    }
}

/// Hour 0 of the year; fields that the factor does not read are 0.
pub fn sun_at(altitude: f64, azimuth: f64, sectors: Vec<ShadingSegment>) -> ExternalConditions {
    ExternalConditions {
        air_temps: vec![],
        air_temp_annual: OnceLock::new(),
        air_temps_monthly: Default::default(),
        wind_speeds: vec![],
        wind_directions: vec![],
        diffuse_horizontal_radiations: vec![0.0],
        direct_beam_radiations: vec![0.0],
        solar_reflectivity_of_ground: vec![0.0],
        latitude: 0.0,
        longitude: 0.0,
        timezone: 0,
        start_day: 0,
        time_series_step: 1.0,
        shading_segments: Some(sectors),
        solar_declinations: vec![0.0],
        solar_hour_angles: vec![0.0],
        solar_altitudes: vec![altitude],
        solar_zenith_angles: vec![init_solar_zenith_angle(altitude)],
        solar_azimuth_angles: vec![azimuth],
        f1_circumsolar_brightness_coefficients: vec![0.0],
        f2_horizontal_brightness_coefficients: vec![0.0],
    }
}

/// The step whose hour that is.
pub const FIRST_STEP: Timestep = Timestep {
    index: 0,
    time: 0.0,
    step: 1.0,
};

/// A site, a surface that faces some way, and how the beam is given.
#[derive(Clone, Copy)]
pub struct Site {
    pub latitude: f64,
    pub longitude: f64,
    pub timezone: i32,
    pub conversion_needed: bool,
    pub tilt: f64,
    pub orientation: f64,
}

impl Site {
    /// The orientation as it is, outside 0 to 360 too: the formulas do not look at the range.
    fn orientation(&self) -> Orientation360 {
        Orientation360(self.orientation)
    }
}

/// One hour of the year at a site, with its three readings.
#[derive(Clone, Copy)]
pub struct OneHour {
    pub site: Site,
    /// From 0 to 8783.
    pub hour: u32,
    pub diffuse: f64,
    pub direct: f64,
    pub reflectivity: f64,
}

impl OneHour {
    /// What `ExternalConditions::new` works out for that hour, put at place 0 of the record's
    /// lists, so that it is the hour of the first step.
    pub fn fill(&self, record: &mut ExternalConditions) {
        self.fill_by(self.day(), record);
    }

    /// What the day alone decides.
    pub(super) fn day(&self) -> DayValues {
        day_values(self.hour / 24)
    }

    /// The same by the values of some day.
    pub(super) fn fill_by(&self, day: DayValues, record: &mut ExternalConditions) {
        record.latitude = self.site.latitude;
        record.longitude = self.site.longitude;
        record.timezone = self.site.timezone;
        record.diffuse_horizontal_radiations[0] = self.diffuse;
        record.solar_reflectivity_of_ground[0] = self.reflectivity;
        self.fill_sun(day, record);
        self.fill_sky(day, record);
    }

    /// The sun's angles.
    fn fill_sun(&self, day: DayValues, record: &mut ExternalConditions) {
        let Site {
            latitude,
            longitude,
            timezone,
            ..
        } = self.site;
        let [declination, equation_of_time, _] = day;
        let solar_time = init_solar_time(
            self.hour % 24,
            equation_of_time,
            init_time_shift(timezone, longitude),
            self.hour,
        );
        let hour_angle = init_solar_hour_angle(solar_time);
        let altitude = init_solar_altitude(latitude, declination, hour_angle);

        record.solar_declinations[0] = declination;
        record.solar_hour_angles[0] = hour_angle;
        record.solar_altitudes[0] = altitude;
        record.solar_zenith_angles[0] = init_solar_zenith_angle(altitude);
        record.solar_azimuth_angles[0] =
            init_solar_azimuth_angle(latitude, declination, hour_angle, altitude);
    }

    /// The beam and the coefficients of brightness, by the sun's angles that the record holds.
    pub(super) fn fill_sky(&self, day: DayValues, record: &mut ExternalConditions) {
        let (altitude, zenith) = (record.solar_altitudes[0], record.solar_zenith_angles[0]);
        let beam = init_direct_beam_radiation(self.site.conversion_needed, self.direct, altitude);
        let clearness = init_dimensionless_clearness_parameter(self.diffuse, beam, altitude);
        let [_, _, radiation] = day;
        let delta = init_dimensionless_sky_brightness_parameter(
            init_air_mass(altitude),
            self.diffuse,
            radiation,
        );

        record.direct_beam_radiations[0] = beam;
        record.f1_circumsolar_brightness_coefficients[0] =
            init_f1_circumsolar_brightness_coefficient(clearness, delta, zenith);
        record.f2_horizontal_brightness_coefficients[0] =
            init_f2_horizontal_brightness_coefficient(clearness, delta, zenith);
    }

    pub fn record(&self) -> ExternalConditions {
        let mut record = sun_at(0.0, 0.0, vec![]);
        self.fill(&mut record);
        record
    }

    /// The irradiance by a record that holds this hour.
    pub fn answer(&self, record: &ExternalConditions) -> ProbeHour {
        let CalculatedDirectDiffuseTotalIrradiance(direct, diffuse, total, breakdown) = record
            .calculated_direct_diffuse_total_irradiance(
                self.site.tilt,
                self.site.orientation(),
                true,
                FIRST_STEP,
            );
        let parts = breakdown.expect("the breakdown was asked for");
        ProbeHour {
            altitude: record.solar_altitudes[0],
            azimuth: record.solar_azimuth_angles[0],
            direct,
            diffuse,
            total,
            sky: parts.sky,
            circumsolar: parts.circumsolar,
            horizontal: parts.horiz,
            ground: parts.ground_refl,
        }
    }
}

/// The three series of a year, a value for each hour.
#[derive(Clone)]
pub struct Series {
    pub diffuse: Vec<f64>,
    pub direct: Vec<f64>,
    pub reflectivity: Vec<f64>,
}

/// The run over all hours of a year, hour by hour.
pub fn hours_of_a_year(leap: bool) -> SimulationTime {
    SimulationTime::new(0.0, if leap { 8784.0 } else { 8760.0 }, 1.0)
}

/// The record of a whole year, by the published `new`.
pub fn whole_year(site: &Site, series: Series, leap: bool) -> ExternalConditions {
    ExternalConditions::new(
        &hours_of_a_year(leap).iter(),
        vec![],
        vec![],
        vec![],
        series.diffuse,
        series.direct,
        series.reflectivity,
        site.latitude,
        site.longitude,
        site.timezone,
        0,
        None,
        1.0,
        None,
        None,
        leap,
        site.conversion_needed,
        Some(vec![sector(0.0, 360.0, vec![])]),
    )
}

/// Altitude, azimuth, direct, diffuse and total for each hour of a year, as the published Rust has
/// them: tables of the whole year first, then step by step.
pub fn year_results(site: &Site, series: Series, results: &mut Vec<[f64; YEAR_COLUMNS]>) {
    let year = whole_year(site, series, false);
    results.clear();
    results.reserve(YEAR);
    for step in hours_of_a_year(false).iter() {
        let hour = step.current_hour() as usize;
        let CalculatedDirectDiffuseTotalIrradiance(direct, diffuse, total, _) = year
            .calculated_direct_diffuse_total_irradiance(site.tilt, site.orientation(), false, step);
        results.push([
            year.solar_altitudes[hour],
            year.solar_azimuth_angles[hour],
            direct,
            diffuse,
            total,
        ]);
    }
}
