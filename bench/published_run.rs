//! A whole run by the published Rust in its original form: the tables of all hours of the year
//! first, then step by step. In edition 2 the factor is the second copy of the published one.
//!
//! Functions and fields of the published items are private to the module they stand in: this one.

use crate::pilgartze::EDITION_1;
use crate::stand_ins::StandIns;
use crate::support::{anyhow, Mutex};
use crate::{DistantObject, Job, Row, Sector, Series, WindowObject, SITE, SURFACE};
use std::collections::HashMap;
use std::sync::{Arc, OnceLock};

include!(env!("ORACLE_PUBLISHED_ITEMS"));

#[path = "../oracle/published/fins.rs"]
mod fins;

/// What the record takes over; made before a run, so that copying it does not count.
pub struct Given {
    series: Series,
    sectors: Vec<ShadingSegment>,
    window: Vec<WindowShadingObject>,
}

fn angle(degrees: f64) -> Orientation360 {
    Orientation360::new(degrees).expect("an angle from 0 to 360")
}

fn distant_object(&(kind, height, distance): &DistantObject) -> ShadingObject {
    ShadingObject {
        object_type: match kind {
            0 => ShadingObjectType::Obstacle,
            _ => ShadingObjectType::Overhang,
        },
        height,
        distance,
    }
}

fn segment(sector: &Sector) -> ShadingSegment {
    ShadingSegment {
        start360: angle(sector.start),
        end360: angle(sector.end),
        shading_objects: sector.objects.iter().map(distant_object).collect(),
    }
}

fn window_object(&(kind, depth, distance, transparency): &WindowObject) -> WindowShadingObject {
    match kind {
        0 => WindowShadingObject::Obstacle {
            height: depth,
            distance,
            transparency,
        },
        1 => WindowShadingObject::Overhang { depth, distance },
        2 => WindowShadingObject::SideFinRight { depth, distance },
        _ => WindowShadingObject::SideFinLeft { depth, distance },
    }
}

/// The record has one list of sectors: that of summer or that of winter.
pub fn given(job: &Job, sectors: &[Sector]) -> Given {
    Given {
        series: job.series.clone(),
        sectors: sectors.iter().map(segment).collect(),
        window: job.window.iter().map(window_object).collect(),
    }
}

/// The tables of all hours of the year.
#[inline(always)] // a part of the run, measured with it
fn conditions(
    time: &SimulationTime,
    series: Series,
    sectors: Vec<ShadingSegment>,
) -> ExternalConditions {
    ExternalConditions::new(
        &time.iter(),
        vec![],
        vec![],
        vec![],
        series.diffuse,
        series.direct,
        series.reflectivity,
        SITE.latitude,
        SITE.longitude,
        SITE.timezone,
        0,
        None,
        1.0,
        None,
        None,
        false,
        SITE.conversion_needed,
        Some(sectors),
    )
}

/// The row of each step, and the sum of factor times direct times step.
pub fn run(job: &Job, given: Given, rows: &mut Vec<Row>) -> anyhow::Result<f64> {
    let time = SimulationTime::new(job.start, job.end, job.step);
    let year = conditions(&time, given.series, given.sectors);
    let orientation = angle(SURFACE.orientation);
    let factor = match job.edition {
        EDITION_1 => ExternalConditions::direct_shading_reduction_factor,
        _ => ExternalConditions::direct_shading_reduction_factor_edition_2,
    };
    let mut sum = 0.0;
    rows.clear();
    for step in time.iter() {
        let hour = step.current_hour() as usize;
        let CalculatedDirectDiffuseTotalIrradiance(direct, diffuse, total, _) =
            year.calculated_direct_diffuse_total_irradiance(SURFACE.tilt, orientation, false, step);
        let factor = factor(
            &year,
            SURFACE.base_height,
            SURFACE.height,
            SURFACE.width,
            SURFACE.tilt,
            orientation,
            Some(&given.window),
            step,
        )?;
        rows.push([
            year.solar_altitudes[hour],
            year.solar_azimuth_angles[hour],
            direct,
            diffuse,
            total,
            factor,
        ]);
        sum += (factor * direct) * job.step;
    }
    Ok(sum)
}
