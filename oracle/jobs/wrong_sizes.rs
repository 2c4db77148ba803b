//! What engines that break a law about sizes do: the factor by a flaw of its own, or something else that
//! goes by the sizes.

use super::wrong::Lawless::{self, *};
use crate::published::jobs::*;
use crate::published::seasons::Seasons;
use crate::published::shading::outside_beam;
use crate::shading::wrong::{Flaw, Plain};

/// The flaws of the factor.
const FLAWS: [(Lawless, Flaw); 11] = [
    (TallDistantObstacleDropped, Flaw::TallDistantObstacleDropped),
    (
        CloseDistantObstacleDropped,
        Flaw::CloseDistantObstacleDropped,
    ),
    (DeepWindowOverhangDropped, Flaw::DeepWindowOverhangDropped),
    (TallNearObstacleDropped, Flaw::TallNearObstacleDropped),
    (CloseNearObstacleDropped, Flaw::CloseNearObstacleDropped),
    (ClearTakenAsOpaque, Flaw::ClearTakenAsOpaque),
    (LowDistantOverhangDropped, Flaw::LowDistantOverhangDropped),
    (FarDistantOverhangDropped, Flaw::FarDistantOverhangDropped),
    (
        WindowOverhangAtTheEdgeDropped,
        Flaw::WindowOverhangAtTheEdgeDropped,
    ),
    (FinAtTheEdgeDropped, Flaw::FinAtTheEdgeDropped),
    (DeepFinDropped, Flaw::DeepFinDropped),
];

/// The factor of a step by its flaw, if it is one of these; outside the beam, where the sun may be out of
/// the factor's range, it stays.
pub fn factor_by_size(way: u16, job: &Job, step: &Step, row: &[f64]) -> f64 {
    let Some(&(_, flaw)) = FLAWS.iter().find(|(lawless, _)| lawless.is(way)) else {
        return row[5];
    };
    let mut call = job.objects(Seasons::of(&job.site).is_summer(step.day));
    call.numbers[..2].copy_from_slice(&row[..2]);
    call.numbers[2..].copy_from_slice(&job.surface);
    match outside_beam(&call.numbers) {
        true => row[5],
        false => Plain { flaw }.factor(&call).unwrap_or(row[5]),
    }
}

/// 0 or 1, as it happens with these sizes.
pub fn by_the_sizes(job: &Job) -> u64 {
    let lists = [&job.summer, &job.winter, &job.window];
    let bytes = lists.into_iter().flatten();
    bytes.fold(0, |sum, &byte| sum + byte as u64) % 2
}

/// What becomes of a refusal.
pub fn refusal_by_size(way: u16, job: &Job, answer: &mut RunAnswer) {
    let by = by_the_sizes(job);
    if StepOfRefusalByTheSizes.is(way) {
        answer.step = answer.step.saturating_sub(by);
    }
    if NumberOfRefusalByTheSizes.is(way) && answer.number >= 8 {
        answer.number ^= by;
    }
}

/// What becomes of the table of days.
pub fn days_by_size(way: u16, job: &Job, days: &mut [u8]) {
    if let (Some(byte), true) = (days.first_mut(), TableOfDaysByTheSizes.is(way)) {
        *byte ^= by_the_sizes(job) as u8;
    }
}
