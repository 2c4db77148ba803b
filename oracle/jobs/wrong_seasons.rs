//! What the plain engine, and those that are wrong in one small way, do about leaf days and seasons: by
//! comparisons of numbers, where the judge lists the days.

use super::wrong::{Flaw, Flaw::*, Plain};
use crate::published::jobs::*;
use crate::published::seasons::WRONG_LEAF_DAY;
use crate::published::shading::SECTOR_WORDS;
use crate::published::totals::month_of;

const RECORD: usize = 8 * SECTOR_WORDS;

/// Which call is under way, as each has flaws of its own.
#[derive(Clone, Copy, PartialEq)]
pub enum By {
    Run,
    Step,
    Irradiance,
}

impl Plain {
    /// Whether it is the flaw of this call.
    fn is_of(&self, by: By, [run, step]: [Flaw; 2]) -> bool {
        self.is(if by == By::Run { run } else { step })
    }

    // --- Leaf days ---

    fn leaf_day_fine(&self, by: By, site: &JobSite, day: u64) -> bool {
        let common = site.leap_year == 0;
        let taken = match by {
            By::Run => LeafDay366Taken,
            By::Step => StepLeafDay366Taken,
            By::Irradiance => IrradianceLeafDay366Taken,
        };
        match day {
            0 if self.is(LeafDay0Refused) => false,
            365 if self.is(LeafDay365Refused) => false,
            365 if self.is(LeafDay365RefusedInACommonYear) => !common,
            366 if self.is(taken) => true,
            _ if self.is(LeafDayOfFourBytes) => day as u32 <= 365,
            _ if self.is(LeafDayAsASignedNumber) => day as i64 <= 365,
            _ => day <= 365,
        }
    }

    pub fn leaf_days_wrong(&self, by: By, site: &JobSite, equal_lists: bool) -> bool {
        let (first, last) = (site.first_leaf_day, site.last_leaf_day);
        let [none, no_first, no_last] = match by {
            By::Run => [
                LeafDaysNotChecked,
                FirstLeafDayNotChecked,
                LastLeafDayNotChecked,
            ],
            By::Step => [
                StepLeafDaysNotChecked,
                StepFirstLeafDayNotChecked,
                StepLastLeafDayNotChecked,
            ],
            By::Irradiance => [
                IrradianceLeafDaysNotChecked,
                IrradianceFirstLeafDayNotChecked,
                IrradianceLastLeafDayNotChecked,
            ],
        };
        if self.is(none) || self.is(LeafDaysNotCheckedWithEqualLists) && equal_lists {
            return false;
        }
        let turned = self.is(TurnedLeafDaysRefused) && first > last
            || self.is(IrradianceTurnedLeafDaysRefused) && first > last;
        turned
            || !self.is(no_first) && !self.leaf_day_fine(by, site, first)
            || !self.is(no_last) && !self.leaf_day_fine(by, site, last)
    }

    /// 15 in its place among the checks of a run, which came to this without it.
    pub fn with_leaf_days<T>(&self, job: &Job, others: Result<Vec<T>, u64>) -> Result<Vec<T>, u64> {
        if !self.leaf_days_wrong(By::Run, &job.site, job.summer == job.winter) {
            return others;
        }
        let late = self.is(LeafDayAfterResults) || self.is(LeafDayAtTheFirstStep);
        match others {
            Err(1) if !self.is(LeafDayBeforeSite) => Err(1),
            Err(2) if self.is(LeafDayAfterRun) => Err(2),
            Err(2 | 3) if self.is(LeafDayAfterSurface) => others,
            Err(_) if late => others,
            Ok(steps) if self.is(LeafDayAtTheFirstStep) && steps.is_empty() => Ok(steps),
            _ => Err(WRONG_LEAF_DAY),
        }
    }

    // --- The season of a step ---

    /// The day, from 0, by which a step has its season.
    fn day_of_the_season(&self, by: By, site: &JobSite, step: &Step, hours: f64) -> u64 {
        let time = match () {
            _ if self.is_of(by, [SeasonByTheRoundedTime, StepSeasonByTheRoundedTime]) => {
                step.time.round()
            }
            _ if self.is(SeasonByTheStepsEnd) => step.time + hours,
            _ if self.is(SeasonByTheStepsMiddle) => step.time + hours / 2.0,
            _ => step.time,
        };
        let day = (time / 24.0) as u64;
        let (leap, march) = (site.leap_year == 1, day >= 59);
        match () {
            _ if self.is_of(by, [SeasonDaysFromOne, StepSeasonDaysFromOne]) => day + 1,
            _ if self.is_of(by, [SeasonFromTheStartDay, StepSeasonFromTheStartDay]) => {
                day.saturating_sub(site.start_day)
            }
            _ if self.is(SeasonByThePlaceInTheSeries) => step.index as u64 / 24,
            _ if self.is(SeasonPassesOverTheLeapDay) => day - (leap && march) as u64,
            _ if self.is(SeasonCountsALeapDayAlways) => day + (!leap && march) as u64,
            _ if self.is(SeasonOfDay365OfThatBefore) => day.min(364),
            _ if self.is(SeasonOfDay365OfTheFirst) => day % 365,
            _ if self.is(SeasonByOneByteOfTheDay) => day & 0xFF,
            _ => day,
        }
    }

    fn is_turned_summer(&self, by: By, first: u64, last: u64, day: u64) -> bool {
        let without_last = self.is(TurnedSummerWithoutItsLastDay);
        let without_first = self.is(TurnedSummerWithoutItsFirstDay);
        match () {
            _ if self.is_of(by, [TurnedSummerNotWrapped, StepTurnedSummerNotWrapped]) => false,
            _ if self.is(TurnedSummerBetween) => last <= day && day <= first,
            _ if self.is(TurnedSummerFromFirstAlone) => first <= day,
            _ if self.is(TurnedSummerUpToLastAlone) => day <= last,
            _ if self.is(OneAboveTheOtherNoSummer) && first == last + 1 => false,
            _ => {
                first + without_first as u64 <= day || day <= last && !(without_last && day == last)
            }
        }
    }

    fn is_summer(&self, by: By, site: &JobSite, day: u64) -> bool {
        let (mut first, mut last, mut day) = (site.first_leaf_day, site.last_leaf_day, day);
        if self.is(SeasonByTheMonth) {
            let month = |day: u64| month_of(1, day.min(365) as usize) as u64;
            [first, last, day] = [first, last, day].map(month);
        }
        if self.is(LeafDaysExchanged) {
            (first, last) = (last, first);
        }
        if first > last {
            return self.is_turned_summer(by, first, last, day);
        }
        let without_last = [SummerWithoutItsLastDay, StepSummerWithoutItsLastDay];
        let without_first = [SummerWithoutItsFirstDay, StepSummerWithoutItsFirstDay];
        match () {
            _ if self.is_of(by, without_last) => first <= day && day < last,
            _ if self.is_of(by, without_first) => first < day && day <= last,
            _ if self.is(SummerADayLonger) => first <= day && day <= last + 1,
            _ if self.is(SummerADayEarly) => first <= day + 1 && day <= last,
            _ if self.is(EqualLeafDaysNoSummer) && first == last => false,
            _ if self.is(EqualLeafDaysAlwaysSummer) && first == last => true,
            _ => first <= day && day <= last,
        }
    }

    fn season_of(&self, by: By, site: &JobSite, step: &Step, hours: f64) -> bool {
        let day = self.day_of_the_season(by, site, step, hours);
        let summer = self.is_summer(by, site, day);
        match () {
            _ if self.is_of(by, [SummerAlways, StepSummerAlways]) => true,
            _ if self.is_of(by, [WinterAlways, StepWinterAlways]) => false,
            _ => summer != self.is_of(by, [SeasonsExchanged, StepSeasonsExchanged]),
        }
    }

    /// Whether a step of a run goes by the summer's list.
    pub fn summer_at(&self, job: &Job, steps: &[Step], k: usize) -> bool {
        let of = |k: usize| self.season_of(By::Run, &job.site, &steps[k], job.times[2]);
        let changed = || (0..=k).find(|&earlier| of(earlier) != of(0));
        match () {
            _ if self.is(SeasonOfTheFirstStep) => of(0),
            _ if self.is(SeasonOneStepLate) => of(k.saturating_sub(1)),
            _ if self.is(SeasonOneStepEarly) => of((k + 1).min(steps.len() - 1)),
            _ if self.is(SeasonChangesOnceAtMost) => of(changed().unwrap_or(0)),
            _ if self.is(ListsOfOneLengthTakenAsOne) && job.summer.len() == job.winter.len() => {
                true
            }
            _ => of(k),
        }
    }

    pub fn summer_of_single(&self, single: &Single) -> bool {
        let time = single.time;
        let step = Step {
            time,
            hour: time as u32,
            day: (time / 24.0) as u32,
            index: 0,
        };
        self.season_of(By::Step, &single.site, &step, 1.0)
    }

    // --- Lists ---

    /// Whether the objects of the summer, and of the winter, are looked at in the checks.
    pub fn lists_looked_at(&self, by: By, seasons: &[bool]) -> [bool; 2] {
        let of_steps = [true, false].map(|season| seasons.contains(&season));
        let of_the_first = [true, false].map(|season| seasons.first() == Some(&season));
        match () {
            _ if self.is_of(by, [ObjectsOfSummerAlone, StepObjectsOfSummerAlone]) => [true, false],
            _ if self.is_of(by, [ObjectsOfWinterAlone, StepObjectsOfWinterAlone]) => [false, true],
            _ if self.is(ObjectsOfSeasonsWithSteps) => of_steps,
            _ if self.is_of(
                by,
                [ObjectsOfTheFirstStepsSeason, StepObjectsOfItsSeasonAlone],
            ) =>
            {
                of_the_first
            }
            _ => [true; 2],
        }
    }

    /// The parts of both lists that are walked along.
    pub fn parts<'a>(&self, by: By, [summer, winter]: [&'a [u8]; 2]) -> [&'a [u8]; 2] {
        let shorter = |list: &'a [u8]| &list[..list.len().saturating_sub(RECORD)];
        let cut = |list: &'a [u8], len: usize| &list[..list.len().min(len)];
        match () {
            _ if self.is_of(by, [PartsOneRecordShort, StepPartsOneRecordShort]) => {
                [shorter(summer), shorter(winter)]
            }
            _ if self.is(SummerPartOneRecordShort) => [shorter(summer), winter],
            _ if self.is(WinterPartOneRecordShort) => [summer, shorter(winter)],
            _ if self.is(WinterPartFromTheSecondRecord) => {
                [summer, &winter[winter.len().min(RECORD)..]]
            }
            _ if self.is(WinterPartOfTheSummersLength) => [summer, cut(winter, summer.len())],
            _ if self.is(SummerPartOfTheWintersLength) => [cut(summer, winter.len()), winter],
            _ => [summer, winter],
        }
    }

    /// Whether a step that was refused so is tried by the other season's list.
    pub fn tried_again(&self, summer: bool, number: u64) -> bool {
        match number {
            8 => self.is(WinterAfterTheSummersGap) && summer,
            9 => self.is(SummerAfterTheWintersTurn) && !summer,
            10 => self.is(OtherSeasonWhereNoSector),
            _ => false,
        }
    }
}
