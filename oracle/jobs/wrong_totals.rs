//! What the plain engine, and those that are wrong in one small way, do about the totals: one step
//! after the other, into records that are stored at the end.

use super::wrong::{Checked, Flaw, Flaw::*, Plain};
use crate::pilgartze::{days_in_year, totals_length, totals_of, Totals, MONTHS, TOTALS};
use crate::published::jobs::*;
use crate::published::seasons::WRONG_LEAF_DAY;
use crate::published::shading::WRONG_EDITION;

/// The first day of each month of a common year.
const FIRST_DAYS: [usize; MONTHS] = [0, 31, 59, 90, 120, 151, 181, 212, 243, 273, 304, 334];

/// Flaws by which a month begins a day sooner (−1) or later in either year.
const MOVED: [(Flaw, usize, isize); 6] = [
    (JanuaryOf30Days, 1, -1),
    (AprilOf31Days, 4, 1),
    (JulyOf30Days, 7, -1),
    (AugustOf30Days, 8, -1),
    (SeptemberOf31Days, 9, 1),
    (NovemberOf31Days, 11, 1),
];

/// What is taken for a record without a step: the bits of its largest total and its sum.
const EMPTY: [(Flaw, u64, f64); 6] = [
    (EmptyLargestZero, 0, 0.0),
    (EmptyLargestNegativeNan, 0xFFF8_0000_0000_0000, 0.0),
    (EmptyLargestSignallingNan, 0x7FF0_0000_0000_0001, 0.0),
    (EmptyLargestNanWithPayload, 0x7FF8_0000_0000_0001, 0.0),
    (EmptySumNan, 0x7FF8_0000_0000_0000, f64::NAN),
    (EmptySumMinusZero, 0x7FF8_0000_0000_0000, -0.0),
];

impl Plain {
    // --- A list that is too short ---

    pub fn totals_too_short(&self, site: &JobSite, totals: usize, steps: usize) -> bool {
        let needed = totals_length(site.leap_year);
        let needed = match () {
            _ if self.is(ShortTotalsTaken) || self.is(ShortTotalsAfterTheSteps) => 0,
            _ if self.is(ShortTotalsTakenWithNoSteps) && steps == 0 => 0,
            _ if self.is(PartWordInTotals) => needed - 7,
            _ if self.is(PartRecordInTotals) => needed - 23,
            _ if self.is(LeapYearInACommonYearsTotals) => totals_length(0),
            _ if self.is(CommonYearNeedsALeapYearsTotals) => totals_length(1),
            _ if self.is(ExactTotalsRefused) => needed + 1,
            _ => needed,
        };
        totals < needed
    }

    // --- Days and months ---

    /// The day, of the year's 365 or 366, to which a step goes.
    fn total_day(&self, job: &Job, time: f64) -> usize {
        let [.., step] = job.times;
        let of = match () {
            _ if self.is(DayOfTheStepsEnd) => time + step,
            _ if self.is(DayOfTheStepsMiddle) => time + step / 2.0,
            _ if self.is(DayOfTheRoundedTime) => time.round(),
            _ => time,
        };
        let day = (of / 24.0) as usize;
        let day = match () {
            _ if self.is(DaysFromTheSecondOn) => day + 1,
            _ if self.is(DaysFromTheStartDay) => day.saturating_sub(job.site.start_day as usize),
            _ if self.is(LeapDecember31InTheDayBefore) => day.min(364),
            _ => day,
        };
        day.min(days_in_year(job.site.leap_year) - 1)
    }

    /// The first day of a month.
    fn first_day(&self, leap_year: u64, month: usize) -> usize {
        let longer = match leap_year {
            1 => !self.is(LeapDayPassedOverInALeapYear),
            _ => self.is(LeapDayNotPassedOver),
        };
        let march = leap_year == 0 && month == 2;
        let mut first = FIRST_DAYS[month] + (longer && month > 1) as usize;
        first -= (march && self.is(LeapDayPassedOverADayEarly)) as usize;
        first += (march && self.is(LeapDayPassedOverADayLate)) as usize;
        for (flaw, moved, by) in MOVED {
            if self.is(flaw) && moved == month {
                first = first.saturating_add_signed(by);
            }
        }
        first
    }

    fn total_month(&self, leap_year: u64, day: usize) -> usize {
        let begun = |&month: &usize| self.first_day(leap_year, month) <= day;
        (0..MONTHS).rev().find(begun).unwrap_or(0)
    }

    /// The places of a day's record and of its month's.
    fn places(&self, leap_year: u64, day: usize) -> [usize; 2] {
        let month = self.total_month(leap_year, day);
        match () {
            _ if self.is(MonthsBeforeDays) => [MONTHS + day, month],
            _ if self.is(MonthsAtALeapYearsPlace) => [day, 366 + month],
            _ => [day, days_in_year(leap_year) + month],
        }
    }

    // --- Records ---

    fn empty(&self) -> Totals {
        let other = EMPTY.iter().find(|(flaw, ..)| self.is(*flaw));
        let &(_, largest, sum) = other.unwrap_or(&(Nothing, 0x7FF8_0000_0000_0000, 0.0));
        Totals {
            count: 0,
            largest: f64::from_bits(largest),
            sum,
        }
    }

    /// The hours that a step counts for.
    fn total_hours(&self, job: &Job, time: f64, day: usize) -> f64 {
        let [_, end, step] = job.times;
        match () {
            _ if self.is(TotalsWithoutStep) || self.is(TotalsTimesStepAtTheEnd) => 1.0,
            _ if self.is(TotalsBySeriesStep) => job.site.series_step,
            _ if self.is(TotalsLastStepCutAtTheEnd) && time < end => step.min(end - time),
            _ if self.is(TotalsStepCutAtMidnight) => step.min((24 * (day + 1)) as f64 - time),
            _ => step,
        }
    }

    fn total_sum(&self, kept: &Totals, row: &[f64; ROW], hours: f64) -> f64 {
        let &[_, _, direct, _, total, factor] = row;
        let product = match () {
            _ if self.is(TotalsStepTimesDirectFirst) => factor * (direct * hours),
            _ if self.is(TotalsStepTimesFactorFirst) => (factor * hours) * direct,
            _ if self.is(TotalsOfDirect) => direct * hours,
            _ if self.is(TotalsOfTotal) => (factor * total) * hours,
            _ => (factor * direct) * hours,
        };
        match () {
            _ if self.is(TotalsFused) => (factor * direct).mul_add(hours, kept.sum),
            _ if self.is(TotalsSubnormalsDropped) && product.is_subnormal() => kept.sum,
            _ if self.is(TotalsBegunWithFirstProduct) && kept.count == 0 => product,
            _ => kept.sum + product,
        }
    }

    /// One row more in a record.
    fn add(&self, kept: &mut Totals, row: &[f64; ROW], hours: f64) {
        let &[_, _, direct, diffuse, total, factor] = row;
        let total = match () {
            _ if self.is(LargestOfDirect) => direct,
            _ if self.is(LargestOfDiffuse) => diffuse,
            _ if self.is(LargestOfTheShaded) => factor * direct + diffuse,
            _ if self.is(LargestTimesStep) => total * hours,
            _ => total,
        };
        let takes = match () {
            _ if self.is(LargestIsTheFirst) => kept.largest.is_nan(),
            _ if self.is(LargestIsTheLast) => true,
            _ if self.is(LargestIsTheLeast) => !(kept.largest < total),
            _ => !(kept.largest > total),
        };
        kept.sum = self.total_sum(kept, row, hours);
        kept.count += match self.is(HoursCounted) {
            true => hours as u64,
            false => 1,
        };
        if takes && !total.is_nan() {
            kept.largest = total;
        }
    }

    /// The records before the first step.
    fn first_records(&self, job: &Job) -> Vec<Totals> {
        let mut records = match self.is(TotalsNotEmptied) {
            true => totals_of(&job.totals),
            false => vec![],
        };
        records.resize(366 + MONTHS, self.empty());
        records
    }

    /// The records of these rows.
    fn records(&self, job: &Job, steps: &Checked, rows: &[[f64; ROW]]) -> Vec<Totals> {
        let [start, _, step_hours] = job.times;
        let mut records = self.first_records(job);
        let mut each: Vec<_> = steps.iter().zip(rows).enumerate().collect();
        if self.is(TotalsBackwards) {
            each.reverse();
        }
        let mut of_all = self.empty();
        for (k, ((step, _), row)) in each {
            let time = match self.is(TotalsTimeByProduct) {
                true => start + step_hours * k as f64,
                false => step.time,
            };
            let day = self.total_day(job, time);
            let hours = self.total_hours(job, time, day);
            self.add(&mut of_all, row, hours);
            for place in self.places(job.site.leap_year, day) {
                self.add(&mut records[place], row, hours);
                if self.is(LargestOfAllSoFar) {
                    records[place].largest = of_all.largest;
                }
                if self.is(SumOfAllSoFar) {
                    records[place].sum = of_all.sum;
                }
            }
        }
        self.after_the_steps(job, &mut records);
        self.last_ones_lost(job, steps, rows, &mut records);
        records
    }

    /// What becomes of the last row's day and month.
    fn last_ones_lost(
        &self,
        job: &Job,
        steps: &Checked,
        rows: &[[f64; ROW]],
        records: &mut [Totals],
    ) {
        let last = steps[..rows.len().min(steps.len())].last();
        let Some((step, _)) = last else {
            return;
        };
        let refused = rows.len() < steps.len();
        let [day, month] = self.places(job.site.leap_year, self.total_day(job, step.time));
        if self.is(LastDayNotStored) || self.is(LastDayOfARefusedRunNotStored) && refused {
            records[day] = self.empty();
        }
        if self.is(LastMonthNotStored) {
            records[month] = self.empty();
        }
    }

    /// What is done with the records once all steps are in them.
    fn after_the_steps(&self, job: &Job, records: &mut [Totals]) {
        let leap_year = job.site.leap_year;
        let [.., step_hours] = job.times;
        let days = days_in_year(leap_year);
        if self.is(TotalsTimesStepAtTheEnd) {
            records.iter_mut().for_each(|kept| kept.sum *= step_hours);
        }
        for month in 0..MONTHS {
            let of_month = |&day: &usize| self.total_month(leap_year, day) == month;
            let of_month = (0..days).filter(of_month).map(|day| records[day]);
            let sum = of_month.clone().fold(0.0, |sum, day| sum + day.sum);
            let count = of_month.filter(|day| day.count > 0).count();
            if self.is(MonthSumsOfDaySums) {
                records[days + month].sum = sum;
            }
            if self.is(MonthsCountTheirDays) {
                records[days + month].count = count as u64;
            }
        }
    }

    // --- What is stored ---

    /// As much of the records as there is room for, and no more than the year's.
    fn store_records(&self, leap_year: u64, records: &[Totals], totals: &mut [u8]) {
        let count = match self.is(LeapYearsRecordsAlways) || self.is(MonthsAtALeapYearsPlace) {
            true => 366 + MONTHS,
            false => days_in_year(leap_year) + MONTHS,
        };
        for (place, kept) in records[..count].iter().enumerate() {
            let count = match kept.count {
                count if self.is(CountAsADouble) => (count as f64).to_bits(),
                count if self.is(CountOfOneByte) => count & 0xFF,
                count => count,
            };
            let mut words = [count, kept.largest.to_bits(), kept.sum.to_bits()];
            if self.is(LargestAndSumSwapped) {
                words.swap(1, 2);
            }
            let untouched = kept.count == 0 && self.is(TotalsEmptiedWhereThereAreSteps);
            let of_a_month = place >= days_in_year(leap_year);
            if untouched || self.is(MonthsNotStored) && of_a_month {
                continue;
            }
            let at = (8 * TOTALS * place).min(totals.len());
            let end = (at + 8 * TOTALS).min(totals.len());
            let bytes = words.map(u64::to_le_bytes).concat();
            totals[at..end].copy_from_slice(&bytes[..end - at]);
        }
        let byte = totals.get_mut(totals_length(leap_year));
        if let (Some(byte), true) = (byte, self.is(BytePastTheTotalsTouched)) {
            *byte ^= 1;
        }
    }

    /// What becomes of the totals where the checks refuse.
    pub fn totals_of_refused(&self, number: u64, job: &Job, totals: &mut [u8]) {
        let whole = totals.len() >= totals_length(job.site.leap_year);
        let emptied = self.is(TotalsEmptiedBeforeTheChecks) && whole
            || self.is(WrongEditionTotalsEmptied) && whole && number == WRONG_EDITION
            || self.is(WrongLeafDayTotalsEmptied) && whole && number == WRONG_LEAF_DAY
            || self.is(TotalsEmptiedBeforeTheResultsCheck) && whole && number == 7
            || self.is(ShortTotalsEmptiedInPart) && !whole && number == 7;
        if emptied {
            let records = self.records(job, &vec![], &[]);
            self.store_records(job.site.leap_year, &records, totals);
        }
    }

    /// The rows that count for the totals of a run that came to this: perhaps fewer, perhaps the row of
    /// the step that was refused too.
    fn rows_kept(
        &self,
        judge: &mut Judge,
        job: &Job,
        (answer, steps): (&RunAnswer, &Checked),
        rows: &[[f64; ROW]],
    ) -> Vec<[f64; ROW]> {
        let mut kept = rows.to_vec();
        if answer.number == 0 {
            return kept;
        }
        if self.is(TotalsEmptiedOnRefusalAtAStep) {
            kept.clear();
        }
        if self.is(LastRowBeforeARefusalNotKept) {
            kept.pop();
        }
        if self.is(RefusedStepKept) {
            let (step, readings) = steps[rows.len()];
            let row = judge.hour(&job.site, &job.surface, step.hour, readings);
            let [altitude, azimuth, direct, diffuse, total, ..] = row;
            kept.push([altitude, azimuth, direct, diffuse, total, 1.0]);
        }
        kept
    }

    /// The totals of a run that passed the checks.
    pub fn keep_totals(
        &self,
        judge: &mut Judge,
        job: &Job,
        (answer, steps): (&RunAnswer, &Checked),
        rows: &[[f64; ROW]],
        totals: &mut [u8],
    ) {
        let refused = answer.number != 0;
        let left = self.is(TotalsLeftOnRefusalAtAStep) && refused
            || self.is(TotalsLeftOnRefusalAtStep0) && refused && answer.step == 0
            || self.is(TotalsLeftWithNoSteps) && steps.is_empty();
        if left {
            return;
        }
        let rows = self.rows_kept(judge, job, (answer, steps), rows);
        let records = self.records(job, steps, &rows);
        self.store_records(job.site.leap_year, &records, totals);
    }

    /// The sums of the months added up, which an answer may have in place of its own.
    pub fn sum_of_months(&self, job: &Job, steps: &Checked, rows: &[[f64; ROW]]) -> f64 {
        let records = self.records(job, steps, rows);
        let months = &records[days_in_year(job.site.leap_year)..][..MONTHS];
        months.iter().fold(0.0, |sum, month| sum + month.sum)
    }
}
