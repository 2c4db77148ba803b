//! Engines that are wrong in one small way each. The self-test has to find them all.
//!
//! They are one plain form of the run and of the single steps, by which a flaw is built in where it
//! is asked for; a step's row is the judge's own. `wrong_totals.rs` has what it does about the totals,
//! `wrong_seasons.rs` about the seasons, `wrong_sizes.rs` what breaks a law about sizes.

use super::lent::Library;
use super::wrong_seasons::By as Calls;
use super::wrong_sizes::{by_the_sizes, days_by_size, factor_by_size, refusal_by_size};
use crate::pilgartze::{days_in_year, totals_length, totals_of, DAY, DAYS, EDITION_2};
use crate::published::days::{day_in, day_table, DayValues};
use crate::published::jobs::*;
use crate::published::seasons::{Seasons, WRONG_LEAF_DAY};
use crate::published::shading::{
    outside_beam, MOST_SECTORS, MOST_WINDOW_OBJECTS, SECTOR_WORDS, WINDOW_WORDS, WRONG_EDITION,
};
use crate::published::wrong::Otherwise;
use crate::random::ulps_from;
use crate::shading::call::{Call, Scene};
use crate::shading::laws::Law;
use crate::shading::sizes::SizeLaw;
use crate::shading::wrong as shading;
use std::cell::RefCell;
use Flaw::*;

/// The jobs by which an engine must be found.
#[derive(Clone, Copy, PartialEq)]
pub enum By {
    All,
    /// Those about the table of days alone.
    Days,
    /// Those about the sum alone, and the random ones alone too.
    Sums,
    /// Those about editions and fins alone, and the random ones alone too.
    Editions,
    /// Those about the totals alone.
    Totals,
    /// The same, and the random ones alone too.
    TotalsAndRandom,
    /// Those about leaf days and seasons alone, and the random ones alone too.
    Seasons,
}

pub struct Wrong {
    pub by: By,
    /// The call, or its part, under which the difference must be told; the law that is broken.
    pub told: String,
    /// The flaw's name, for messages.
    pub what: &'static str,
    pub library: Library,
}

/// The flaws, and a side of the comparison for each.
macro_rules! flaws {
    ($($by:ident $told:literal: $($flaw:ident),* $(,)?;)*) => {
        #[derive(Clone, Copy, PartialEq)]
        #[repr(u16)]
        pub enum Flaw {
            /// None: the plain form itself has to pass.
            Nothing,
            $($($flaw,)*)*
        }

        /// What the comparison has to find.
        pub fn engines() -> Vec<Wrong> {
            vec![$($(Wrong {
                by: By::$by,
                told: String::from($told),
                what: stringify!($flaw),
                library: only($told, engine::<{ Flaw::$flaw as u16 }>()),
            },)*)*]
        }
    };
}

flaws! {
    All "run":
        // lazy ones
        RefusesAll,
        NoSectorWithoutWalk,
        FactorOneAlways,
        FirstStepCopied,
        StoresNothing,
        StepsByQuotient,
        // the steps
        StartAboveEndNone,
        StartAtEndOne,
        TimeByProduct,
        HourRounded,
        LeapHoursAlways,
        LeapHoursNever,
        LastHourClosed,
        // the checks and their order
        TimezoneOfFourBytes,
        FlagAboveOneTaken,
        StartDay366Taken,
        EndOfZeroTaken,
        LeastStepOpen,
        NanTimeTaken,
        SurfaceBeforeHours,
        ObjectsBeforeRun,
        ReadingBeforeSeries,
        SeriesListByList,
        SeriesStepByStep,
        PartRecordDropped,
        LongListsTaken,
        ResultsBeforeReading,
        ResultsNeverTooShort,
        ResultsOneRowShort,
        PartWordInSeries,
        PartWordInResults,
        SeriesNotAllSteps,
        UnusedReadingsChecked,
        MinusZeroReadingRefused,
        NanReadingTaken,
        ReflectivityUpTo10000,
        // the walk
        FirstSectorNotWalked,
        LastSectorNotWalked,
        // sums beyond ±1
        OverheadNan,
        OverheadAtTheHorizon,
        OverheadWithoutWalk,
        UnderfootNan,
        SquareNan,
        SquareFromBehindNan,
        // the series
        IndexRounded,
        IndexOfTheStep,
        IndexFromYearStart,
        NegativeIndexRefused,
        SeriesStepIgnored,
        DirectForDiffuse,
        // what is stored and answered
        RefusedRowStored,
        EarlierRowsTakenBack,
        RowsClearedFirst,
        BytesPastTheLastTouched,
        ColumnsSwapped,
        StepOfRefusalZero,
        StepOfAcceptanceLast,
        CountKeptOnRefusal,
        SeriesWrittenTo,
        WritesBeside;
    All "run's sum":
        SumKeptOnRefusal;
    Sums "run's sum":
        SumBegunWithFirstProduct,
        SumBackwards,
        SumOfDirect,
        SumSubnormalsDropped,
        // the step in the product
        SumWithoutStep,
        SumStepTimesDirectFirst,
        SumStepTimesFactorFirst,
        SumTimesStepAtTheEnd,
        SumFused,
        // the hours that a step counts for
        SumBySeriesStep,
        SumByTheTimesBetween,
        SumLastStepCutAtTheEnd,
        SumStartAboveEndNothing,
        SumStepAnHourAtMost;
    TotalsAndRandom "run's sum":
        SumOfTheMonthsSums;
    Editions "run":
        // the edition, and its place among the checks
        EditionNotLookedAt,
        EditionZeroTaken,
        EditionThreeTaken,
        EditionOneForTwo,
        EditionTwoForOne,
        EditionOfFourBytes,
        EditionAfterSite,
        EditionAfterResults,
        EditionAtTheFirstStep,
        // what is stored and answered where it is wrong
        WrongEditionStepOne,
        WrongEditionCountKept,
        WrongEditionResultsCleared,
        // the fins of edition 2
        RightFinTangentNotTurned,
        FinSidesExchanged,
        FinDifferenceNotWrapped,
        OverhangCosineWrapped;
    Editions "run's sum":
        WrongEditionSumNan;
    Editions "run's table of days":
        WrongEditionTableFilled;
    Editions "run's totals":
        WrongEditionTotalsEmptied;
    Editions "step":
        StepEditionNotLookedAt,
        StepEditionZeroTaken,
        StepEditionThreeTaken,
        StepEditionOneForTwo,
        StepEditionTwoForOne,
        StepEditionOfFourBytes,
        StepEditionAfterSite,
        StepEditionAfterResults,
        StepWrongEditionStores,
        StepRightFinTangentNotTurned,
        StepFinSidesExchanged,
        StepFinDifferenceNotWrapped,
        StepOverhangCosineWrapped;
    Days "run":
        // a table that is too short
        ShortTableTaken,
        ShortTableTakenWithNoSteps,
        ShortTableFirst,
        ShortTableBeforeReading,
        ShortTableAfterTheSteps,
        PartWordInTable,
        TableOf365Taken,
        TableOf365TakenInACommonYear,
        ExactTableRefused,
        // what the hours read
        HoursByTheFormerTable,
        HoursByTheFormerTableIfItsFirstDayFits,
        FirstDayReadsTheSecond,
        LastDayOfACommonYearReadsTheNext,
        LeapDayReadsTheDayBefore,
        LeapDayEquationOfTheDayBefore,
        LeapDayRadiationOfTheDayBefore,
        WritesBesideTheTable;
    Days "run's table of days":
        // when it is filled
        TableFilledBeforeTheChecks,
        TableFilledBeforeTheResultsCheck,
        ShortTableFilledInPart,
        TableLeftOnRefusalAtAStep,
        TableLeftOnRefusalAtStep0,
        TableLeftWithNoSteps,
        TableLeftInACommonYear,
        TableLeftWhereItsFirstDayFits,
        TableClearedOnRefusal,
        // what is stored
        TableOf365,
        TableOfTheYear,
        TableOfTheSteps,
        TableFromDay0,
        TableColumnsSwapped,
        LastRecordAnUlpOff,
        BytePastTheTableTouched;
    TotalsAndRandom "run":
        // totals that are too short
        ShortTotalsTaken,
        ShortTotalsFirst,
        ShortTotalsAfterTheSteps,
        PartRecordInTotals,
        LeapYearInACommonYearsTotals,
        CommonYearNeedsALeapYearsTotals,
        ExactTotalsRefused,
        WritesBesideTheTotals;
    Totals "run":
        ShortTotalsTakenWithNoSteps,
        ShortTotalsBeforeReading,
        PartWordInTotals;
    TotalsAndRandom "run's totals":
        // when they are emptied, and of what they are
        TotalsNotEmptied,
        TotalsEmptiedWhereThereAreSteps,
        TotalsEmptiedBeforeTheChecks,
        TotalsEmptiedBeforeTheResultsCheck,
        ShortTotalsEmptiedInPart,
        TotalsEmptiedOnRefusalAtAStep,
        TotalsLeftOnRefusalAtAStep,
        TotalsLeftOnRefusalAtStep0,
        TotalsLeftWithNoSteps,
        LastRowBeforeARefusalNotKept,
        RefusedStepKept,
        LastDayNotStored,
        LastDayOfARefusedRunNotStored,
        LastMonthNotStored,
        EmptyLargestZero,
        EmptyLargestNegativeNan,
        EmptyLargestSignallingNan,
        EmptyLargestNanWithPayload,
        EmptySumNan,
        EmptySumMinusZero,
        // days and months
        DayOfTheStepsEnd,
        DayOfTheStepsMiddle,
        DayOfTheRoundedTime,
        DaysFromTheSecondOn,
        DaysFromTheStartDay,
        LeapDecember31InTheDayBefore,
        LeapDayNotPassedOver,
        LeapDayPassedOverADayEarly,
        LeapDayPassedOverADayLate,
        LeapDayPassedOverInALeapYear,
        JanuaryOf30Days,
        AprilOf31Days,
        JulyOf30Days,
        AugustOf30Days,
        SeptemberOf31Days,
        NovemberOf31Days,
        // where they stand
        MonthsBeforeDays,
        MonthsAtALeapYearsPlace,
        LeapYearsRecordsAlways,
        MonthsNotStored,
        BytePastTheTotalsTouched,
        LargestAndSumSwapped,
        CountAsADouble,
        // which of two equal totals is taken, and what is made of NaN, shows in the proofs alone: no
        // run is known to have a total of −0.0 or NaN
        HoursCounted,
        MonthsCountTheirDays,
        LargestOfAllSoFar,
        LargestIsTheFirst,
        LargestIsTheLast,
        LargestIsTheLeast,
        LargestOfDirect,
        LargestOfDiffuse,
        LargestOfTheShaded,
        LargestTimesStep,
        // the sums
        MonthSumsOfDaySums,
        SumOfAllSoFar,
        TotalsBackwards,
        TotalsBegunWithFirstProduct,
        TotalsSubnormalsDropped,
        TotalsOfDirect,
        TotalsOfTotal,
        TotalsWithoutStep,
        TotalsTimesStepAtTheEnd,
        TotalsStepTimesDirectFirst,
        TotalsStepTimesFactorFirst,
        TotalsFused,
        TotalsBySeriesStep,
        TotalsLastStepCutAtTheEnd,
        TotalsStepCutAtMidnight;
    Totals "run's totals":
        TotalsTimeByProduct,
        CountOfOneByte;
    Seasons "run":
        // leaf days, and their place among the checks
        LeafDaysNotChecked,
        FirstLeafDayNotChecked,
        LastLeafDayNotChecked,
        LeafDay366Taken,
        LeafDay365Refused,
        LeafDay365RefusedInACommonYear,
        LeafDay0Refused,
        LeafDayOfFourBytes,
        LeafDayAsASignedNumber,
        TurnedLeafDaysRefused,
        LeafDaysNotCheckedWithEqualLists,
        LeafDayBeforeEdition,
        LeafDayBeforeSite,
        LeafDayAfterRun,
        LeafDayAfterSurface,
        LeafDayAfterResults,
        LeafDayAtTheFirstStep,
        // what is stored and answered where one is wrong
        WrongLeafDayStepOne,
        WrongLeafDayCountKept,
        WrongLeafDayResultsCleared,
        // the days of the summer
        SummerWithoutItsLastDay,
        SummerWithoutItsFirstDay,
        SummerADayLonger,
        SummerADayEarly,
        EqualLeafDaysNoSummer,
        EqualLeafDaysAlwaysSummer,
        LeafDaysExchanged,
        TurnedSummerNotWrapped,
        TurnedSummerBetween,
        TurnedSummerFromFirstAlone,
        TurnedSummerUpToLastAlone,
        TurnedSummerWithoutItsLastDay,
        TurnedSummerWithoutItsFirstDay,
        OneAboveTheOtherNoSummer,
        // the season of a step
        SummerAlways,
        WinterAlways,
        SeasonsExchanged,
        SeasonOfTheFirstStep,
        SeasonOneStepLate,
        SeasonOneStepEarly,
        SeasonChangesOnceAtMost,
        SeasonDaysFromOne,
        SeasonFromTheStartDay,
        SeasonByThePlaceInTheSeries,
        SeasonByTheMonth,
        SeasonByTheRoundedTime,
        SeasonByTheStepsEnd,
        SeasonByTheStepsMiddle,
        SeasonPassesOverTheLeapDay,
        SeasonCountsALeapDayAlways,
        SeasonByOneByteOfTheDay,
        // both lists in the checks
        ObjectsOfSummerAlone,
        ObjectsOfWinterAlone,
        ObjectsOfSeasonsWithSteps,
        ObjectsOfTheFirstStepsSeason,
        // the part that is walked along
        PartsOneRecordShort,
        SummerPartOneRecordShort,
        WinterPartOneRecordShort,
        WinterPartFromTheSecondRecord,
        WinterPartOfTheSummersLength,
        SummerPartOfTheWintersLength,
        ListsOfOneLengthTakenAsOne,
        OneMemoryTakenForNoWinter,
        OverlappingListsRefused,
        WinterAfterTheSummersGap,
        SummerAfterTheWintersTurn,
        OtherSeasonWhereNoSector,
        SeasonOfDay365OfThatBefore,
        SeasonOfDay365OfTheFirst;
    Seasons "run's sum":
        WrongLeafDaySumNan;
    Seasons "run's table of days":
        WrongLeafDayTableFilled;
    Seasons "run's totals":
        WrongLeafDayTotalsEmptied;
    Seasons "step":
        StepLeafDaysNotChecked,
        StepFirstLeafDayNotChecked,
        StepLastLeafDayNotChecked,
        StepLeafDay366Taken,
        StepLeafDayBeforeEdition,
        StepLeafDayBeforeSite,
        StepLeafDayAfterRun,
        StepLeafDayAfterResults,
        StepWrongLeafDayStores,
        StepSummerAlways,
        StepWinterAlways,
        StepSeasonsExchanged,
        StepSummerWithoutItsLastDay,
        StepSummerWithoutItsFirstDay,
        StepTurnedSummerNotWrapped,
        StepSeasonDaysFromOne,
        StepSeasonFromTheStartDay,
        StepObjectsOfSummerAlone,
        StepObjectsOfWinterAlone,
        StepObjectsOfItsSeasonAlone,
        StepPartsOneRecordShort,
        StepSeasonByTheRoundedTime;
    Seasons "irradiance":
        IrradianceLeafDaysNotChecked,
        IrradianceFirstLeafDayNotChecked,
        IrradianceLastLeafDayNotChecked,
        IrradianceLeafDay366Taken,
        IrradianceTurnedLeafDaysRefused,
        IrradianceLeafDayBeforeSite,
        IrradianceLeafDayAfterRun,
        IrradianceLeafDayAfterResults,
        IrradianceWrongLeafDayStores;
    All "step":
        StepStoresOnRefusal,
        StepAtTheYearsEnd,
        StepResultsUnchecked,
        StepReadingBeforeObject,
        StepWithoutFactor,
        StepNanTime,
        StepSiteUnchecked,
        StepFirstSectorNotWalked,
        StepLastSectorNotWalked,
        StepOverheadNan,
        StepOverheadWithoutWalk,
        StepUnderfootNan,
        StepSquareNan,
        StepSquareFromBehindNan;
    All "irradiance":
        BreakdownLeftOut,
        IrradianceResultsShort,
        ConversionIgnored,
        IrradianceHeightUnchecked,
        SkyAndGroundSwapped,
        IrradianceOverheadNan,
        IrradianceUnderfootNan,
        IrradianceSquareNan,
        IrradianceSquareFromBehindNan;
}

pub struct Plain {
    flaw: u16,
}

/// What a run is after its checks: its steps, and the readings of each.
pub type Checked = Vec<(Step, Readings)>;

impl Plain {
    pub fn is(&self, flaw: Flaw) -> bool {
        flaw as u16 == self.flaw
    }

    // --- The edition and its fins ---

    /// Whether it is one of two, as a run and a step have the same flaw by names of their own.
    fn is_either(&self, flaws: [Flaw; 2]) -> bool {
        flaws.iter().any(|&flaw| self.is(flaw))
    }

    /// The edition that is taken, if one is.
    fn edition(&self, named: u64) -> Option<u64> {
        let named = match self.is_either([EditionOfFourBytes, StepEditionOfFourBytes]) {
            true => named as u32 as u64,
            false => named,
        };
        match named {
            0 if self.is_either([EditionZeroTaken, StepEditionZeroTaken]) => Some(EDITION_1),
            3 if self.is_either([EditionThreeTaken, StepEditionThreeTaken]) => Some(EDITION_2),
            EDITION_1 if self.is_either([EditionTwoForOne, StepEditionTwoForOne]) => {
                Some(EDITION_2)
            }
            EDITION_2 if self.is_either([EditionOneForTwo, StepEditionOneForTwo]) => {
                Some(EDITION_1)
            }
            EDITION_1 | EDITION_2 => Some(named),
            _ if self.is_either([EditionNotLookedAt, StepEditionNotLookedAt]) => Some(EDITION_1),
            _ => None,
        }
    }

    /// The flaw of the factor by which a row's is worked out, if there is one.
    fn flaw_of_the_fins(&self) -> Option<shading::Flaw> {
        use shading::Flaw;
        let flaws = [
            (
                [RightFinTangentNotTurned, StepRightFinTangentNotTurned],
                Flaw::RightFinTangentNotTurned,
            ),
            (
                [FinSidesExchanged, StepFinSidesExchanged],
                Flaw::FinSidesExchanged,
            ),
            (
                [FinDifferenceNotWrapped, StepFinDifferenceNotWrapped],
                Flaw::FinDifferenceNotWrapped,
            ),
            (
                [OverhangCosineWrapped, StepOverhangCosineWrapped],
                Flaw::OverhangCosineWrapped,
            ),
        ];
        let own = flaws.iter().find(|(names, _)| self.is_either(*names));
        own.map(|&(_, flaw)| flaw)
    }

    /// The row with its factor by the flaw of the fins, if there is one; a row outside the beam stays,
    /// as its sun may be out of the factor's range.
    fn with_fins(&self, row: Row, surface: &Surface, objects: impl Fn() -> Call) -> Row {
        let (Ok(mut row), Some(flaw)) = (row, self.flaw_of_the_fins()) else {
            return row;
        };
        let mut call = objects();
        call.numbers[..2].copy_from_slice(&row[..2]);
        call.numbers[2..].copy_from_slice(surface);
        if !outside_beam(&call.numbers) {
            row[5] = shading::Plain { flaw }.factor(&call)?;
        }
        Ok(row)
    }

    // --- The steps ---

    fn times(&self, [start, end, step]: Times) -> Vec<f64> {
        let mut times = vec![];
        let mut time = start;
        if start != end || self.is(StartAtEndOne) {
            times.push(start);
        }
        if self.is(StartAboveEndNone) && start > end {
            times.clear();
        }
        while time < end - step {
            time = match self.is(TimeByProduct) {
                true => start + step * times.len() as f64,
                false => time + step,
            };
            times.push(time);
        }
        if self.is(StepsByQuotient) && start < end {
            times.truncate(((end - start) / step).ceil() as usize);
        }
        times
    }

    fn index(&self, site: &JobSite, k: usize, time: f64) -> usize {
        let day_hours = match self.is(IndexFromYearStart) {
            true => 0.0,
            false => (24 * site.start_day) as f64,
        };
        let series_step = match self.is(SeriesStepIgnored) {
            true => 1.0,
            false => site.series_step,
        };
        let place = (time - day_hours) / series_step;
        match () {
            _ if self.is(IndexOfTheStep) => k,
            _ if self.is(NegativeIndexRefused) && place < 0.0 => usize::MAX,
            _ if self.is(IndexRounded) => place.round() as usize,
            _ => place.floor() as usize,
        }
    }

    fn steps(&self, job: &Job) -> Vec<Step> {
        let times = self.times(job.times);
        let each = times.iter().enumerate().map(|(k, &time)| Step {
            time,
            hour: match self.is(HourRounded) {
                true => time.round() as u32,
                false => time.floor() as u32,
            },
            day: (time / 24.0) as u32,
            index: self.index(&job.site, k, time),
        });
        each.collect()
    }

    fn hours(&self, site: &JobSite) -> u32 {
        let leap = match site.leap_year {
            _ if self.is(LeapHoursAlways) => true,
            _ if self.is(LeapHoursNever) => false,
            leap => leap == 1,
        };
        8760 + 24 * leap as u32 + self.is(LastHourClosed) as u32
    }

    // --- The checks ---

    fn site_fine(&self, site: &JobSite) -> bool {
        let mut site = *site;
        if self.is(TimezoneOfFourBytes) {
            site.timezone = site.timezone as i32 as i64;
        }
        if self.is(FlagAboveOneTaken) {
            site.leap_year = site.leap_year.min(1);
        }
        if self.is(StartDay366Taken) && site.start_day == 366 {
            site.start_day = 365;
        }
        site_fine(&site)
    }

    fn times_fine(&self, times: &Times) -> bool {
        let [start, end, step] = *times;
        let start_fine = match self.is(NanTimeTaken) {
            true => !(start < 0.0 || start > 8784.0),
            false => 0.0 <= start && start <= 8784.0,
        };
        let end_fine = (0.0 < end || self.is(EndOfZeroTaken) && end == 0.0) && end <= 8784.0;
        let step_fine = 0.25 <= step && step <= 24.0 && !(self.is(LeastStepOpen) && step == 0.25);
        start_fine && end_fine && step_fine
    }

    fn series(&self, bytes: &[u8]) -> Vec<f64> {
        let mut bytes = bytes.to_vec();
        if self.is(PartWordInSeries) {
            bytes.resize(bytes.len().div_ceil(8) * 8, 0);
        }
        doubles_of(&bytes)
    }

    fn reading_fine(&self, list: usize, x: f64) -> bool {
        match () {
            _ if self.is(MinusZeroReadingRefused) && x == 0.0 => x.to_bits() == 0,
            _ if self.is(NanReadingTaken) && x.is_nan() => true,
            _ if self.is(ReflectivityUpTo10000) => reading_fine(0, x),
            _ => reading_fine(list, x),
        }
    }

    /// The bytes of a list that the checks look at.
    fn looked_at<'a>(&self, list: &'a [u8], record: usize, most: usize) -> &'a [u8] {
        match list.len() {
            len if self.is(PartRecordDropped) => &list[..len / record * record],
            len if self.is(LongListsTaken) => &list[..len.min(most * record)],
            _ => list,
        }
    }

    /// The lists of a run or a step, the seasons of whose steps are these; one that is not looked at
    /// and not as it should be has no sector.
    fn lists(
        &self,
        by: Calls,
        [summer, winter, window]: [&[u8]; 3],
        seasons: &[bool],
    ) -> Option<Lists> {
        let window = self.looked_at(window, 8 * WINDOW_WORDS, MOST_WINDOW_OBJECTS);
        let sectors = [summer, winter].map(|list: &[u8]| {
            let list = self.looked_at(list, 8 * SECTOR_WORDS, MOST_SECTORS);
            (list, lists_of(list, &[], &[]).is_some())
        });
        let looked_at = self.lists_looked_at(by, seasons);
        let mut parts: [&[u8]; 2] = [&[]; 2];
        for (k, (list, fine)) in sectors.into_iter().enumerate() {
            match fine {
                true => parts[k] = list,
                false if looked_at[k] => return None,
                false => {}
            }
        }
        let [summer, winter] = self.parts(by, parts);
        lists_of(self.walked(by, summer), self.walked(by, winter), window)
    }

    /// The bytes of the sectors that are walked along.
    fn walked<'a>(&self, by: Calls, sectors: &'a [u8]) -> &'a [u8] {
        let [first, last] = match by {
            Calls::Run => [FirstSectorNotWalked, LastSectorNotWalked],
            _ => [StepFirstSectorNotWalked, StepLastSectorNotWalked],
        };
        let len = sectors.len();
        let record = 8 * SECTOR_WORDS;
        if self.is(first) {
            return &sectors[len.min(record)..];
        }
        match self.is(last) {
            true => &sectors[..len.min((MOST_SECTORS - 1) * record)],
            false => sectors,
        }
    }

    fn lists_of_run(&self, job: &Job) -> Option<Lists> {
        let steps = match self.times_fine(&job.times) {
            true => self.steps(job),
            false => vec![],
        };
        let seasons: Vec<bool> = match self.is(ObjectsOfSeasonsWithSteps) {
            true => (0..steps.len())
                .map(|k| self.summer_at(job, &steps, k))
                .collect(),
            false => steps
                .first()
                .map(|_| self.summer_at(job, &steps, 0))
                .into_iter()
                .collect(),
        };
        let lists = [&job.summer[..], &job.winter, &job.window];
        self.lists(Calls::Run, lists, &seasons)
    }

    fn lists_of_single(&self, single: &Single) -> Option<Lists> {
        let lists = [&single.summer[..], &single.winter, &single.window];
        self.lists(Calls::Step, lists, &[self.summer_of_single(single)])
    }

    /// 5, then 6, over all steps.
    fn series_checked(&self, series: &[Vec<f64>; 3], steps: &[Step]) -> Option<u64> {
        let short = |list: usize, step: &Step| step.index >= series[list].len();
        let bad = |list: usize, step: &Step| {
            let x = series[list].get(step.index);
            x.is_some_and(|&x| !self.reading_fine(list, x))
        };
        let steps = match self.is(SeriesNotAllSteps) && steps.len() > 2 {
            true => &steps[..steps.len() - 1],
            false => steps,
        };
        let some = |lists: &[usize], steps: &[Step], test: &dyn Fn(usize, &Step) -> bool| {
            steps
                .iter()
                .any(|step| lists.iter().any(|&list| test(list, step)))
        };
        let both = |lists: &[usize], steps: &[Step]| {
            if some(lists, steps, &short) {
                return Some(5);
            }
            some(lists, steps, &bad).then_some(6)
        };
        let all = [0, 1, 2];
        if self.is(ReadingBeforeSeries) && some(&all, steps, &bad) {
            return Some(6);
        }
        if self.is(SeriesListByList) {
            return all.iter().find_map(|&list| both(&[list], steps));
        }
        if self.is(SeriesStepByStep) {
            return steps.iter().find_map(|&step| both(&all, &[step]));
        }
        if self.is(UnusedReadingsChecked) && both(&all, steps).is_none() {
            let any = (0..3).any(|list| series[list].iter().any(|&x| !reading_fine(list, x)));
            return any.then_some(6);
        }
        both(&all, steps)
    }

    /// 1 to 4, and the steps.
    fn fields_checked(&self, job: &Job) -> Result<Vec<Step>, u64> {
        let surface_fine = surface_fine(&job.surface);
        let objects_fine = self.lists_of_run(job).is_some();
        if !self.site_fine(&job.site) {
            return Err(1);
        }
        if self.is(ObjectsBeforeRun) && !objects_fine {
            return Err(4);
        }
        if !self.times_fine(&job.times) {
            return Err(2);
        }
        let steps = self.steps(job);
        if self.is(SurfaceBeforeHours) && !surface_fine {
            return Err(3);
        }
        let hours = self.hours(&job.site);
        if steps.iter().any(|step| step.hour >= hours) {
            return Err(2);
        }
        match (surface_fine, objects_fine) {
            (false, _) => Err(3),
            (_, false) => Err(4),
            _ => Ok(steps),
        }
    }

    fn results_too_short(&self, results: usize, steps: usize) -> bool {
        let words = match self.is(PartWordInResults) {
            true => results.div_ceil(8),
            false => results / 8,
        };
        let rows = steps - (self.is(ResultsOneRowShort) && steps > 0) as usize;
        words < ROW * rows && !self.is(ResultsNeverTooShort)
    }

    /// The checks with those of the leaf days and of the edition in their places.
    fn checked(&self, job: &Job, lengths: [usize; 3]) -> Result<Checked, u64> {
        let checked = self.with_leaf_days(job, self.others_checked(job, lengths));
        if self.edition(job.edition).is_some() {
            return checked;
        }
        match checked {
            Err(WRONG_LEAF_DAY) if self.is(LeafDayBeforeEdition) => Err(WRONG_LEAF_DAY),
            Err(1) if self.is(EditionAfterSite) => Err(1),
            Err(number) if self.is_either([EditionAfterResults, EditionAtTheFirstStep]) => {
                Err(number)
            }
            Ok(steps) if self.is(EditionAtTheFirstStep) && steps.is_empty() => Ok(steps),
            _ => Err(WRONG_EDITION),
        }
    }

    fn others_checked(
        &self,
        job: &Job,
        [days, totals, results]: [usize; 3],
    ) -> Result<Checked, u64> {
        if self.is(ShortTableFirst) && days < DAYS_LENGTH {
            return Err(7);
        }
        if self.is(ShortTotalsFirst) && self.totals_too_short(&job.site, totals, 0) {
            return Err(7);
        }
        let steps = self.fields_checked(job)?;
        let series = [0, 1, 2].map(|list: usize| self.series(&job.series[list]));
        let table_short = self.table_too_short(&job.site, days, steps.len());
        let totals_short = self.totals_too_short(&job.site, totals, steps.len());
        let results_short = self.results_too_short(results, steps.len());
        let too_short = results_short || table_short || totals_short;
        match self.series_checked(&series, &steps) {
            Some(6) if self.is(ResultsBeforeReading) && too_short => return Err(7),
            Some(6) if self.is(ShortTableBeforeReading) && table_short => return Err(7),
            Some(6) if self.is(ShortTotalsBeforeReading) && totals_short => return Err(7),
            Some(number) => return Err(number),
            None if too_short => return Err(7),
            None => {}
        }
        let reading = |list: usize, step: &Step| series[list].get(step.index).copied();
        let readings = |step: &Step| {
            let mut readings = [0, 1, 2].map(|list| reading(list, step).unwrap_or(0.0));
            if self.is(DirectForDiffuse) {
                readings[0] = readings[1];
            }
            readings
        };
        Ok(steps.iter().map(|step| (*step, readings(step))).collect())
    }

    // --- The table of days ---

    fn table_too_short(&self, site: &JobSite, days: usize, steps: usize) -> bool {
        let of_365 = self.is(TableOf365Taken)
            || self.is(TableOf365TakenInACommonYear) && site.leap_year == 0;
        let needed = match () {
            _ if self.is(ShortTableTaken) || self.is(ShortTableAfterTheSteps) => 0,
            _ if self.is(ShortTableTakenWithNoSteps) && steps == 0 => 0,
            _ if self.is(PartWordInTable) => DAYS_LENGTH - 7,
            _ if of_365 => DAYS_LENGTH - 8 * DAY,
            _ if self.is(ExactTableRefused) => DAYS_LENGTH + 1,
            _ => DAYS_LENGTH,
        };
        days < needed
    }

    /// The record that is stored at some place; none where its bytes are left.
    fn day_stored(&self, day: u32, job: &Job, steps: &Checked) -> Option<DayValues> {
        let last = DAYS as u32 - 1;
        let common = job.site.leap_year == 0;
        let of_365 = self.is(TableOf365) || self.is(TableOfTheYear) && common;
        let of_a_step = steps.iter().any(|(step, _)| step.hour / 24 == day);
        if of_365 && day == last || self.is(TableOfTheSteps) && !of_a_step {
            return None;
        }
        let before = if day == 0 { last } else { day - 1 };
        let mut values = match self.is(TableFromDay0) {
            true => day_in(day_table(), before),
            false => day_in(day_table(), day),
        };
        if self.is(TableColumnsSwapped) {
            values.swap(0, 1);
        }
        if self.is(LastRecordAnUlpOff) && day == last {
            values[2] = ulps_from(values[2], 1);
        }
        Some(values)
    }

    /// Stores as much of the table as there is room for.
    fn fill(&self, job: &Job, steps: &Checked, days: &mut [u8]) {
        for day in 0..DAYS as u32 {
            if let Some(values) = self.day_stored(day, job, steps) {
                self.store(days, DAY * day as usize, &values);
            }
        }
        if let (Some(byte), true) = (days.get_mut(DAYS_LENGTH), self.is(BytePastTheTableTouched)) {
            *byte ^= 1;
        }
    }

    /// What becomes of the table where the checks refuse.
    fn table_of_refused(&self, number: u64, job: &Job, days: &mut [u8]) {
        let whole = days.len() >= DAYS_LENGTH;
        let filled = self.is(TableFilledBeforeTheChecks) && whole
            || self.is(WrongEditionTableFilled) && whole && number == WRONG_EDITION
            || self.is(WrongLeafDayTableFilled) && whole && number == WRONG_LEAF_DAY
            || self.is(TableFilledBeforeTheResultsCheck) && whole && number == 7
            || self.is(ShortTableFilledInPart) && !whole && number == 7;
        if filled {
            self.fill(job, &vec![], days);
        }
        if self.is(TableClearedOnRefusal) {
            days.fill(0);
        }
    }

    /// Whether the table is as it was after a run that passed the checks.
    fn table_left(&self, job: &Job, answer: &RunAnswer, steps: &Checked) -> bool {
        let refused = answer.number != 0;
        let first_fits = job.days.starts_with(&day_table()[..8 * DAY]);
        self.is(TableLeftOnRefusalAtAStep) && refused
            || self.is(TableLeftOnRefusalAtStep0) && refused && answer.step == 0
            || self.is(TableLeftWithNoSteps) && steps.is_empty()
            || self.is(TableLeftInACommonYear) && job.site.leap_year == 0
            || self.is(TableLeftWhereItsFirstDayFits) && first_fits
    }

    /// The day whose record an hour reads.
    fn day_read(&self, site: &JobSite, day: u32) -> u32 {
        let last = DAYS as u32 - 1;
        match day {
            0 if self.is(FirstDayReadsTheSecond) => 1,
            _ if self.is(LastDayOfACommonYearReadsTheNext) => {
                day + (day + 1 == last && site.leap_year == 0) as u32
            }
            _ => day - (self.is(LeapDayReadsTheDayBefore) && day == last) as u32,
        }
    }

    /// What an hour has for its day, where that is the flaw.
    fn other_day(&self, job: &Job, hour: u32) -> Option<DayValues> {
        let day = hour / 24;
        let first_fits = job.days.starts_with(&day_table()[..8 * DAY]);
        if self.is(HoursByTheFormerTable)
            || self.is(HoursByTheFormerTableIfItsFirstDayFits) && first_fits
        {
            return Some(day_in(&job.days, day));
        }
        let right = day_in(day_table(), day);
        let mut values = day_in(day_table(), self.day_read(&job.site, day));
        if day + 1 == DAYS as u32 {
            let [_, equation, radiation] = day_in(day_table(), day - 1);
            if self.is(LeapDayEquationOfTheDayBefore) {
                values[1] = equation;
            }
            if self.is(LeapDayRadiationOfTheDayBefore) {
                values[2] = radiation;
            }
        }
        (values != right).then_some(values)
    }

    // --- The run ---

    /// As much of the doubles as there is room for.
    fn store(&self, results: &mut [u8], place: usize, row: &[f64]) {
        for (k, &x) in row.iter().enumerate() {
            let nan = 0x7FF8_0000_0000_0000u64;
            let bits = if x.is_nan() { nan } else { x.to_bits() };
            let at = (8 * (place + k)).min(results.len());
            let end = (at + 8).min(results.len());
            results[at..end].copy_from_slice(&bits.to_le_bytes()[..end - at]);
        }
    }

    /// What is made of a sum beyond ±1, where that is the flaw.
    fn otherwise(&self) -> Option<Otherwise> {
        use Otherwise::*;
        let ways = [
            (OverheadNan, AltitudeNanAbove),
            (StepOverheadNan, AltitudeNanAbove),
            (IrradianceOverheadNan, AltitudeNanAbove),
            (OverheadAtTheHorizon, AltitudeZeroAbove),
            (UnderfootNan, AltitudeNanBelow),
            (StepUnderfootNan, AltitudeNanBelow),
            (IrradianceUnderfootNan, AltitudeNanBelow),
            (SquareNan, IncidenceNanAbove),
            (StepSquareNan, IncidenceNanAbove),
            (IrradianceSquareNan, IncidenceNanAbove),
            (SquareFromBehindNan, IncidenceNanBelow),
            (StepSquareFromBehindNan, IncidenceNanBelow),
            (IrradianceSquareFromBehindNan, IncidenceNanBelow),
        ];
        ways.iter()
            .find(|(flaw, _)| self.is(*flaw))
            .map(|&(_, way)| way)
    }

    fn hour(
        &self,
        judge: &mut Judge,
        site: &JobSite,
        surface: &Surface,
        hour: u32,
        readings: Readings,
    ) -> [f64; IRRADIANCE_ROW] {
        match self.otherwise() {
            Some(way) => judge.hour_otherwise(site, surface, hour, readings, way),
            None => judge.hour(site, surface, hour, readings),
        }
    }

    /// The row of an hour; a sun overhead may have the factor 1 without a walk.
    fn row_at(
        &self,
        judge: &mut Judge,
        site: &JobSite,
        surface: &Surface,
        hour: u32,
        readings: Readings,
    ) -> Row {
        let doubles = self.hour(judge, site, surface, hour, readings);
        let without_walk = self.is(OverheadWithoutWalk) || self.is(StepOverheadWithoutWalk);
        if without_walk && judge.beyond.arcsine_above {
            let [altitude, azimuth, direct, diffuse, total, ..] = doubles;
            return Ok([altitude, azimuth, direct, diffuse, total, 1.0]);
        }
        judge.row_of(surface, doubles)
    }

    /// The row of a step by the list of its season, perhaps also by the other.
    fn row(
        &self,
        judge: &mut Judge,
        job: &Job,
        summer: bool,
        (step, readings): (Step, Readings),
    ) -> Row {
        match self.row_in(judge, job, summer, step, readings) {
            Err(number) if self.tried_again(summer, number) => {
                self.row_in(judge, job, !summer, step, readings)
            }
            row => row,
        }
    }

    fn row_in(
        &self,
        judge: &mut Judge,
        job: &Job,
        summer: bool,
        step: Step,
        readings: Readings,
    ) -> Row {
        if self.is(NoSectorWithoutWalk) {
            return Err(10);
        }
        judge.walk_in(summer);
        // the judge panics at an hour past the leap year's
        let hour = step.hour.min(8783);
        let (site, surface) = (&job.site, &job.surface);
        let row = match self.other_day(job, hour) {
            Some(day) => {
                let doubles = judge.hour_by_day(site, surface, hour, readings, day);
                judge.row_of(surface, doubles)
            }
            None => self.row_at(judge, site, surface, hour, readings),
        };
        let mut row = self.with_fins(row, surface, || job.objects(summer));
        if let (Ok(row), true) = (&mut row, self.is(FactorOneAlways)) {
            row[5] = 1.0;
        }
        if let (Ok(row), true) = (&mut row, self.is(ColumnsSwapped)) {
            row.swap(3, 4);
        }
        row
    }

    /// The answer to a wrong edition or leaf day, by the flaws about its step, its count and its sum.
    fn refused_first(&self, number: u64, [step, count, sum]: [Flaw; 3]) -> RunAnswer {
        RunAnswer {
            number,
            step: self.is(step) as u64,
            count: self.is(count) as u64,
            sum: if self.is(sum) { f64::NAN } else { 0.0 },
        }
    }

    fn refused(&self, number: u64, step: usize, sum: f64) -> RunAnswer {
        if number == WRONG_EDITION {
            let flaws = [
                WrongEditionStepOne,
                WrongEditionCountKept,
                WrongEditionSumNan,
            ];
            return self.refused_first(number, flaws);
        }
        if number == WRONG_LEAF_DAY {
            let flaws = [
                WrongLeafDayStepOne,
                WrongLeafDayCountKept,
                WrongLeafDaySumNan,
            ];
            return self.refused_first(number, flaws);
        }
        RunAnswer {
            number,
            step: if self.is(StepOfRefusalZero) {
                0
            } else {
                step as u64
            },
            count: if self.is(CountKeptOnRefusal) {
                step as u64
            } else {
                0
            },
            sum: if self.is(SumKeptOnRefusal) { sum } else { 0.0 },
        }
    }

    /// The hours that a step counts for.
    fn step_hours(&self, job: &Job, steps: &Checked, k: usize) -> f64 {
        let [start, end, step] = job.times;
        let time = steps[k].0.time;
        match () {
            _ if self.is(SumWithoutStep) || self.is(SumTimesStepAtTheEnd) => 1.0,
            _ if self.is(SumBySeriesStep) => job.site.series_step,
            _ if self.is(SumByTheTimesBetween) => match steps.get(k + 1) {
                Some((next, _)) => next.time - time,
                None => step,
            },
            _ if self.is(SumLastStepCutAtTheEnd) && time < end => step.min(end - time),
            _ if self.is(SumStartAboveEndNothing) && start > end => 0.0,
            _ if self.is(SumStepAnHourAtMost) => step.min(1.0),
            _ => step,
        }
    }

    /// What a step adds to the sum.
    fn product(&self, &[_, _, direct, _, _, factor]: &[f64; ROW], hours: f64) -> f64 {
        match () {
            _ if self.is(SumOfDirect) => direct * hours,
            _ if self.is(SumStepTimesDirectFirst) => factor * (direct * hours),
            _ if self.is(SumStepTimesFactorFirst) => (factor * hours) * direct,
            _ => (factor * direct) * hours,
        }
    }

    fn sum(&self, job: &Job, steps: &Checked, rows: &[[f64; ROW]]) -> f64 {
        let [.., step] = job.times;
        let each = rows.iter().enumerate();
        let mut products: Vec<f64> = each
            .map(|(k, row)| self.product(row, self.step_hours(job, steps, k)))
            .collect();
        if self.is(SumBackwards) {
            products.reverse();
        }
        if self.is(SumSubnormalsDropped) {
            products.retain(|product| !product.is_subnormal());
        }
        let plain = products.iter().fold(0.0, |sum, x| sum + x);
        match products.split_first() {
            Some((first, rest)) if self.is(SumBegunWithFirstProduct) => {
                rest.iter().fold(*first, |sum, x| sum + x)
            }
            _ if self.is(SumTimesStepAtTheEnd) => plain * step,
            _ if self.is(SumFused) => rows
                .iter()
                .fold(0.0, |sum, row| (row[5] * row[2]).mul_add(step, sum)),
            _ => plain,
        }
    }

    fn accepted(&self, job: &Job, steps: &Checked, rows: &[[f64; ROW]]) -> RunAnswer {
        RunAnswer {
            number: 0,
            step: match self.is(StepOfAcceptanceLast) {
                true => (rows.len() as u64).saturating_sub(1),
                false => 0,
            },
            count: rows.len() as u64,
            sum: self.sum(job, steps, rows),
        }
    }

    /// Stores the rows up to the first that is refused, and gives them back.
    fn rows(
        &self,
        judge: &mut Judge,
        job: &Job,
        steps: &Checked,
        results: &mut [u8],
    ) -> (RunAnswer, Vec<[f64; ROW]>) {
        let mut rows = vec![];
        let only_steps: Vec<Step> = steps.iter().map(|&(step, _)| step).collect();
        for (k, &(step, readings)) in steps.iter().enumerate() {
            let summer = self.summer_at(job, &only_steps, k);
            match self.row(judge, job, summer, (step, readings)) {
                Ok(_) if self.is(FirstStepCopied) && k > 0 => rows.push(rows[0]),
                Ok(row) => rows.push(row),
                Err(number) => {
                    if self.is(RefusedRowStored) {
                        let row = judge.hour(&job.site, &job.surface, step.hour, readings);
                        self.store(results, ROW * k, &row[..5]);
                    }
                    let answer = self.refused(number, k, self.sum(job, steps, &rows));
                    return (answer, rows);
                }
            }
            self.store(results, ROW * k, &rows[k]);
        }
        (self.accepted(job, steps, &rows), rows)
    }

    fn run(
        &self,
        judge: &mut Judge,
        job: &Job,
        [days, totals, results]: [&mut [u8]; 3],
    ) -> RunAnswer {
        if self.is(RefusesAll) {
            return refused(1, 0);
        }
        let steps = match self.checked(job, [days.len(), totals.len(), results.len()]) {
            Ok(steps) => steps,
            Err(number) => {
                self.table_of_refused(number, job, days);
                self.totals_of_refused(number, job, totals);
                if self.is(WrongEditionResultsCleared) && number == WRONG_EDITION
                    || self.is(WrongLeafDayResultsCleared) && number == WRONG_LEAF_DAY
                {
                    results.fill(0);
                }
                return self.refused(number, 0, 0.0);
            }
        };
        let (answer, rows) = self.steps_run(judge, job, &steps, results);
        let totals_short = totals.len() < totals_length(job.site.leap_year);
        if self.is(ShortTableAfterTheSteps) && days.len() < DAYS_LENGTH
            || self.is(ShortTotalsAfterTheSteps) && totals_short
        {
            return self.refused(7, 0, 0.0);
        }
        if !self.table_left(job, &answer, &steps) {
            self.fill(job, &steps, days);
        }
        self.keep_totals(judge, job, (&answer, &steps), &rows, totals);
        answer
    }

    /// A run that passed the checks.
    fn steps_run(
        &self,
        judge: &mut Judge,
        job: &Job,
        steps: &Checked,
        results: &mut [u8],
    ) -> (RunAnswer, Vec<[f64; ROW]>) {
        let edition = self.edition(job.edition).unwrap_or(EDITION_1);
        judge.lend(edition, self.lists_of_run(job).unwrap());
        let before = results.to_vec();
        if self.is(RowsClearedFirst) {
            results[..8 * ROW * steps.len()].fill(0);
        }
        let (mut answer, rows) = self.rows(judge, job, steps, results);
        let refused = answer.number != 0;
        if self.is(SumOfTheMonthsSums) && !refused {
            answer.sum = self.sum_of_months(job, steps, &rows);
        }
        if self.is(StoresNothing) || self.is(EarlierRowsTakenBack) && refused {
            results.copy_from_slice(&before);
        }
        if self.is(BytesPastTheLastTouched) && !refused {
            results[8 * ROW * steps.len()..].fill(0);
        }
        (answer, rows)
    }

    // --- Single steps ---

    fn single_checked(&self, single: &Single, by: Calls, doubles: usize) -> Option<u64> {
        let objects = by == Calls::Step;
        let time = single.time;
        let time_fine = 0.0 <= time && time <= 8784.0 || self.is(StepNanTime) && time.is_nan();
        let hours = self.hours(&single.site) + self.is(StepAtTheYearsEnd) as u32;
        let mut surface = single.surface;
        if self.is(IrradianceHeightUnchecked) && !objects {
            surface[3] = 1.0;
        }
        let site_fine = self.site_fine(&single.site) || self.is(StepSiteUnchecked) && objects;
        let objects_fine = !objects || self.lists_of_single(single).is_some();
        let wrong_leaf_day = self.leaf_days_wrong(by, &single.site, false);
        let readings_fine = (0..3).all(|k| reading_fine(k, single.readings[k]));
        let too_short = match self.is(IrradianceResultsShort) && !objects {
            true => single.results.len() / 8 < doubles - 1,
            false => single.results.len() / 8 < doubles,
        };
        let wrong_edition = objects && self.edition(single.edition).is_none();
        let mut checks = [
            (wrong_edition, WRONG_EDITION),
            (!site_fine, 1),
            (wrong_leaf_day, WRONG_LEAF_DAY),
            (!time_fine || time.floor() as u32 >= hours, 2),
            (!surface_fine(&surface), 3),
            (!objects_fine, 4),
            (!readings_fine, 6),
            (too_short && !(self.is(StepResultsUnchecked) && objects), 7),
        ];
        self.leaf_day_placed(by, &mut checks);
        if self.is(StepReadingBeforeObject) {
            checks.swap(5, 6);
        }
        if self.is(StepEditionAfterSite) {
            checks.swap(0, 1);
        }
        if self.is(StepEditionAfterResults) {
            checks.rotate_left(1);
        }
        checks.iter().find(|(holds, _)| *holds).map(|&(_, n)| n)
    }

    /// 15 among the checks of a single step, where it is by the flaw.
    fn leaf_day_placed(&self, by: Calls, checks: &mut [(bool, u64); 8]) {
        let [before_site, after_run, after_results] = match by {
            Calls::Irradiance => [
                IrradianceLeafDayBeforeSite,
                IrradianceLeafDayAfterRun,
                IrradianceLeafDayAfterResults,
            ],
            _ => [
                StepLeafDayBeforeSite,
                StepLeafDayAfterRun,
                StepLeafDayAfterResults,
            ],
        };
        match () {
            _ if self.is(StepLeafDayBeforeEdition) => checks[..3].rotate_right(1),
            _ if self.is(before_site) => checks.swap(1, 2),
            _ if self.is(after_run) => checks.swap(2, 3),
            _ if self.is(after_results) => checks[2..].rotate_left(1),
            _ => {}
        }
    }

    fn step(&self, judge: &mut Judge, single: &Single, results: &mut [u8]) -> u64 {
        if let Some(number) = self.single_checked(single, Calls::Step, ROW) {
            if self.is(StepWrongEditionStores) && number == WRONG_EDITION
                || self.is(StepWrongLeafDayStores) && number == WRONG_LEAF_DAY
            {
                results.fill(0);
            }
            return number;
        }
        let edition = self.edition(single.edition).unwrap();
        judge.lend(edition, self.lists_of_single(single).unwrap());
        let summer = self.summer_of_single(single);
        judge.walk_in(summer);
        let hour = (single.time.floor() as u32).min(8783);
        let (site, surface) = (&single.site, &single.surface);
        let row = self.row_at(judge, site, surface, hour, single.readings);
        match self.with_fins(row, surface, || single.objects(summer)) {
            Ok(mut row) => {
                if self.is(StepWithoutFactor) {
                    row[5] = 1.0;
                }
                self.store(results, 0, &row);
                0
            }
            Err(number) => {
                if self.is(StepStoresOnRefusal) {
                    let row = judge.hour(site, surface, hour, single.readings);
                    self.store(results, 0, &row[..5]);
                }
                number
            }
        }
    }

    fn irradiance(&self, judge: &mut Judge, single: &Single, results: &mut [u8]) -> u64 {
        if let Some(number) = self.single_checked(single, Calls::Irradiance, IRRADIANCE_ROW) {
            if self.is(IrradianceWrongLeafDayStores) && number == WRONG_LEAF_DAY {
                results.fill(0);
            }
            return number;
        }
        let mut site = single.site;
        if self.is(ConversionIgnored) {
            site.direct_beam_conversion = 0;
        }
        let hour = single.time.floor() as u32;
        let mut row = self.hour(judge, &site, &single.surface, hour, single.readings);
        if self.is(SkyAndGroundSwapped) {
            row.swap(5, 8);
        }
        let stored = if self.is(BreakdownLeftOut) { 5 } else { 9 };
        self.store(results, 0, &row[..stored]);
        0
    }
}

type Row = Result<[f64; ROW], u64>;

// --- Behind the C interface ---

thread_local! {
    static JUDGE: RefCell<Judge> = RefCell::new(Judge::new());
}

unsafe fn list(start: *const u8, len: usize) -> Vec<u8> {
    std::slice::from_raw_parts(start, len).to_vec()
}

/// Changes the byte beside a list at which there is no guard page.
unsafe fn write_beside(start: *mut u8, len: usize) {
    let end = start.add(len);
    let guarded = end as usize % crate::guarded::PAGE == 0;
    *(if guarded { start.sub(1) } else { end }) ^= 1;
}

/// The three calls with what they are given made into records.
macro_rules! extern_calls {
    ($run:ident, $step:ident, $irradiance:ident, $flaw:ident, $answers:expr) => {
        unsafe extern "C" fn $run<const $flaw: u16>(
            edition: u64,
            latitude: f64,
            longitude: f64,
            timezone: i64,
            start_day: u64,
            series_step: f64,
            leap_year: u64,
            direct_beam_conversion: u64,
            first_leaf_day: u64,
            last_leaf_day: u64,
            start: f64,
            end: f64,
            step: f64,
            tilt: f64,
            orientation: f64,
            base_height: f64,
            height: f64,
            width: f64,
            diffuse: *const u8,
            diffuse_len: usize,
            direct: *const u8,
            direct_len: usize,
            reflectivity: *const u8,
            reflectivity_len: usize,
            summer: *const u8,
            summer_len: usize,
            winter: *const u8,
            winter_len: usize,
            window: *const u8,
            window_len: usize,
            days: *mut u8,
            days_len: usize,
            totals: *mut u8,
            totals_len: usize,
            results: *mut u8,
            results_len: usize,
        ) -> RunAnswer {
            let mut job = Job {
                edition,
                site: JobSite {
                    latitude,
                    longitude,
                    timezone,
                    start_day,
                    series_step,
                    leap_year,
                    direct_beam_conversion,
                    first_leaf_day,
                    last_leaf_day,
                },
                times: [start, end, step],
                surface: [tilt, orientation, base_height, height, width],
                series: [
                    list(diffuse, diffuse_len),
                    list(direct, direct_len),
                    list(reflectivity, reflectivity_len),
                ],
                summer: list(summer, summer_len),
                winter: list(winter, winter_len),
                window: list(window, window_len),
                days: list(days, days_len),
                totals: list(totals, totals_len),
                results: vec![],
            };
            let ends = |start: *const u8, len: usize| start as usize..start as usize + len;
            let (summers, winters) = (ends(summer, summer_len), ends(winter, winter_len));
            if $flaw == OneMemoryTakenForNoWinter as u16 && summers == winters {
                job.winter.clear();
            }
            let overlap = summers.start < winters.end && winters.start < summers.end;
            if $flaw == OverlappingListsRefused as u16 && overlap && summers != winters {
                return refused(4, 0);
            }
            if $flaw == SeriesWrittenTo as u16 && direct_len > 100 {
                direct.cast_mut().add(50).write(job.series[1][50] ^ 1);
            }
            if $flaw == WritesBeside as u16 {
                write_beside(results, results_len);
            }
            if $flaw == WritesBesideTheTable as u16 {
                write_beside(days, days_len);
            }
            if $flaw == WritesBesideTheTotals as u16 {
                write_beside(totals, totals_len);
            }
            let written = [
                (days, days_len),
                (totals, totals_len),
                (results, results_len),
            ];
            let written = written.map(|(start, len)| std::slice::from_raw_parts_mut(start, len));
            JUDGE.with_borrow_mut(|judge| $answers.0(judge, &job, written))
        }

        unsafe extern "C" fn $step<const $flaw: u16>(
            edition: u64,
            latitude: f64,
            longitude: f64,
            timezone: i64,
            start_day: u64,
            series_step: f64,
            leap_year: u64,
            direct_beam_conversion: u64,
            first_leaf_day: u64,
            last_leaf_day: u64,
            time: f64,
            tilt: f64,
            orientation: f64,
            base_height: f64,
            height: f64,
            width: f64,
            diffuse: f64,
            direct: f64,
            reflectivity: f64,
            summer: *const u8,
            summer_len: usize,
            winter: *const u8,
            winter_len: usize,
            window: *const u8,
            window_len: usize,
            results: *mut u8,
            results_len: usize,
        ) -> u64 {
            let results = std::slice::from_raw_parts_mut(results, results_len);
            let single = Single {
                edition,
                site: JobSite {
                    latitude,
                    longitude,
                    timezone,
                    start_day,
                    series_step,
                    leap_year,
                    direct_beam_conversion,
                    first_leaf_day,
                    last_leaf_day,
                },
                time,
                surface: [tilt, orientation, base_height, height, width],
                readings: [diffuse, direct, reflectivity],
                summer: list(summer, summer_len),
                winter: list(winter, winter_len),
                window: list(window, window_len),
                results: results.to_vec(),
            };
            JUDGE.with_borrow_mut(|judge| $answers.1(judge, &single, results))
        }

        unsafe extern "C" fn $irradiance<const $flaw: u16>(
            latitude: f64,
            longitude: f64,
            timezone: i64,
            start_day: u64,
            series_step: f64,
            leap_year: u64,
            direct_beam_conversion: u64,
            first_leaf_day: u64,
            last_leaf_day: u64,
            time: f64,
            tilt: f64,
            orientation: f64,
            base_height: f64,
            height: f64,
            width: f64,
            diffuse: f64,
            direct: f64,
            reflectivity: f64,
            results: *mut u8,
            results_len: usize,
        ) -> u64 {
            let results = std::slice::from_raw_parts_mut(results, results_len);
            let single = Single {
                edition: EDITION_1, // it has none
                site: JobSite {
                    latitude,
                    longitude,
                    timezone,
                    start_day,
                    series_step,
                    leap_year,
                    direct_beam_conversion,
                    first_leaf_day,
                    last_leaf_day,
                },
                time,
                surface: [tilt, orientation, base_height, height, width],
                readings: [diffuse, direct, reflectivity],
                summer: vec![],
                winter: vec![],
                window: vec![],
                results: results.to_vec(),
            };
            JUDGE.with_borrow_mut(|judge| $answers.2(judge, &single, results))
        }
    };
}

/// What answers a run, which is lent a table of days, totals and results, a step and an irradiance.
struct Answers(
    fn(&mut Judge, &Job, [&mut [u8]; 3]) -> RunAnswer,
    fn(&mut Judge, &Single, &mut [u8]) -> u64,
    fn(&mut Judge, &Single, &mut [u8]) -> u64,
);

fn plain<const FLAW: u16>() -> Answers {
    Answers(
        |judge, job, written| Plain { flaw: FLAW }.run(judge, job, written),
        |judge, single, results| Plain { flaw: FLAW }.step(judge, single, results),
        |judge, single, results| Plain { flaw: FLAW }.irradiance(judge, single, results),
    )
}

extern_calls!(
    plain_run,
    plain_step,
    plain_irradiance,
    FLAW,
    plain::<FLAW>()
);

fn engine<const FLAW: u16>() -> Library {
    Library {
        run: plain_run::<FLAW>,
        step: plain_step::<FLAW>,
        irradiance: plain_irradiance::<FLAW>,
    }
}

/// The flaw in one of the calls, the others without it.
fn only(told: &str, flawed: Library) -> Library {
    let mut library = without_flaw();
    match told {
        "step" => library.step = flawed.step,
        "irradiance" => library.irradiance = flawed.irradiance,
        _ => library.run = flawed.run,
    }
    library
}

/// The plain form without a flaw, which has to pass.
pub fn without_flaw() -> Library {
    engine::<{ Nothing as u16 }>()
}

// --- Engines that break a law ---

#[derive(Clone, Copy, PartialEq)]
#[repr(u16)]
pub enum Lawless {
    FirstObjectLeftOut,
    LastObjectAlone,
    ObjectsCounted,
    AboveTheWhole,
    NeverWhole,
    SumByTheObjects,
    SumByTheFirstObject,
    SumWithoutTheStep,
    HoursAnUlpLonger,
    CountsByTheObjects,
    LargestByTheObjects,
    DaySumsByTheObjects,
    MonthSumsByTheObjects,
    DaySumsByTheFirstObject,
    DaySumsBelowZero,
    MonthSumsDoubled,
    ByteBehindByTheObjects,
    FactorByTheEdition,
    DirectByTheEdition,
    LargestByTheEdition,
    WinterFactorsByTheSummersSectors,
    SummerFactorsByTheWintersSectors,
    FactorByTheLeafDays,
    SumByTheLeafDays,
    DaySumsByTheLeafDays,
    RefusalByTheLeafDays,
    SizesNotLookedAt,
    TallDistantObstacleDropped,
    CloseDistantObstacleDropped,
    DeepWindowOverhangDropped,
    TallNearObstacleDropped,
    CloseNearObstacleDropped,
    ClearTakenAsOpaque,
    LowDistantOverhangDropped,
    FarDistantOverhangDropped,
    WindowOverhangAtTheEdgeDropped,
    FinAtTheEdgeDropped,
    DeepFinDropped,
    DirectByTheSizes,
    SumByTheSizes,
    CountsByTheSizes,
    LargestByTheSizes,
    DaySumsByTheSizes,
    MonthSumsByTheSizes,
    TableOfDaysByTheSizes,
    StepOfRefusalByTheSizes,
    NumberOfRefusalByTheSizes,
}

impl Lawless {
    pub fn is(self, way: u16) -> bool {
        self as u16 == way
    }
}

/// The job without some of its objects at the window, and how many there were.
fn objects_left_out(way: u16, job: &Job) -> (Job, usize) {
    let mut scene = Scene::of(&job.objects(true));
    let objects = scene.window.len();
    if Lawless::FirstObjectLeftOut.is(way) && objects > 0 {
        scene.window.remove(0);
    }
    if Lawless::LastObjectAlone.is(way) && objects > 0 {
        scene.window.drain(..objects - 1);
    }
    let changed = scene.call();
    let mut job = job.clone();
    if 32 * objects == job.window.len() {
        job.window = changed.window;
    }
    (job, objects)
}

/// What becomes of a step's factor.
fn lawless_factor(way: u16, job: &Job, mut factor: f64, objects: usize) -> f64 {
    if Lawless::FactorByTheEdition.is(way) {
        factor *= 1.0 - job.edition as f64 / 1000.0;
    }
    if Lawless::ObjectsCounted.is(way) {
        factor *= 1.0 - objects as f64 / 1000.0;
    }
    if Lawless::AboveTheWhole.is(way) && factor == 1.0 {
        factor = ulps_from(1.0, 1);
    }
    if Lawless::SizesNotLookedAt.is(way) {
        factor = 0.5;
    }
    if Lawless::NeverWhole.is(way) && factor == 1.0 {
        factor = ulps_from(1.0, -1);
    }
    factor
}

/// What becomes of a step's direct value.
fn lawless_direct(way: u16, job: &Job, direct: f64) -> f64 {
    match () {
        _ if Lawless::DirectByTheEdition.is(way) => direct + job.edition as f64,
        _ if Lawless::DirectByTheSizes.is(way) => direct + by_the_sizes(job) as f64,
        _ => direct,
    }
}

/// What the factor of a step is multiplied by: something of the other season's sectors, or of the leaf
/// days.
fn lawless_season(way: u16, job: &Job, step: &Step) -> f64 {
    // the counts of objects in the first sectors, and the bytes of their kinds and sizes
    let sum = |list: &[u8]| list.iter().map(|&byte| byte as f64).sum::<f64>();
    let summer = Seasons::of(&job.site).is_summer(step.day);
    let by = match summer {
        true if Lawless::SummerFactorsByTheWintersSectors.is(way) => sum(&job.winter),
        false if Lawless::WinterFactorsByTheSummersSectors.is(way) => sum(&job.summer),
        _ if Lawless::FactorByTheLeafDays.is(way) => job.site.first_leaf_day as f64,
        _ => 0.0,
    };
    1.0 / (1.0 + by / 1e6)
}

/// What becomes of the step by which the sum is taken.
fn lawless_hours(way: u16, step: f64) -> f64 {
    match () {
        _ if Lawless::SumWithoutTheStep.is(way) => 1.0,
        _ if Lawless::HoursAnUlpLonger.is(way) => ulps_from(step, 1),
        _ => step,
    }
}

/// What becomes of a year's totals.
fn lawless_totals(way: u16, job: &Job, objects: usize, totals: &mut [u8]) {
    let days = days_in_year(job.site.leap_year);
    let first_kind = job.window.first().map_or(0.0, |&kind| kind as f64);
    let sizes = by_the_sizes(job);
    let records = totals_of(&totals[..totals_length(job.site.leap_year)]);
    for (place, mut kept) in records.into_iter().enumerate() {
        let (some, of_a_day) = (kept.count > 0, place < days);
        match () {
            _ if !some => {}
            _ if Lawless::CountsByTheObjects.is(way) => kept.count += objects as u64,
            _ if Lawless::LargestByTheObjects.is(way) => kept.largest += objects as f64,
            _ if Lawless::LargestByTheEdition.is(way) => kept.largest += job.edition as f64,
            _ if Lawless::DaySumsByTheObjects.is(way) && of_a_day => kept.sum += objects as f64,
            _ if Lawless::MonthSumsByTheObjects.is(way) && !of_a_day => kept.sum += objects as f64,
            _ if Lawless::DaySumsByTheFirstObject.is(way) && of_a_day => kept.sum += first_kind,
            _ if Lawless::DaySumsBelowZero.is(way) && of_a_day => kept.sum = -1.0 - kept.sum,
            _ if Lawless::MonthSumsDoubled.is(way) && !of_a_day => kept.sum *= 2.0,
            _ if Lawless::DaySumsByTheLeafDays.is(way) && of_a_day => {
                kept.sum += job.site.first_leaf_day as f64
            }
            _ if Lawless::CountsByTheSizes.is(way) => kept.count += sizes,
            _ if Lawless::LargestByTheSizes.is(way) => kept.largest += sizes as f64,
            _ if Lawless::DaySumsByTheSizes.is(way) && of_a_day => kept.sum += sizes as f64,
            _ if Lawless::MonthSumsByTheSizes.is(way) && !of_a_day => kept.sum += sizes as f64,
            _ => {}
        }
        let words = [kept.count, kept.largest.to_bits(), kept.sum.to_bits()];
        let bytes = words.map(u64::to_le_bytes).concat();
        totals[bytes.len() * place..][..bytes.len()].copy_from_slice(&bytes);
    }
    let byte = totals.get_mut(totals_length(job.site.leap_year));
    if let (Some(byte), true) = (byte, Lawless::ByteBehindByTheObjects.is(way)) {
        *byte ^= objects as u8;
    }
}

/// What is added to the sum.
fn lawless_sum(way: u16, job: &Job, objects: usize) -> f64 {
    // a record begins with its kind, least byte first
    let first_kind = job.window.first().map_or(0.0, |&kind| kind as f64);
    match () {
        _ if Lawless::SumByTheObjects.is(way) => objects as f64,
        _ if Lawless::SumByTheFirstObject.is(way) => first_kind,
        _ if Lawless::SumByTheLeafDays.is(way) => job.site.last_leaf_day as f64,
        _ if Lawless::SumByTheSizes.is(way) => by_the_sizes(job) as f64,
        _ => 0.0,
    }
}

fn lawless_run<const WAY: u16>(
    judge: &mut Judge,
    job: &Job,
    [days, totals, results]: [&mut [u8]; 3],
) -> RunAnswer {
    let (job, objects) = objects_left_out(WAY, job);
    let mut answer = judge.run(&job, days, totals, results);
    if answer.number != 0 {
        answer.step += Lawless::RefusalByTheLeafDays.is(WAY) as u64 * job.site.first_leaf_day;
        refusal_by_size(WAY, &job, &mut answer);
        return answer;
    }
    days_by_size(WAY, &job, days);
    lawless_totals(WAY, &job, objects, totals);
    let hours = lawless_hours(WAY, job.times[2]);
    let steps = steps_of(&job.site, &job.times);
    let mut sum = 0.0;
    for (row, step) in results.chunks_exact_mut(8 * ROW).zip(&steps) {
        let doubles = doubles_of(row);
        let season = lawless_season(WAY, &job, step);
        let factor = factor_by_size(WAY, &job, step, &doubles);
        let factor = lawless_factor(WAY, &job, factor, objects) * season;
        let direct = lawless_direct(WAY, &job, doubles[2]);
        store(row, 2, &[direct]);
        store(row, 5, &[factor]);
        sum += (factor * direct) * hours;
    }
    answer.sum = sum + lawless_sum(WAY, &job, objects);
    answer
}

fn lawless<const WAY: u16>() -> Answers {
    Answers(lawless_run::<WAY>, |_, _, _| 0, |_, _, _| 0)
}

extern_calls!(run_by, step_by, irradiance_by, WAY, lawless::<WAY>());

macro_rules! ways {
    ($told:expr; $($way:ident),*) => {
        vec![$(Wrong {
            by: By::All,
            told: $told,
            what: stringify!($way),
            library: Library {
                run: run_by::<{ Lawless::$way as u16 }>,
                step: step_by::<{ Lawless::$way as u16 }>,
                irradiance: irradiance_by::<{ Lawless::$way as u16 }>,
            },
        }),*]
    };
}

/// What equal lists with other leaf days have to find, tried alone.
pub fn by_leaf_days() -> Vec<Wrong> {
    ways!(String::from("run with equal lists");
        FactorByTheLeafDays, SumByTheLeafDays, DaySumsByTheLeafDays, RefusalByTheLeafDays)
}

/// What each law has to find, tried alone.
pub fn lawless_engines(law: Law) -> Vec<Wrong> {
    let told = || format!("run breaks the law of the {}:", law.name());
    match law {
        Law::Range => {
            ways!(told(); AboveTheWhole, SumWithoutTheStep, DaySumsBelowZero, MonthSumsDoubled)
        }
        Law::Reordered => ways!(told();
            FirstObjectLeftOut, LastObjectAlone, SumByTheFirstObject, DaySumsByTheFirstObject),
        Law::Repeated => ways!(told();
            ObjectsCounted, SumByTheObjects, CountsByTheObjects, LargestByTheObjects,
            DaySumsByTheObjects, MonthSumsByTheObjects, ByteBehindByTheObjects,
            WinterFactorsByTheSummersSectors, SummerFactorsByTheWintersSectors),
        Law::Enlarged => ways!(told();
            LastObjectAlone, SumByTheObjects, CountsByTheObjects, LargestByTheObjects,
            DaySumsByTheObjects, MonthSumsByTheObjects,
            WinterFactorsByTheSummersSectors, SummerFactorsByTheWintersSectors),
        Law::Emptied => ways!(told();
            NeverWhole, SumWithoutTheStep, CountsByTheObjects, LargestByTheObjects,
            MonthSumsDoubled),
        Law::OtherEdition => ways!(told();
            FactorByTheEdition, DirectByTheEdition, LargestByTheEdition),
    }
}

/// What each law about sizes has to find, tried alone.
pub fn lawless_sizes(law: SizeLaw) -> Vec<Wrong> {
    let told = || format!("run breaks the law of the {}:", law.name());
    let mut engines = match law {
        SizeLaw::TallerDistantObstacle => ways!(told(); TallDistantObstacleDropped),
        SizeLaw::NearerDistantObstacle => ways!(told(); CloseDistantObstacleDropped),
        SizeLaw::DeeperWindowOverhang => ways!(told(); DeepWindowOverhangDropped),
        SizeLaw::TallerNearObstacle => ways!(told(); TallNearObstacleDropped),
        SizeLaw::NearerNearObstacle => ways!(told(); CloseNearObstacleDropped),
        SizeLaw::ClearerNearObstacle => ways!(told(); ClearTakenAsOpaque),
        SizeLaw::LowerDistantOverhang => ways!(told();
            LowDistantOverhangDropped, WinterFactorsByTheSummersSectors),
        SizeLaw::FartherDistantOverhang => ways!(told();
            FarDistantOverhangDropped, SummerFactorsByTheWintersSectors),
        SizeLaw::NearerWindowOverhang => ways!(told(); WindowOverhangAtTheEdgeDropped),
        SizeLaw::NearerFin => ways!(told(); FinAtTheEdgeDropped),
        SizeLaw::DeeperFin => ways!(told(); DeepFinDropped),
        SizeLaw::Several => ways!(told();
            TallDistantObstacleDropped, DeepWindowOverhangDropped, ClearTakenAsOpaque,
            DirectByTheSizes, CountsByTheSizes, LargestByTheSizes, TableOfDaysByTheSizes,
            StepOfRefusalByTheSizes, NumberOfRefusalByTheSizes),
    };
    engines.extend(ways!(told(); SumByTheSizes, DaySumsByTheSizes, MonthSumsByTheSizes));
    engines
}

/// What the counts of the laws about sizes have to find: that nothing ever changed.
pub fn sizes_not_looked_at() -> Vec<Wrong> {
    ways!(String::from("run: pairs,"); SizesNotLookedAt)
}

/// What the figures of runs by the hour have to find, tried alone.
pub fn other_figures() -> Vec<Wrong> {
    ways!(String::from("run by the hour"); HoursAnUlpLonger)
}
