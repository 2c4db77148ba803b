//! Factors that are wrong in one small way each. The self-test has to find them all.
//!
//! They are one plain form of the factor, by which a flaw is built in where it is asked for.
//! `wrong_sizes.rs` has what it does about sizes.

use super::call::*;
use super::laws::Law;
use super::sizes::SizeLaw;
use super::wrong_sizes::least_size;
use crate::pilgartze::{FactorAnswer, FactorCall, EDITION_1, EDITION_2};
use crate::published::shading::*;
use crate::random::ulps_from;
use crate::stand_ins::{cos, float_max, float_min, max_of_2, min_of_2, tan, to_radians};

#[derive(Clone, Copy, PartialEq)]
pub enum Flaw {
    /// None: the plain form itself has to pass.
    Nothing,

    // the checks
    AzimuthWithin180,
    MinusZeroOutOfRange,
    NanTaken,
    LeastHeightOpen,
    GreatestWidthOpen,
    ListsBeforeSurface,
    SectorsThirtySeven,
    SectorCountNine,
    SectorCountOfFourBytes,
    SectorKindTwo,
    SectorDistanceZero,
    SectorPartRecordDropped,
    UnusedTripleNotLookedAt,
    UnusedMinusZeroTaken,
    LaterSectorsUnchecked,
    WindowSeventeen,
    WindowKindFive,
    WindowSizeZero,
    WindowDistanceOpen,
    WindowPartRecordDropped,
    SpareWordNotLookedAt,
    SpareMinusZeroTaken,
    TransparencyUnchecked,
    FactorKeptWhereRefused,
    ListWrittenTo,

    // the edition
    EditionNotLookedAt,
    EditionZeroTaken,
    EditionThreeTaken,
    EditionOneForTwo,
    EditionTwoForOne,
    EditionOfFourBytes,
    EditionAfterSurface,
    EditionAfterObjects,
    EditionAfterTheWalk,
    WrongEditionFactorOne,

    // the beam
    BeamEndOpen,
    BeamNotWrapped,
    BeamWithoutTilt,
    RevealOutsideBeam,
    FactorOneAlways,

    // the walk
    StartClosed,
    EndClosed,
    AllSectorsChecked,
    TurnedBeforeGap,
    FirstStartNotFree,
    GapByBits,
    NoSectorWithoutWalk,
    RevealBeforeWalk,
    SectorBefore,
    FirstNotMatched,
    FirstTurnedTaken,
    LastNotMatched,
    LastGapTaken,
    LastTurnedTaken,

    // the shade
    BaseHeightLeftOut,
    DistantOverhangLeftOut,
    RightFinMended,
    FinDifferenceWrapped,
    OverhangWithoutCosine,
    NearObstaclesEarly,
    NearObstacleAgainstDistantOverhang,
    TransparencyLeftOut,
    NearObstacleAlone,
    NearObstacleOverTheOverhang,
    HeightByTwoDifferences,
    PartsMultipliedLast,
    SixteenthLeftOut,

    // the fins of edition 2
    RightFinTangentNotTurned,
    FinSidesExchanged,
    FinDifferenceNotWrapped,
    RightFinDifferenceNotWrapped,
    LeftFinDifferenceNotWrapped,
    RightFinAsInEdition1,
    FinDistanceLeftOut,
    OverhangCosineWrapped,

    // what breaks a law
    LastObjectCounts,
    ExtentsAdded,
    OneByAQuotient,
    NearObstacleReplaces,
    DarkBelowZero,
    SkyNeverWhole,

    // what breaks a law about sizes: shade that is dropped,
    TallDistantObstacleDropped,
    CloseDistantObstacleDropped,
    DeepWindowOverhangDropped,
    TallNearObstacleDropped,
    CloseNearObstacleDropped,
    ClearTakenAsOpaque,
    LowDistantOverhangDropped,
    FarDistantOverhangDropped,
    WindowOverhangAtTheEdgeDropped,
    FinAtTheEdgeDropped,
    DeepFinDropped,
    // a field's last bit,
    DistantObstacleHeightTurned,
    DistantObstacleDistanceTurned,
    WindowOverhangDepthTurned,
    NearObstacleHeightTurned,
    NearObstacleDistanceTurned,
    TransparencyTurned,
    DistantOverhangHeightTurned,
    DistantOverhangDistanceTurned,
    WindowOverhangDistanceTurned,
    FinDistanceTurned,
    FinDepthTurned,
    // and refusals that depend on a size
    SubnormalSizeRefused,
    GapOfTallObjectsTurned,
    TurnOfTallObjectsNoSector,
    NoSectorOfTallObjectsGap,
    RevealBesideTallObjectsNoSector,
}
use Flaw::*;

/// The last place that a list can have.
const LAST: usize = MOST_SECTORS - 1;

/// The factor with a flaw.
pub struct Plain {
    pub flaw: Flaw,
}

/// The sun on the surface, and the edition by which fins shade.
struct Sun {
    edition: u64,
    tan_altitude: f64,
    difference: f64,
}

/// The shade so far: heights by obstacles and overhangs, widths by right and left fins.
#[derive(Clone, Copy, Default)]
struct Shade {
    obstacle: f64,
    overhang: f64,
    right: f64,
    left: f64,
}

pub(super) fn double(word: u64) -> f64 {
    f64::from_bits(word)
}

/// One turn brings an angle into −180..180.
fn wrapped(x: f64) -> f64 {
    if x > 180.0 {
        x - 360.0
    } else if x < -180.0 {
        x + 360.0
    } else {
        x
    }
}

impl Plain {
    pub(super) fn is(&self, flaw: Flaw) -> bool {
        self.flaw == flaw
    }

    // --- The checks ---

    /// The edition that is taken, if one is.
    fn edition(&self, named: u64) -> Option<u64> {
        let named = match self.is(EditionOfFourBytes) {
            true => named as u32 as u64,
            false => named,
        };
        match named {
            0 if self.is(EditionZeroTaken) => Some(EDITION_1),
            3 if self.is(EditionThreeTaken) => Some(EDITION_2),
            EDITION_1 if self.is(EditionTwoForOne) => Some(EDITION_2),
            EDITION_2 if self.is(EditionOneForTwo) => Some(EDITION_1),
            _ if self.is(EditionNotLookedAt) => Some(EDITION_1),
            EDITION_1 | EDITION_2 => Some(named),
            _ => None,
        }
    }

    fn numbers_fine(&self, numbers: &Numbers) -> bool {
        numbers
            .iter()
            .zip(RANGES)
            .enumerate()
            .all(|(place, (&x, (low, high)))| match place {
                _ if self.is(MinusZeroOutOfRange) && x == 0.0 => x.to_bits() == 0,
                _ if self.is(NanTaken) => !(x < low || x > high),
                AZIMUTH if self.is(AzimuthWithin180) => -180.0 <= x && x <= 180.0,
                HEIGHT if self.is(LeastHeightOpen) => low < x && x <= high,
                WIDTH if self.is(GreatestWidthOpen) => low <= x && x < high,
                _ => low <= x && x <= high,
            })
    }

    fn zero(&self, word: u64, minus_too: Flaw) -> bool {
        word == 0 || (self.is(minus_too) && double(word) == 0.0)
    }

    fn sector_fine(&self, sector: &Sector) -> bool {
        let bound_fine = |word: u64| 0.0 <= double(word) && double(word) <= 360.0;
        let count = match self.is(SectorCountOfFourBytes) {
            true => sector[COUNT] as u32 as u64,
            false => sector[COUNT],
        };
        let most = if self.is(SectorCountNine) { 9 } else { 8 };
        let mut triples = sector[TRIPLES..].chunks_exact(3).enumerate();
        let triple_fine = |(place, triple): (usize, &[u64])| {
            let (height, distance) = (double(triple[1]), double(triple[2]));
            if place as u64 >= count {
                let mut words = triple.iter();
                return self.is(UnusedTripleNotLookedAt)
                    || words.all(|&word| self.zero(word, UnusedMinusZeroTaken));
            }
            let distance_above = 0.0 < distance || (self.is(SectorDistanceZero) && distance == 0.0);
            triple[0] <= 1 + self.is(SectorKindTwo) as u64
                && (0.0 < height && height <= 1000.0)
                && (distance_above && distance <= 10_000.0)
        };
        bound_fine(sector[START])
            && bound_fine(sector[END])
            && count <= most
            && triples.all(triple_fine)
    }

    fn window_object_fine(&self, object: &WindowObject) -> bool {
        let [kind, size, distance, last] = *object;
        let (size, distance, transparency) = (double(size), double(distance), double(last));
        let size_above = 0.0 < size || (self.is(WindowSizeZero) && size == 0.0);
        let distance_fine = match self.is(WindowDistanceOpen) {
            true => 0.0 <= distance && distance < 10_000.0,
            false => 0.0 <= distance && distance <= 10_000.0,
        };
        let last_fine = match kind {
            OBSTACLE => {
                self.is(TransparencyUnchecked) || (0.0 <= transparency && transparency <= 1.0)
            }
            _ => self.is(SpareWordNotLookedAt) || self.zero(last, SpareMinusZeroTaken),
        };
        kind <= 4 + self.is(WindowKindFive) as u64
            && (size_above && size <= 1000.0)
            && distance_fine
            && last_fine
    }

    fn lists_fine(&self, call: &Call, scene: &Scene) -> bool {
        let whole = |bytes: &[u8], words: usize, part_dropped: Flaw| {
            bytes.len() % (8 * words) == 0 || self.is(part_dropped)
        };
        let mut sectors = scene.sectors.iter();
        whole(&call.sectors, SECTOR_WORDS, SectorPartRecordDropped)
            && whole(&call.window, WINDOW_WORDS, WindowPartRecordDropped)
            && scene.sectors.len() <= MOST_SECTORS + self.is(SectorsThirtySeven) as usize
            && scene.window.len() <= MOST_WINDOW_OBJECTS + self.is(WindowSeventeen) as usize
            && match self.is(LaterSectorsUnchecked) {
                true => sectors
                    .next()
                    .map_or(true, |sector| self.sector_fine(sector)),
                false => sectors.all(|sector| self.sector_fine(sector)),
            }
            && scene
                .window
                .iter()
                .all(|object| self.window_object_fine(object))
    }

    // --- The beam and the walk ---

    fn outside(&self, numbers: &Numbers) -> bool {
        let beside = 180.0 - numbers[ORIENTATION] - numbers[AZIMUTH];
        let beside = if self.is(BeamNotWrapped) {
            beside
        } else {
            wrapped(beside)
        };
        let above = numbers[TILT] - numbers[ALTITUDE];
        let within = |x: f64| match self.is(BeamEndOpen) {
            true => -90.0 < x && x < 90.0,
            false => -90.0 <= x && x <= 90.0,
        };
        !within(beside) || !(within(above) || self.is(BeamWithoutTilt))
    }

    /// Whether a sector starts elsewhere than the one before it ends.
    fn gap(&self, sectors: &[Sector], place: usize) -> bool {
        let (last, start) = match place {
            LAST if self.is(LastGapTaken) => return false,
            0 if !self.is(FirstStartNotFree) => return false,
            0 => (0, sectors[0][START]),
            _ => (sectors[place - 1][END], sectors[place][START]),
        };
        match self.is(GapByBits) {
            true => last != start,
            false => double(last) != double(start),
        }
    }

    /// The number that a sector's bounds are refused with, if they are.
    fn fault(&self, sectors: &[Sector], place: usize) -> Option<u64> {
        let turned = match place {
            0 if self.is(FirstTurnedTaken) => false,
            LAST if self.is(LastTurnedTaken) => false,
            _ => double(sectors[place][END]) < double(sectors[place][START]),
        };
        match (self.gap(sectors, place), turned) {
            (true, true) if self.is(TurnedBeforeGap) => Some(9),
            (true, _) => Some(8),
            (_, true) => Some(9),
            _ => None,
        }
    }

    /// Whether the sun stands in a sector.
    fn holds(&self, azimuth: f64, sector: &Sector) -> bool {
        let start = 180.0 - double(sector[START]);
        let end = 180.0 - double(sector[END]);
        let before = azimuth < start || (self.is(StartClosed) && azimuth == start);
        let after = azimuth > end || (self.is(EndClosed) && azimuth == end);
        before && after
    }

    /// The place of the sector with the sun, or the number of a refusal.
    fn walk(&self, azimuth: f64, sectors: &[Sector]) -> Result<usize, u64> {
        let fault = |place: usize| self.fault(sectors, place);
        if self.is(NoSectorWithoutWalk) {
            return Err(10);
        }
        if self.is(AllSectorsChecked) {
            if let Some(number) = (0..sectors.len()).find_map(fault) {
                return Err(number);
            }
        }
        for place in 0..sectors.len() {
            if let Some(number) = fault(place) {
                return Err(number);
            }
            let missed = match place {
                0 => self.is(FirstNotMatched),
                LAST => self.is(LastNotMatched),
                _ => false,
            };
            if !missed && self.holds(azimuth, &sectors[place]) {
                return Ok(place);
            }
        }
        Err(10)
    }

    // --- The shade ---

    /// The larger of two extents.
    fn larger(&self, so_far: f64, extent: f64) -> f64 {
        if self.is(LastObjectCounts) {
            return extent;
        }
        if self.is(ExtentsAdded) {
            return so_far + max_of_2(0.0, extent);
        }
        max_of_2(so_far, extent)
    }

    fn obstacle_height(&self, numbers: &Numbers, sun: &Sun, height: f64, distance: f64) -> f64 {
        let base = if self.is(BaseHeightLeftOut) {
            0.0
        } else {
            numbers[BASE_HEIGHT]
        };
        let shade = height - base - distance * sun.tan_altitude;
        if shade < 0.0 {
            0.0
        } else {
            shade
        }
    }

    fn add_distant(&self, shade: &mut Shade, numbers: &Numbers, sun: &Sun, triple: &[u64]) {
        let [height, distance, _] = self.fields(true, triple);
        let counted = |extent: f64| self.counted(numbers, true, triple, extent);
        if triple[0] == OBSTACLE {
            let extent = self.obstacle_height(numbers, sun, height, distance);
            shade.obstacle = self.larger(shade.obstacle, counted(extent));
        } else if !self.is(DistantOverhangLeftOut) {
            let (surface, base) = (numbers[HEIGHT], numbers[BASE_HEIGHT]);
            let extent = surface + base - height + distance * sun.tan_altitude;
            shade.overhang = self.larger(shade.overhang, counted(float_max(0.0, extent)));
        }
    }

    /// The width of a fin's shade, right or left, in edition 1.
    fn first_fin(&self, sun: &Sun, right: bool, depth: f64, distance: f64) -> f64 {
        let difference = match self.is(FinDifferenceWrapped) {
            true => wrapped(sun.difference),
            false => sun.difference,
        };
        let elsewhere = match right {
            true => difference > 0.0,
            false => difference < 0.0,
        };
        let tangent = tan(to_radians(difference));
        match elsewhere {
            true => 0.0,
            false if right && self.is(RightFinMended) => depth * -tangent - distance,
            false => depth * tangent - distance,
        }
    }

    /// The same in edition 2.
    fn second_fin(&self, sun: &Sun, right: bool, depth: f64, distance: f64) -> f64 {
        let as_it_is = self.is(FinDifferenceNotWrapped)
            || self.is(RightFinDifferenceNotWrapped) && right
            || self.is(LeftFinDifferenceNotWrapped) && !right;
        let difference = match as_it_is {
            true => sun.difference,
            false => wrapped(sun.difference),
        };
        let beside = match right != self.is(FinSidesExchanged) {
            true => -difference,
            false => difference,
        };
        let angle = match right && self.is(RightFinTangentNotTurned) {
            true => difference,
            false => beside,
        };
        match beside > 0.0 {
            true if self.is(FinDistanceLeftOut) => depth * tan(to_radians(angle)),
            true => depth * tan(to_radians(angle)) - distance,
            false => 0.0,
        }
    }

    fn fin(&self, sun: &Sun, right: bool, depth: f64, distance: f64) -> f64 {
        match sun.edition {
            EDITION_2 if right && self.is(RightFinAsInEdition1) => {
                self.first_fin(sun, right, depth, distance)
            }
            EDITION_2 => self.second_fin(sun, right, depth, distance),
            _ => self.first_fin(sun, right, depth, distance),
        }
    }

    /// The cosine by which an overhang shades.
    fn overhang_cosine(&self, sun: &Sun) -> f64 {
        match () {
            _ if self.is(OverhangWithoutCosine) => 1.0,
            _ if self.is(OverhangCosineWrapped) && sun.edition == EDITION_2 => {
                cos(to_radians(wrapped(sun.difference)))
            }
            _ => cos(to_radians(sun.difference)),
        }
    }

    fn add_at_the_window(
        &self,
        shade: &mut Shade,
        numbers: &Numbers,
        sun: &Sun,
        object: &WindowObject,
    ) {
        let [depth, distance, _] = self.fields(false, object);
        let counted = |extent: f64| self.counted(numbers, false, object, extent);
        match object[0] {
            OVERHANG => {
                let extent = depth * sun.tan_altitude / self.overhang_cosine(sun) - distance;
                shade.overhang = self.larger(shade.overhang, counted(extent));
            }
            RIGHT_FIN => {
                let width = self.fin(sun, true, depth, distance);
                shade.right = self.larger(shade.right, counted(width));
            }
            LEFT_FIN => {
                let width = self.fin(sun, false, depth, distance);
                shade.left = self.larger(shade.left, counted(width));
            }
            _ => {}
        }
    }

    /// What a height and a width in the sun make of the surface.
    fn part(&self, numbers: &Numbers, height: f64, width: f64) -> f64 {
        let (whole_height, whole_width) = (numbers[HEIGHT], numbers[WIDTH]);
        if self.is(PartsMultipliedLast) {
            return (height / whole_height) * (width / whole_width);
        }
        if self.is(OneByAQuotient) {
            return height * width * (1.0 / (whole_height * whole_width));
        }
        height * width / (whole_height * whole_width)
    }

    fn sunlit_width(&self, numbers: &Numbers, shade: &Shade) -> f64 {
        let width = numbers[WIDTH];
        let right = min_of_2(width, shade.right);
        let left = min_of_2(width, shade.left);
        max_of_2(0.0, width - (right + left))
    }

    /// What a near obstacle leaves, against the overhangs' shade.
    fn near(&self, numbers: &Numbers, sun: &Sun, shade: &Shade, object: &WindowObject) -> f64 {
        let [size, distance, transparency] = self.fields(false, object);
        let height = numbers[HEIGHT];
        let overhang = min_of_2(height, shade.overhang);
        let extent = self.obstacle_height(numbers, sun, size, distance);
        let obstacle = float_min(height, self.counted(numbers, false, object, extent));
        let above = float_max(0.0, height - (obstacle + overhang));
        let behind = match self.is(NearObstacleOverTheOverhang) {
            true => obstacle,
            false => float_min(obstacle, height - overhang),
        };
        let through = if self.is(TransparencyLeftOut) {
            0.0
        } else {
            transparency
        };
        let width = match self.is(NearObstacleAlone) {
            true => numbers[WIDTH],
            false => self.sunlit_width(numbers, shade),
        };
        self.part(numbers, above + behind * through, width)
    }

    /// The shade of the distant objects.
    fn distant(&self, numbers: &Numbers, sun: &Sun, sector: &Sector) -> Shade {
        let mut shade = Shade::default();
        let count = (sector[COUNT] as u32 as usize).min(8);
        for triple in sector[TRIPLES..].chunks_exact(3).take(count) {
            self.add_distant(&mut shade, numbers, sun, triple);
        }
        shade
    }

    /// Adds the shade of all objects at the window. The answer is the least that near obstacles
    /// leave, each against the shade of the objects before it.
    fn add_window(
        &self,
        shade: &mut Shade,
        numbers: &Numbers,
        sun: &Sun,
        window: &[WindowObject],
    ) -> f64 {
        let mut early: f64 = f64::INFINITY;
        for object in window {
            self.add_at_the_window(shade, numbers, sun, object);
            if object[0] == OBSTACLE {
                early = float_min(early, self.near(numbers, sun, shade, object));
            }
        }
        early
    }

    /// What all but the near obstacles leave.
    fn without_near(&self, numbers: &Numbers, shade: &Shade) -> f64 {
        let height = numbers[HEIGHT];
        let obstacle = min_of_2(height, shade.obstacle);
        let overhang = min_of_2(height, shade.overhang);
        let left_over = match self.is(HeightByTwoDifferences) {
            true => height - obstacle - overhang,
            false => height - (obstacle + overhang),
        };
        let width = self.sunlit_width(numbers, shade);
        self.part(numbers, max_of_2(0.0, left_over), width)
    }

    /// What a near obstacle leaves of the factor so far.
    fn lessened(&self, factor: f64, near: f64) -> f64 {
        match self.is(NearObstacleReplaces) {
            true => near,
            false => float_min(factor, near),
        }
    }

    fn in_sector(
        &self,
        edition: u64,
        numbers: &Numbers,
        sector: &Sector,
        window: &[WindowObject],
    ) -> f64 {
        let sun = Sun {
            edition,
            tan_altitude: tan(to_radians(numbers[ALTITUDE])),
            difference: difference(numbers),
        };
        let distant = self.distant(numbers, &sun, sector);
        let window = match window.len() {
            16 if self.is(SixteenthLeftOut) => &window[..15],
            _ => window,
        };
        let mut shade = distant;
        let early = self.add_window(&mut shade, numbers, &sun, window);
        let first = self.without_near(numbers, &shade);
        if self.is(NearObstaclesEarly) {
            return float_min(first, early);
        }
        if self.is(NearObstacleAgainstDistantOverhang) {
            shade.overhang = distant.overhang;
        }
        let obstacles = window.iter().filter(|object| object[0] == OBSTACLE);
        let factor = obstacles.fold(first, |factor, object| {
            self.lessened(factor, self.near(numbers, &sun, &shade, object))
        });
        match self.flaw {
            DarkBelowZero if factor == 0.0 => -f64::from_bits(1),
            SkyNeverWhole if factor == 1.0 => ulps_from(1.0, -1),
            _ => factor,
        }
    }

    // --- The answer ---

    /// The number that a call is refused with by its numbers or lists alone, if it is.
    fn refusal(&self, call: &Call, scene: &Scene) -> Option<u64> {
        let mut checks = [
            (self.edition(call.edition).is_none(), WRONG_EDITION),
            (!self.numbers_fine(&call.numbers), 3),
            (!self.lists_fine(call, scene), 4),
        ];
        match self.flaw {
            ListsBeforeSurface => checks.swap(1, 2),
            EditionAfterSurface => checks.swap(0, 1),
            EditionAfterObjects => checks.rotate_left(1),
            EditionAfterTheWalk => checks[0].0 = false,
            _ => {}
        }
        checks.iter().find(|(holds, _)| *holds).map(|&(_, n)| n)
    }

    /// The factor, or the number of a refusal.
    pub fn factor(&self, call: &Call) -> Result<f64, u64> {
        let numbers = &call.numbers;
        let scene = Scene::of(call);
        if let Some(number) = self.refusal(call, &scene) {
            return Err(number);
        }
        let reveal = scene.window.iter().any(|object| object[0] >= REVEAL);
        if reveal && self.is(RevealOutsideBeam) {
            return Err(11);
        }
        if self.is(FactorOneAlways) || self.outside(numbers) {
            return Ok(1.0);
        }
        if reveal && self.is(RevealBeforeWalk) {
            return Err(11);
        }
        let place = self.walk(numbers[AZIMUTH], &scene.sectors)?;
        if reveal {
            return Err(11);
        }
        if self.is(SubnormalSizeRefused) && least_size(&scene) < f64::MIN_POSITIVE {
            return Err(4);
        }
        let place = place - (self.is(SectorBefore) && place > 0) as usize;
        let edition = self.edition(call.edition).ok_or(WRONG_EDITION)?;
        Ok(self.in_sector(edition, numbers, &scene.sectors[place], &scene.window))
    }

    pub fn answer(&self, call: &Call) -> FactorAnswer {
        match self.factor(call) {
            Ok(factor) => FactorAnswer { number: 0, factor },
            Err(number) => FactorAnswer {
                number: self.told(call, number),
                factor: match self.flaw {
                    FactorKeptWhereRefused => 1.0,
                    WrongEditionFactorOne if number == WRONG_EDITION => 1.0,
                    _ => 0.0,
                },
            },
        }
    }
}

fn answer_of(
    flaw: Flaw,
    edition: u64,
    numbers: Numbers,
    (sectors, sectors_len): (*const u8, usize),
    (window, window_len): (*const u8, usize),
) -> FactorAnswer {
    let list = |start, len| unsafe { std::slice::from_raw_parts(start, len) }.to_vec();
    let call = Call {
        edition,
        numbers,
        sectors: list(sectors, sectors_len),
        window: list(window, window_len),
    };
    if flaw == ListWrittenTo && window_len > 500 {
        unsafe { window.cast_mut().add(100).write(call.window[100] ^ 1) };
    }
    Plain { flaw }.answer(&call)
}

/// The words with which it must be found, its name for messages, and the function.
pub type Wrong = (&'static str, &'static str, FactorCall);

/// Functions with the flaws, one each.
macro_rules! flawed {
    ($name:expr; $($flaw:ident),* $(,)?) => {
        vec![$({
            unsafe extern "C" fn wrong(
                edition: u64,
                altitude: f64,
                azimuth: f64,
                tilt: f64,
                orientation: f64,
                base_height: f64,
                height: f64,
                width: f64,
                sectors: *const u8,
                sectors_len: usize,
                window: *const u8,
                window_len: usize,
            ) -> FactorAnswer {
                let numbers = [altitude, azimuth, tilt, orientation, base_height, height, width];
                answer_of($flaw, edition, numbers, (sectors, sectors_len), (window, window_len))
            }
            ($name, stringify!($flaw), wrong as FactorCall)
        }),*]
    };
}

/// The plain form without a flaw, which has to pass.
pub fn without_flaw() -> FactorCall {
    let sides: Vec<Wrong> = flawed!("factor"; Nothing);
    sides[0].2
}

/// Flaws of the checks.
fn wrong_checks() -> Vec<Wrong> {
    flawed! { "factor";
        AzimuthWithin180,
        MinusZeroOutOfRange,
        NanTaken,
        LeastHeightOpen,
        GreatestWidthOpen,
        ListsBeforeSurface,
        SectorsThirtySeven,
        SectorCountNine,
        SectorCountOfFourBytes,
        SectorKindTwo,
        SectorDistanceZero,
        SectorPartRecordDropped,
        UnusedTripleNotLookedAt,
        UnusedMinusZeroTaken,
        LaterSectorsUnchecked,
        WindowSeventeen,
        WindowKindFive,
        WindowSizeZero,
        WindowDistanceOpen,
        WindowPartRecordDropped,
        SpareWordNotLookedAt,
        SpareMinusZeroTaken,
        TransparencyUnchecked,
        FactorKeptWhereRefused,
        ListWrittenTo,
    }
}

/// Flaws of the edition.
fn wrong_editions() -> Vec<Wrong> {
    flawed! { "factor";
        EditionNotLookedAt,
        EditionZeroTaken,
        EditionThreeTaken,
        EditionOneForTwo,
        EditionTwoForOne,
        EditionOfFourBytes,
        EditionAfterSurface,
        EditionAfterObjects,
        EditionAfterTheWalk,
        WrongEditionFactorOne,
    }
}

/// Flaws of the fins of edition 2. That a fin gives −distance where the difference is 0, and that
/// the turn is made at ±180 too, shows in no factor.
fn wrong_fins() -> Vec<Wrong> {
    flawed! { "factor";
        RightFinTangentNotTurned,
        FinSidesExchanged,
        FinDifferenceNotWrapped,
        RightFinDifferenceNotWrapped,
        LeftFinDifferenceNotWrapped,
        RightFinAsInEdition1,
        FinDistanceLeftOut,
        OverhangCosineWrapped,
    }
}

/// Flaws of the beam and the walk.
fn wrong_walks() -> Vec<Wrong> {
    flawed! { "factor";
        BeamEndOpen,
        BeamNotWrapped,
        BeamWithoutTilt,
        RevealOutsideBeam,
        FactorOneAlways,
        StartClosed,
        EndClosed,
        AllSectorsChecked,
        TurnedBeforeGap,
        FirstStartNotFree,
        GapByBits,
        NoSectorWithoutWalk,
        RevealBeforeWalk,
        SectorBefore,
        FirstNotMatched,
        FirstTurnedTaken,
        LastNotMatched,
        LastGapTaken,
        LastTurnedTaken,
    }
}

/// Flaws of the shade, with those that break a law.
fn wrong_shades() -> Vec<Wrong> {
    flawed! { "factor";
        BaseHeightLeftOut,
        DistantOverhangLeftOut,
        RightFinMended,
        FinDifferenceWrapped,
        OverhangWithoutCosine,
        NearObstaclesEarly,
        NearObstacleAgainstDistantOverhang,
        TransparencyLeftOut,
        NearObstacleAlone,
        NearObstacleOverTheOverhang,
        HeightByTwoDifferences,
        PartsMultipliedLast,
        SixteenthLeftOut,
        LastObjectCounts,
        ExtentsAdded,
        OneByAQuotient,
        NearObstacleReplaces,
        DarkBelowZero,
    }
}

/// What the comparison has to find.
pub fn factor() -> Vec<Wrong> {
    [wrong_checks(), wrong_walks(), wrong_shades()].concat()
}

/// The same about editions and fins, which has to find each among random calls alone too.
pub fn about_editions() -> Vec<Wrong> {
    [wrong_editions(), wrong_fins()].concat()
}

/// What each law has to find, tried alone.
pub fn lawless(law: Law) -> Vec<Wrong> {
    let name = law.name();
    match law {
        Law::Range => flawed!(name; DarkBelowZero, NearObstacleReplaces),
        Law::Reordered => flawed!(name; NearObstaclesEarly, LastObjectCounts),
        Law::Repeated => flawed!(name; ExtentsAdded, SixteenthLeftOut),
        Law::Enlarged => flawed!(name; LastObjectCounts, NearObstacleReplaces),
        Law::Emptied => flawed!(name; OneByAQuotient, SkyNeverWhole),
        Law::OtherEdition => flawed!(name; FinSidesExchanged, FinDistanceLeftOut),
    }
}

/// What each law about sizes has to find, tried alone.
pub fn lawless_sizes(law: SizeLaw) -> Vec<Wrong> {
    let name = law.name();
    match law {
        SizeLaw::TallerDistantObstacle => flawed!(name;
            TallDistantObstacleDropped, DistantObstacleHeightTurned, SubnormalSizeRefused),
        SizeLaw::NearerDistantObstacle => flawed!(name;
            CloseDistantObstacleDropped, DistantObstacleDistanceTurned),
        SizeLaw::DeeperWindowOverhang => flawed!(name;
            DeepWindowOverhangDropped, WindowOverhangDepthTurned),
        SizeLaw::TallerNearObstacle => flawed!(name;
            TallNearObstacleDropped, NearObstacleHeightTurned),
        SizeLaw::NearerNearObstacle => flawed!(name;
            CloseNearObstacleDropped, NearObstacleDistanceTurned),
        SizeLaw::ClearerNearObstacle => flawed!(name; ClearTakenAsOpaque, TransparencyTurned),
        SizeLaw::LowerDistantOverhang => flawed!(name;
            LowDistantOverhangDropped, DistantOverhangHeightTurned),
        SizeLaw::FartherDistantOverhang => flawed!(name;
            FarDistantOverhangDropped, DistantOverhangDistanceTurned),
        SizeLaw::NearerWindowOverhang => flawed!(name;
            WindowOverhangAtTheEdgeDropped, WindowOverhangDistanceTurned),
        SizeLaw::NearerFin => flawed!(name; FinAtTheEdgeDropped, FinDistanceTurned),
        SizeLaw::DeeperFin => flawed!(name; DeepFinDropped, FinDepthTurned),
        SizeLaw::Several => flawed!(name;
            TallDistantObstacleDropped, CloseDistantObstacleDropped, DeepWindowOverhangDropped,
            TallNearObstacleDropped, CloseNearObstacleDropped, ClearTakenAsOpaque,
            LowDistantOverhangDropped,
            FarDistantOverhangDropped, WindowOverhangAtTheEdgeDropped, FinAtTheEdgeDropped,
            DeepFinDropped),
    }
}

/// What refused calls with other sizes have to find.
pub fn other_refusals() -> Vec<Wrong> {
    flawed! { "factor of a refused call,";
        GapOfTallObjectsTurned,
        TurnOfTallObjectsNoSector,
        NoSectorOfTallObjectsGap,
        RevealBesideTallObjectsNoSector,
    }
}

/// What the counts of the laws about sizes have to find: that nothing ever changed.
pub fn sizes_not_looked_at() -> Vec<Wrong> {
    flawed!("factor: pairs,"; FactorOneAlways)
}

/// What the calls that lack a premise have to find.
pub fn premises_missed() -> Vec<Wrong> {
    flawed!("factor without a premise,"; TransparencyLeftOut)
}
