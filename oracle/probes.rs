//! The C interface of the library `probes`: the functions of the crates below the exported ones,
//! one by one.
//!
//! A lent list of bytes is a pointer and a length.

pub type OneDouble = unsafe extern "C" fn(f64) -> f64;
pub type TwoDoubles = unsafe extern "C" fn(f64, f64) -> f64;
pub type ThreeDoubles = unsafe extern "C" fn(f64, f64, f64) -> f64;
pub type FourDoubles = unsafe extern "C" fn(f64, f64, f64, f64) -> f64;
/// A day of the year, from 0.
pub type OneDay = unsafe extern "C" fn(u32) -> f64;

#[repr(C)]
#[derive(Clone, Copy)]
pub struct SinCos {
    pub sin: f64,
    pub cos: f64,
}

/// `found` is 1, and `word` the word, where sixteen digits stand at the place; else both are 0.
#[repr(C)]
#[derive(Clone, Copy, Debug, PartialEq)]
pub struct Digits {
    pub found: u64,
    pub word: u64,
}

/// The sun and the irradiance on a surface in one hour; the last four are the diffuse breakdown.
#[repr(C)]
#[derive(Clone, Copy)]
pub struct ProbeHour {
    pub altitude: f64,
    pub azimuth: f64,
    pub direct: f64,
    pub diffuse: f64,
    pub total: f64,
    pub sky: f64,
    pub circumsolar: f64,
    pub horizontal: f64,
    pub ground: f64,
}

impl ProbeHour {
    pub fn doubles(self) -> [f64; 9] {
        [
            self.altitude,
            self.azimuth,
            self.direct,
            self.diffuse,
            self.total,
            self.sky,
            self.circumsolar,
            self.horizontal,
            self.ground,
        ]
    }
}

/// What depends on the day alone.
#[repr(C)]
#[derive(Clone, Copy)]
pub struct ProbeDay {
    pub declination: f64,
    pub equation_of_time: f64,
    pub extra_terrestrial_radiation: f64,
}

/// Latitude, longitude, timezone, hour of the year, conversion needed (0 or 1), tilt, orientation,
/// diffuse, direct, reflectivity.
pub type HourCall =
    unsafe extern "C" fn(f64, f64, i64, u32, u64, f64, f64, f64, f64, f64) -> ProbeHour;

/// The hours of a year that is no leap year.
pub const YEAR: usize = 8760;
/// The doubles that a year's call stores for an hour: altitude, azimuth, direct, diffuse, total.
pub const YEAR_COLUMNS: usize = 5;

/// Latitude, longitude, timezone, conversion needed, tilt, orientation; then as lists of bytes the
/// diffuse, direct and reflectivity series and the results. The answer is the count of hours.
pub type YearCall = unsafe extern "C" fn(
    f64,
    f64,
    i64,
    u64,
    f64,
    f64,
    *const u8,
    usize,
    *const u8,
    usize,
    *const u8,
    usize,
    *mut u8,
    usize,
) -> u64;

extern "C" {
    fn probe_min_of_2(a: f64, b: f64) -> f64;
    fn probe_max_of_2(a: f64, b: f64) -> f64;
    fn probe_float_min(a: f64, b: f64) -> f64;
    fn probe_float_max(a: f64, b: f64) -> f64;
    fn probe_floor(x: f64) -> f64;
    fn probe_cube(x: f64) -> f64;
    fn probe_to_radians(x: f64) -> f64;
    fn probe_to_degrees(x: f64) -> f64;
    fn probe_sqrt(x: f64) -> f64;
    fn probe_sin(a: f64) -> f64;
    fn probe_cos(a: f64) -> f64;
    fn probe_sin_cos(a: f64) -> SinCos;
    fn probe_tan(a: f64) -> f64;
    fn probe_asin(a: f64) -> f64;
    fn probe_acos(a: f64) -> f64;
    fn probe_pow_minus_1_253(u: f64) -> f64;
    fn probe_word_count(bytes: *const u8, len: usize) -> usize;
    fn probe_word_at(bytes: *const u8, len: usize, k: usize) -> u64;
    fn probe_double_at(bytes: *const u8, len: usize, k: usize) -> f64;
    fn probe_store_word(bytes: *mut u8, len: usize, k: usize, w: u64);
    fn probe_store_double(bytes: *mut u8, len: usize, k: usize, x: f64);
    fn probe_digits_at(bytes: *const u8, len: usize, at: usize) -> Digits;
    fn probe_store_digits(bytes: *mut u8, len: usize, at: usize, w: u64);
    fn probe_init_earth_orbit_deviation(current_day: u32) -> f64;
    fn probe_init_solar_declination(earth_orbit_deviation: f64) -> f64;
    fn probe_init_equation_of_time(current_day: u32) -> f64;
    fn probe_init_time_shift(timezone: i64, longitude: f64) -> f64;
    fn probe_init_solar_time(hour_of_day: u32, equation_of_time: f64, time_shift: f64) -> f64;
    fn probe_init_solar_hour_angle(solar_time: f64) -> f64;
    fn probe_init_solar_altitude(latitude: f64, declination: f64, hour_angle: f64) -> f64;
    fn probe_init_solar_zenith_angle(altitude: f64) -> f64;
    fn probe_init_solar_azimuth_angle(
        latitude: f64,
        declination: f64,
        hour_angle: f64,
        altitude: f64,
    ) -> f64;
    fn probe_init_air_mass(altitude: f64) -> f64;
    fn probe_init_extra_terrestrial_radiation(earth_orbit_deviation: f64) -> f64;
    fn probe_init_direct_beam_radiation(
        conversion_needed: u64,
        raw_value: f64,
        altitude: f64,
    ) -> f64;
    fn probe_init_dimensionless_clearness_parameter(diffuse: f64, beam: f64, altitude: f64) -> f64;
    fn probe_init_dimensionless_sky_brightness_parameter(
        air_mass: f64,
        diffuse: f64,
        extra_terrestrial: f64,
    ) -> f64;
    fn probe_table_row(clearness: f64) -> usize;
    fn probe_init_f1_circumsolar_brightness_coefficient(
        clearness: f64,
        delta: f64,
        zenith: f64,
    ) -> f64;
    fn probe_init_f2_horizontal_brightness_coefficient(
        clearness: f64,
        delta: f64,
        zenith: f64,
    ) -> f64;
    fn probe_hour(
        latitude: f64,
        longitude: f64,
        timezone: i64,
        hour: u32,
        conversion_needed: u64,
        tilt: f64,
        orientation: f64,
        diffuse: f64,
        direct: f64,
        reflectivity: f64,
    ) -> ProbeHour;
    fn probe_day_of(current_day: u32) -> ProbeDay;
    fn probe_hour_by(
        sin_latitude: f64,
        cos_latitude: f64,
        sin_declination: f64,
        cos_declination: f64,
        sin_tilt: f64,
        cos_tilt: f64,
        sin_orientation: f64,
        cos_orientation: f64,
        day: ProbeDay,
        time_shift: f64,
        hour_of_day: u32,
        conversion_needed: u64,
        diffuse: f64,
        direct: f64,
        reflectivity: f64,
    ) -> ProbeHour;
}

/// What a year's hours have of the site and the surface.
struct YearSite {
    latitude: SinCos,
    tilt: SinCos,
    orientation: SinCos,
    time_shift: f64,
    conversion_needed: u64,
}

/// What a day's hours have of the day.
struct YearDay {
    day: ProbeDay,
    declination: SinCos,
}

unsafe fn sin_cos_of_degrees(degrees: f64) -> SinCos {
    probe_sin_cos(probe_to_radians(degrees))
}

impl YearDay {
    unsafe fn new(current_day: u32) -> Self {
        let day = probe_day_of(current_day);
        let declination = sin_cos_of_degrees(day.declination);
        YearDay { day, declination }
    }
}

impl YearSite {
    unsafe fn hour(
        &self,
        day: &YearDay,
        hour_of_day: u32,
        [diffuse, direct, reflectivity]: [f64; 3],
    ) -> ProbeHour {
        probe_hour_by(
            self.latitude.sin,
            self.latitude.cos,
            day.declination.sin,
            day.declination.cos,
            self.tilt.sin,
            self.tilt.cos,
            self.orientation.sin,
            self.orientation.cos,
            day.day,
            self.time_shift,
            hour_of_day,
            self.conversion_needed,
            diffuse,
            direct,
            reflectivity,
        )
    }
}

/// The hours of the year that all lists have room for, by their lengths in bytes.
fn hours_in(series: [usize; 3], results: usize) -> usize {
    let doubles = series.into_iter().map(|len| len / 8);
    let rows = results / (8 * YEAR_COLUMNS);
    doubles.chain([rows, YEAR]).min().unwrap()
}

/// Stores the columns of one hour at its place in the results.
unsafe fn store_hour(results: *mut u8, hour: usize, row: &ProbeHour) {
    let columns = [
        row.altitude,
        row.azimuth,
        row.direct,
        row.diffuse,
        row.total,
    ];
    for (column, value) in columns.into_iter().enumerate() {
        let place = results.add(8 * (YEAR_COLUMNS * hour + column));
        place.cast::<f64>().write_unaligned(value);
    }
}

/// A year, hour by hour, as a run works it out: what depends on the site and the surface is had once,
/// what depends on the day once a day, and handed to each hour.
#[allow(clippy::too_many_arguments)]
unsafe extern "C" fn year_by_pieces(
    latitude: f64,
    longitude: f64,
    timezone: i64,
    conversion_needed: u64,
    tilt: f64,
    orientation: f64,
    diffuse: *const u8,
    diffuse_len: usize,
    direct: *const u8,
    direct_len: usize,
    reflectivity: *const u8,
    reflectivity_len: usize,
    results: *mut u8,
    results_len: usize,
) -> u64 {
    let count = hours_in([diffuse_len, direct_len, reflectivity_len], results_len);
    let at = |list: *const u8, k: usize| unsafe { list.add(8 * k).cast::<f64>().read_unaligned() };
    let site = YearSite {
        latitude: sin_cos_of_degrees(latitude),
        tilt: sin_cos_of_degrees(tilt),
        orientation: sin_cos_of_degrees(180.0 - orientation),
        time_shift: probe_init_time_shift(timezone, longitude),
        conversion_needed,
    };
    let mut day = YearDay::new(0);
    for hour in 0..count {
        if hour % 24 == 0 {
            day = YearDay::new(hour as u32 / 24);
        }
        let readings = [diffuse, direct, reflectivity].map(|list| at(list, hour));
        let row = site.hour(&day, hour as u32 % 24, readings);
        store_hour(results, hour, &row);
    }
    count as u64
}

/// One side of a comparison: a function for each of the names above.
#[derive(Clone, Copy)]
pub struct Probes {
    pub min_of_2: TwoDoubles,
    pub max_of_2: TwoDoubles,
    pub float_min: TwoDoubles,
    pub float_max: TwoDoubles,
    pub floor: OneDouble,
    pub cube: OneDouble,
    pub to_radians: OneDouble,
    pub to_degrees: OneDouble,
    pub sqrt: OneDouble,
    pub sin: OneDouble,
    pub cos: OneDouble,
    pub sin_cos: unsafe extern "C" fn(f64) -> SinCos,
    pub tan: OneDouble,
    pub asin: OneDouble,
    pub acos: OneDouble,
    pub pow_minus_1_253: OneDouble,
    pub word_count: unsafe extern "C" fn(*const u8, usize) -> usize,
    pub word_at: unsafe extern "C" fn(*const u8, usize, usize) -> u64,
    pub double_at: unsafe extern "C" fn(*const u8, usize, usize) -> f64,
    pub store_word: unsafe extern "C" fn(*mut u8, usize, usize, u64),
    pub store_double: unsafe extern "C" fn(*mut u8, usize, usize, f64),
    pub digits_at: unsafe extern "C" fn(*const u8, usize, usize) -> Digits,
    pub store_digits: unsafe extern "C" fn(*mut u8, usize, usize, u64),
    pub init_earth_orbit_deviation: OneDay,
    pub init_solar_declination: OneDouble,
    pub init_equation_of_time: OneDay,
    pub init_time_shift: unsafe extern "C" fn(i64, f64) -> f64,
    pub init_solar_time: unsafe extern "C" fn(u32, f64, f64) -> f64,
    pub init_solar_hour_angle: OneDouble,
    pub init_solar_altitude: ThreeDoubles,
    pub init_solar_zenith_angle: OneDouble,
    pub init_solar_azimuth_angle: FourDoubles,
    pub init_air_mass: OneDouble,
    pub init_extra_terrestrial_radiation: OneDouble,
    pub init_direct_beam_radiation: unsafe extern "C" fn(u64, f64, f64) -> f64,
    pub init_dimensionless_clearness_parameter: ThreeDoubles,
    pub init_dimensionless_sky_brightness_parameter: ThreeDoubles,
    pub table_row: unsafe extern "C" fn(f64) -> usize,
    pub init_f1_circumsolar_brightness_coefficient: ThreeDoubles,
    pub init_f2_horizontal_brightness_coefficient: ThreeDoubles,
    pub hour: HourCall,
    pub year: YearCall,
}

/// The library that this program is linked with.
pub const LIBRARY: Probes = Probes {
    min_of_2: probe_min_of_2,
    max_of_2: probe_max_of_2,
    float_min: probe_float_min,
    float_max: probe_float_max,
    floor: probe_floor,
    cube: probe_cube,
    to_radians: probe_to_radians,
    to_degrees: probe_to_degrees,
    sqrt: probe_sqrt,
    sin: probe_sin,
    cos: probe_cos,
    sin_cos: probe_sin_cos,
    tan: probe_tan,
    asin: probe_asin,
    acos: probe_acos,
    pow_minus_1_253: probe_pow_minus_1_253,
    word_count: probe_word_count,
    word_at: probe_word_at,
    double_at: probe_double_at,
    store_word: probe_store_word,
    store_double: probe_store_double,
    digits_at: probe_digits_at,
    store_digits: probe_store_digits,
    init_earth_orbit_deviation: probe_init_earth_orbit_deviation,
    init_solar_declination: probe_init_solar_declination,
    init_equation_of_time: probe_init_equation_of_time,
    init_time_shift: probe_init_time_shift,
    init_solar_time: probe_init_solar_time,
    init_solar_hour_angle: probe_init_solar_hour_angle,
    init_solar_altitude: probe_init_solar_altitude,
    init_solar_zenith_angle: probe_init_solar_zenith_angle,
    init_solar_azimuth_angle: probe_init_solar_azimuth_angle,
    init_air_mass: probe_init_air_mass,
    init_extra_terrestrial_radiation: probe_init_extra_terrestrial_radiation,
    init_direct_beam_radiation: probe_init_direct_beam_radiation,
    init_dimensionless_clearness_parameter: probe_init_dimensionless_clearness_parameter,
    init_dimensionless_sky_brightness_parameter: probe_init_dimensionless_sky_brightness_parameter,
    table_row: probe_table_row,
    init_f1_circumsolar_brightness_coefficient: probe_init_f1_circumsolar_brightness_coefficient,
    init_f2_horizontal_brightness_coefficient: probe_init_f2_horizontal_brightness_coefficient,
    hour: probe_hour,
    year: year_by_pieces,
};
