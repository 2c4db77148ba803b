//! Random words and doubles from a seed, and the doubles at which something changes.

/// A splitmix64 generator: the same seed gives the same cases on every machine.
pub struct Random {
    state: u64,
}

impl Random {
    /// A stream of its own for each name, so that a new section leaves the others' cases alone.
    pub fn new(seed: u64, name: &str) -> Self {
        let mut state = seed ^ 0xCBF2_9CE4_8422_2325; // FNV-1a over the name
        for byte in name.bytes() {
            state = (state ^ byte as u64).wrapping_mul(0x0000_0100_0000_01B3);
        }
        Random { state }
    }

    /// Another stream, which goes by this one and leaves its cases alone.
    pub fn beside(&self, name: &str) -> Self {
        Random::new(self.state, name)
    }

    pub fn word(&mut self) -> u64 {
        self.state = self.state.wrapping_add(0x9E37_79B9_7F4A_7C15);
        let mut z = self.state;
        z = (z ^ (z >> 30)).wrapping_mul(0xBF58_476D_1CE4_E5B9);
        z = (z ^ (z >> 27)).wrapping_mul(0x94D0_49BB_1331_11EB);
        z ^ (z >> 31)
    }

    /// A whole number below `bound` (which is above 0).
    pub fn below(&mut self, bound: usize) -> usize {
        ((self.word() as u128 * bound as u128) >> 64) as usize
    }

    pub fn bytes(&mut self, len: usize) -> Vec<u8> {
        let words = (0..len.div_ceil(8)).flat_map(|_| self.word().to_le_bytes());
        let mut bytes: Vec<u8> = words.collect();
        bytes.truncate(len);
        bytes
    }

    /// A double from `low` to `high`, uniform, with all 53 bits.
    pub fn uniform(&mut self, low: f64, high: f64) -> f64 {
        let part = (self.word() >> 11) as f64 / (1u64 << 53) as f64;
        low + part * (high - low)
    }

    /// Any double: random sign, exponent and fraction, infinities and NaN patterns among them.
    pub fn any_double(&mut self) -> f64 {
        f64::from_bits(self.word())
    }

    /// A double of either sign whose size is from 2^-60 up to 2^60, every exponent as likely.
    pub fn any_size(&mut self) -> f64 {
        let exponent = 1023 - 60 + self.below(120) as u64;
        let word = self.word();
        f64::from_bits((word & 0x800F_FFFF_FFFF_FFFF) | (exponent << 52))
    }
}

/// The double that is `steps` places further on among all patterns of the same sign.
pub fn ulps_from(x: f64, steps: i64) -> f64 {
    f64::from_bits(x.to_bits().wrapping_add(steps as u64))
}

/// 2^n, for n from -1022 to 1023.
pub fn power_of_two(n: i32) -> f64 {
    f64::from_bits(((n + 1023) as u64) << 52)
}

/// NaN patterns: quiet and signalling, both signs, least, greatest and middling payloads.
pub const NAN_PATTERNS: [u64; 8] = [
    0x7FF8_0000_0000_0000,
    0xFFF8_0000_0000_0000,
    0x7FF0_0000_0000_0001,
    0xFFF0_0000_0000_0001,
    0x7FFF_FFFF_FFFF_FFFF,
    0xFFFF_FFFF_FFFF_FFFF,
    0x7FF7_FFFF_FFFF_FFFF,
    0x7FF8_1234_5678_9ABC,
];

/// Some sixty doubles, few enough to try each with each.
pub fn chief_edges() -> Vec<f64> {
    let positive = [
        0.0,
        f64::from_bits(1),                     // the least subnormal
        f64::from_bits(0x000F_FFFF_FFFF_FFFF), // the greatest subnormal
        f64::MIN_POSITIVE,
        0.0001,
        0.5,
        ulps_from(1.0, -1),
        1.0,
        ulps_from(1.0, 1),
        1.5,
        2.0,
        3.0,
        14.0,
        64.0,
        90.0,
        180.0,
        360.0,
        4_503_599_627_370_496.0,      // 2^52
        9_007_199_254_740_992.0,      // 2^53
        18_446_744_073_709_551_616.0, // 2^64
        1e300,
        f64::MAX,
        f64::INFINITY,
    ];
    let mut edges: Vec<f64> = positive.iter().flat_map(|&x| [x, -x]).collect();
    edges.extend(NAN_PATTERNS.map(f64::from_bits));
    edges
}

/// Tens of thousands of doubles: every exponent, and the neighbourhood of every place at which a
/// stand-in takes another branch.
pub fn edges() -> Vec<f64> {
    let mut edges = chief_edges();

    // Every exponent, with the least, the greatest and other fractions (subnormals, infinities and
    // NaN patterns are the first and last exponents').
    for exponent in 0..2048u64 {
        for fraction in [
            0,
            1,
            0x8_0000_0000_0000,
            0x5_5555_5555_5555,
            0xF_FFFF_FFFF_FFFF,
        ] {
            edges.push(f64::from_bits(exponent << 52 | fraction));
            edges.push(f64::from_bits(1 << 63 | exponent << 52 | fraction));
        }
    }

    // Places: the bounds of the branches, the quarter turns of the sine with the eighths at which
    // its whole number changes, whole numbers and halves, and the ends of the whole numbers.
    let mut places = vec![0.5, 1.0, 3.0, 5.6, 11.2, 14.0, 64.0, 0.0001, 1.253];
    places.extend((1..=84).map(|n| n as f64 * (std::f64::consts::PI / 4.0)));
    places.extend((1..=720).map(|n| n as f64 * 0.5));
    places.extend((20..=66).map(|n| power_of_two(n)));
    places.extend((50..=53).map(|n| power_of_two(n) - 0.5));
    for place in places {
        for steps in -8..=8 {
            edges.push(ulps_from(place, steps));
            edges.push(-ulps_from(place, steps));
        }
    }
    edges
}
