//! The source of all choices, and the patterns that cases are made of.

use std::cell::Cell;

/// The splitmix64 generator.
pub struct Random(Cell<u64>);

impl Random {
    pub fn new(seed: u64) -> Random {
        Random(Cell::new(seed.wrapping_mul(0xD134_2543_DE82_EF95)))
    }

    pub fn next(&self) -> u64 {
        self.0.set(self.0.get().wrapping_add(0x9E37_79B9_7F4A_7C15));
        let mut z = self.0.get();
        z = (z ^ z >> 30).wrapping_mul(0xBF58_476D_1CE4_E5B9);
        z = (z ^ z >> 27).wrapping_mul(0x94D0_49BB_1331_11EB);
        z ^ z >> 31
    }

    pub fn below(&self, count: usize) -> usize {
        (self.next() % count as u64) as usize
    }

    pub fn between(&self, low: usize, high: usize) -> usize {
        low + self.below(high - low + 1)
    }

    pub fn one_in(&self, count: usize) -> bool {
        self.below(count) == 0
    }

    pub fn pick<T: Copy>(&self, items: &[T]) -> T {
        items[self.below(items.len())]
    }

    /// A size between two limits; both limits and small sizes come often.
    pub fn size(&self, low: usize, high: usize) -> usize {
        match self.below(6) {
            0 => low,
            1 => high,
            2 | 3 => self.between(low, high.min(low + 4)),
            _ => self.between(low, high),
        }
    }
}

#[rustfmt::skip]
const EDGES: [u64; 28] = [
    // Zeros, subnormals, the least and the largest normal values.
    0, 1 << 63, 1, 3, 0x8000_0000_0000_0001, 0x000F_FFFF_FFFF_FFFF, 0x0010_0000_0000_0000,
    0x7FEF_FFFF_FFFF_FFFF, 0xFFEF_FFFF_FFFF_FFFF,
    // Infinities; NaNs, quiet and signalling, with payloads.
    0x7FF0_0000_0000_0000, 0xFFF0_0000_0000_0000, 0x7FF8_0000_0000_0000, 0xFFF8_0000_0000_0000,
    0x7FF8_0000_DEAD_BEEF, 0x7FF0_0000_0000_0001, 0xFFF0_0000_0000_0001, 0x7FFF_FFFF_FFFF_FFFF,
    0xFFFF_FFFF_FFFF_FFFF,
    // 1, -1, 1/2, 3/2, 2^53, 2^53 + 2, 2^-53, 2^-52, about 1/3, 2^511: sums and products of
    // these, of odd subnormals and of their neighbours are rounding ties or overflow.
    0x3FF0_0000_0000_0000, 0xBFF0_0000_0000_0000, 0x3FE0_0000_0000_0000, 0x3FF8_0000_0000_0000,
    0x4340_0000_0000_0000, 0x4340_0000_0000_0001, 0x3CA0_0000_0000_0000, 0x3CB0_0000_0000_0000,
    0x3FD5_5555_5555_5555, 0x5FE0_0000_0000_0000,
];

/// A cam's positions at the edges of its cases.
#[rustfmt::skip]
const POSITIONS: [u64; 25] = [
    // The zeros; just below 0, -1/2, -1, -infinity; NaNs of both signs.
    0, 1 << 63, 0x8000_0000_0000_0001, 0xBFE0_0000_0000_0000, 0xBFF0_0000_0000_0000,
    0xFFF0_0000_0000_0000, 0x7FF8_0000_0000_0000, 0xFFF8_0000_0000_0000, 0x7FF0_0000_0000_0001,
    0xFFFF_FFFF_FFFF_FFFF,
    // Just above 0, 1/2, just below 1, 1; 255.5, just below 256, 256.
    1, 0x3FE0_0000_0000_0000, 0x3FEF_FFFF_FFFF_FFFF, 0x3FF0_0000_0000_0000, 0x406F_F000_0000_0000,
    0x406F_FFFF_FFFF_FFFF, 0x4070_0000_0000_0000,
    // 511, 511.99, just below 512, 512, just above 512; 2^32 + 1, 2^64, infinity.
    0x407F_F000_0000_0000, 0x407F_FFD7_0A3D_70A4, 0x407F_FFFF_FFFF_FFFF, 0x4080_0000_0000_0000,
    0x4080_0000_0000_0001, 0x41F0_0000_0010_0000, 0x43F0_0000_0000_0000, 0x7FF0_0000_0000_0000,
];

/// Where a case takes its patterns from: a few that come again and again, so that values meet and
/// votes agree or tie, and fresh ones of the same taste.
pub struct Values {
    taste: usize,
    pool: Vec<u64>,
}

impl Values {
    pub fn new(r: &Random) -> Values {
        let mut values = Values { taste: r.below(9), pool: Vec::new() };
        let most = if values.positions() { 12 } else { 6 };
        for _ in 0..r.between(1, most) {
            let pattern = values.fresh(r);
            values.pool.push(pattern);
        }
        values
    }

    fn fresh(&self, r: &Random) -> u64 {
        match self.taste {
            0 | 1 => sensible(r),
            2 => ((r.between(0, 2000) as f64 - 1000.0) / 10.0).to_bits(),
            3 => r.pick(&[0, 0, 0, 1 << 63, 1.0f64.to_bits(), (-1.0f64).to_bits()]),
            4 => finite(r),
            5 => strange(r),
            _ => position(r),
        }
    }

    /// Whether the patterns are positions for cams.
    pub fn positions(&self) -> bool {
        self.taste > 5
    }

    pub fn any(&self, r: &Random) -> u64 {
        if r.one_in(3) {
            self.fresh(r)
        } else {
            r.pick(&self.pool)
        }
    }

    pub fn constant(&self, r: &Random) -> u64 {
        let pattern = self.any(r);
        if f64::from_bits(pattern).is_finite() {
            pattern
        } else {
            finite(r)
        }
    }
}

fn sensible(r: &Random) -> u64 {
    ((r.below(33) as f64 - 16.0) * r.pick(&[1.0, 0.5, 0.25])).to_bits()
}

/// A position for a cam: an edge, a whole number, a neighbour of one, a half, any from 0 to 512.
fn position(r: &Random) -> u64 {
    let whole = r.below(513) as f64;
    match r.below(8) {
        0..=3 => r.pick(&POSITIONS),
        4 => whole.to_bits(),
        5 => whole.to_bits().wrapping_add(r.below(3) as u64).wrapping_sub(1),
        6 => (whole + 0.5).to_bits(),
        _ => (r.next() as f64 / 2f64.powi(55)).to_bits(),
    }
}

/// Any pattern: an edge, a neighbour of an edge or of a sensible number, a NaN, any 64 bits.
pub fn strange(r: &Random) -> u64 {
    match r.below(5) {
        0 => r.pick(&EDGES),
        1 => r.pick(&EDGES).wrapping_add(r.below(5) as u64).wrapping_sub(2),
        2 => sensible(r) ^ r.below(4) as u64,
        3 => r.next() | 0x7FF0_0000_0000_0000,
        _ => r.next(),
    }
}

fn finite(r: &Random) -> u64 {
    loop {
        let pattern = strange(r);
        if f64::from_bits(pattern).is_finite() {
            return pattern;
        }
    }
}
