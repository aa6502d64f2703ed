//! The tile sides that level 0 and the merge offer, each with its tables and scales.

use crate::refusal::Refusal;

#[derive(Clone, Copy, Debug, PartialEq, Eq)]
pub struct Side {
    /// Places of a line, and lines of a tile: n.
    pub length: usize,
    /// Q and G count parts of a sample, so many to one: "sixteenths", or "quarters". V is in the squares of these parts.
    pub bin_parts: u64,
    /// C(0..n/4)
    cosines: &'static [i64],
    /// w(0..n/2−1)
    windows: &'static [i64],
}

pub const SIXTEEN: Side = Side {
    length: 16,
    bin_parts: 16,
    cosines: &[16384, 15137, 11585, 6270, 0],
    windows: &[39, 345, 910, 1648, 2448, 3186, 3751, 4057],
};

/// "Larger tiles for dark stations."
pub const THIRTY_TWO: Side = Side {
    length: 32,
    bin_parts: 4,
    cosines: &[16384, 16069, 15137, 13623, 11585, 9102, 6270, 3196, 0],
    windows: &[
        10, 88, 242, 465, 749, 1083, 1453, 1847, 2249, 2643, 3013, 3347, 3631, 3854, 4008, 4086,
    ],
};

impl Side {
    /// Refusal 22: "a side other than 16 or 32".
    pub fn of(length: u64) -> Result<Side, Refusal> {
        match length {
            16 => Ok(SIXTEEN),
            32 => Ok(THIRTY_TWO),
            _ => Err(Refusal::Side),
        }
    }

    /// From one tile's origin to the next: "half step s = 8", "half step 16".
    pub fn step(&self) -> i64 {
        self.length as i64 / 2
    }

    /// "C(8−k) = −C(k), C(16−k) = C(k)", or with 16 and 32, by index modulo n.
    pub fn cosine(&self, index: usize) -> i64 {
        let quarter = self.length / 4;
        match index % self.length {
            k if k <= quarter => self.cosines[k],
            k if k <= 2 * quarter => -self.cosines[2 * quarter - k],
            k => self.cosine(self.length - k),
        }
    }

    /// "S(k) = C(k+12)", or "C(k+24)".
    pub fn sine(&self, index: usize) -> i64 {
        self.cosine(index + self.length / 4 * 3)
    }

    /// "w(15−i) = w(i)", or "w(31−i)".
    pub fn window(&self, index: usize) -> i64 {
        self.windows[index.min(self.length - 1 - index)]
    }

    /// r of a tile whose samples are all 4095: "65520", "for 32 r goes up to 131040".
    pub fn largest_root(&self) -> u64 {
        4095 * self.length as u64
    }

    /// V is t times Ls·r + n·Lr, divided by 16, or by 128: n³/256.
    pub fn noise_divisor(&self) -> u64 {
        self.length.pow(3) as u64 / 256
    }
}

#[cfg(test)]
mod tests {
    use super::*;

    #[test]
    fn cosines_of_sixteen() {
        let cosines: Vec<i64> = (0..17).map(|index| SIXTEEN.cosine(index)).collect();
        let half = [16384, 15137, 11585, 6270, 0, -6270, -11585, -15137];
        let negated = half.map(|value| -value);
        assert_eq!(cosines, [&half[..], &negated, &[16384]].concat());
        assert_eq!(
            [0, 1, 4, 12].map(|index| SIXTEEN.sine(index)),
            [0, 6270, 16384, -16384]
        );
    }

    /// "each nearest to the published formula": the cosine of 2πk/n, and half of 1 − the cosine of 2π(i+1/2)/n.
    #[test]
    fn tables_are_nearest() {
        for side in [SIXTEEN, THIRTY_TWO] {
            let turn = |part: f64| 2.0 * std::f64::consts::PI * part / side.length as f64;
            for index in 0..side.length {
                let place = index as f64;
                let cosine = 16384.0 * turn(place).cos();
                let sine = 16384.0 * turn(place).sin();
                let window = 2048.0 * (1.0 - turn(place + 0.5).cos());
                assert_eq!(side.cosine(index), cosine.round() as i64);
                assert_eq!(side.sine(index), sine.round() as i64);
                assert_eq!(side.window(index), window.round() as i64);
            }
        }
    }

    #[test]
    fn windows_add_up() {
        for side in [SIXTEEN, THIRTY_TWO] {
            let half = side.length / 2;
            assert!((0..half).all(|index| side.window(index) + side.window(index + half) == 4096));
        }
    }

    #[test]
    fn other_sides_are_refused() {
        for length in [0, 8, 15, 17, 31, 33, 64, u64::MAX] {
            assert_eq!(Side::of(length), Err(Refusal::Side));
        }
    }
}
