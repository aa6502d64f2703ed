//! The noise curve, its whole-number levels and the noise number V.

use crate::refusal::{require, Refusal};
use crate::side::{Side, SIXTEEN};

/// "a curve of two f64 numbers, shot and read (in samples and samples squared)".
#[derive(Clone, Copy, Debug, PartialEq)]
pub struct Curve {
    pub shot: f64,
    pub read: f64,
}

/// "Noise comes either as a curve ... or as an ISO number with the curve for ISO 100."
#[derive(Clone, Copy, Debug, PartialEq)]
pub enum Noise {
    Curve(Curve),
    Iso(u32, Curve),
}

/// "Ls = floor(1024 shot) and Lr = floor(1024 read)".
#[derive(Clone, Copy, Debug, PartialEq, Eq)]
pub struct Levels {
    pub shot: u64,
    pub read: u64,
}

impl Noise {
    /// Refusals 8, 9 and 10.
    pub fn model(self, tuning: Tuning) -> Result<NoiseModel, Refusal> {
        let levels = self.levels()?;
        tuning.check_strength()?;
        Ok(NoiseModel { levels, tuning })
    }

    /// The levels, or refusal 8 or 9.
    pub fn levels(self) -> Result<Levels, Refusal> {
        self.curve()?.levels()
    }

    /// Noise of the same kind, with shot and read as given taken so many times.
    pub fn scaled_by(self, [shot, read]: [f64; 2]) -> Noise {
        let scaled = |curve: Curve| Curve {
            shot: shot * curve.shot,
            read: read * curve.read,
        };
        match self {
            Noise::Curve(curve) => Noise::Curve(scaled(curve)),
            Noise::Iso(iso, curve) => Noise::Iso(iso, scaled(curve)),
        }
    }

    /// The curve after ISO scaling, or refusal 8, which tests the values as given.
    pub fn curve(self) -> Result<Curve, Refusal> {
        match self {
            Noise::Curve(curve) => {
                require(curve.valid(), Refusal::NoiseValue)?;
                Ok(curve)
            }
            Noise::Iso(iso, base) => {
                let valid = base.valid() && (25..=409600).contains(&iso);
                require(valid, Refusal::NoiseValue)?;
                Ok(base.scaled(iso))
            }
        }
    }
}

impl Curve {
    /// The curve with these levels: both quotients are exact.
    pub fn of_levels(levels: Levels) -> Curve {
        Curve {
            shot: levels.shot as f64 / 1024.0,
            read: levels.read as f64 / 1024.0,
        }
    }

    /// The levels of a curve after ISO, or refusal 9.
    pub fn levels(self) -> Result<Levels, Refusal> {
        require(
            self.shot <= 64.0 && self.read <= 4096.0,
            Refusal::NoiseLimit,
        )?;
        Ok(Levels {
            shot: floor_of_1024_times(self.shot),
            read: floor_of_1024_times(self.read),
        })
    }

    /// Neither part is "negative or not finite"; "negative zero is zero".
    fn valid(self) -> bool {
        let valid = |value: f64| value.is_finite() && value >= 0.0;
        valid(self.shot) && valid(self.read)
    }

    /// "α = ISO/100, then shot is α times shot, and read is (α times α) times read,
    /// each operation rounded once."
    fn scaled(self, iso: u32) -> Curve {
        let alpha = f64::from(iso) / 100.0;
        Curve {
            shot: alpha * self.shot,
            read: (alpha * alpha) * self.read,
        }
    }
}

/// How strongly merge and run take other frames in, and smooth, and by which tiles.
#[derive(Clone, Copy, Debug, PartialEq, Eq)]
pub struct Tuning {
    /// "Strength t = 0..1024 counts eighths of the source's τ."
    pub strength: u64,
    /// Of the tiles of level 0 and of the merge: 16 or 32.
    pub side: u64,
    /// "s = 0..256 is the published s in 1/256".
    pub spatial: u64,
}

impl Tuning {
    /// "Burst files mean side 16", and s = 0.
    pub fn of_file(strength: u64) -> Tuning {
        Tuning {
            strength,
            side: 16,
            spatial: 0,
        }
    }

    /// Refusal 10.
    pub fn check_strength(&self) -> Result<(), Refusal> {
        require(self.strength <= 1024, Refusal::Strength)
    }

    /// Refusal 24, "s above 256", and refusal 25, "s not 0 with side 32".
    pub fn check_spatial(&self) -> Result<(), Refusal> {
        require(self.spatial <= 256, Refusal::Spatial)?;
        require(self.spatial == 0 || self.side != 32, Refusal::SpatialSide)
    }
}

/// What the noise numbers rest on beside r.
#[derive(Clone, Copy, Debug, PartialEq, Eq)]
pub struct NoiseModel {
    pub levels: Levels,
    pub tuning: Tuning,
}

impl NoiseModel {
    /// Refusals 9 and 10 as a file has them: "Ls > 65536 or Lr > 4194304", "t > 1024".
    pub fn check(&self) -> Result<(), Refusal> {
        require(
            self.levels.shot <= 65536 && self.levels.read <= 4194304,
            Refusal::NoiseLimit,
        )?;
        self.tuning.check_strength()
    }

    /// "V = floor(t·(Ls·r + 16·Lr)/16)", "V = floor(t·(Ls·r+32·Lr)/128), in sixteenths".
    pub fn noise_number(&self, side: Side, root: u64) -> u64 {
        self.tuning.strength * self.scaled_variance(side, root) / side.noise_divisor()
    }

    /// "V' = floor(s·m·(Ls·r+16·Lr)/(16384·N))", where "m is the whole root of 256·(u²+v²), and u and v are bin indices,
    /// those above 8 counted as 16 minus themselves".
    pub fn spatial_number(&self, root: u64, count: u64, u: usize, v: usize) -> u64 {
        let squared = |index: usize| index.min(16 - index).pow(2) as u64;
        let frequency = whole_root(256 * (squared(u) + squared(v)));
        self.tuning.spatial * frequency * self.scaled_variance(SIXTEEN, root) / (16384 * count)
    }

    /// Ls·r + 16·Lr, or 32·Lr
    fn scaled_variance(&self, side: Side, root: u64) -> u64 {
        self.levels.shot * root + side.length as u64 * self.levels.read
    }
}

/// The greatest number whose square is at most n: bit by bit, from the highest.
pub fn whole_root(n: u64) -> u64 {
    (0..32).rev().fold(0, |root, bit| {
        let more = root | 1 << bit;
        if more * more <= n {
            more
        } else {
            root
        }
    })
}

/// "The floor is worked out from the sign, exponent and fraction bits."
/// For a zero of either sign and for positive values up to 4096.
fn floor_of_1024_times(value: f64) -> u64 {
    let bits = value.to_bits();
    let fraction = bits & ((1 << 52) - 1);
    let exponent = (bits >> 52) & 0x7ff;
    // Below 2^-1022 nothing of the fraction survives the floor.
    if exponent == 0 {
        return 0;
    }
    // The value is significand · 2^(exponent − 1075), and 1024 is 2^10.
    let significand = fraction | 1 << 52;
    let shift = (1065 - exponent) as u32;
    significand.checked_shr(shift).unwrap_or(0)
}

#[cfg(test)]
mod tests {
    use super::*;
    use crate::random::Random;

    #[test]
    fn floor_agrees_with_the_exact_product() {
        let mut random = Random::new(1);
        for _ in 0..100_000 {
            // Exponents from 2^-40 to 2^11: the product with 1024 is exact.
            let exponent = 983 + random.below(52) as u64;
            let value = f64::from_bits(exponent << 52 | random.word() >> 12);
            assert_eq!(
                floor_of_1024_times(value),
                (1024.0 * value).floor() as u64,
                "{value:e}"
            );
        }
    }

    #[test]
    fn floor_at_the_edges() {
        let just_below = |value: f64| f64::from_bits(value.to_bits() - 1);
        assert_eq!(floor_of_1024_times(-0.0), 0);
        assert_eq!(floor_of_1024_times(f64::from_bits(1)), 0);
        assert_eq!(floor_of_1024_times(f64::MIN_POSITIVE), 0);
        assert_eq!(floor_of_1024_times(just_below(1.0 / 1024.0)), 0);
        assert_eq!(floor_of_1024_times(1.0 / 1024.0), 1);
        assert_eq!(floor_of_1024_times(just_below(64.0)), 65535);
        assert_eq!(floor_of_1024_times(just_below(4096.0)), 4194303);
        assert_eq!(floor_of_1024_times(4096.0), 4194304);
    }
}
