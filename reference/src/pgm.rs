//! The frame as a PGM file, for Netpbm viewers.

use crate::refusal::{require, Refusal};
use crate::shape::size_allowed;

/// What an accepted PGM file holds.
#[derive(Clone, Debug, PartialEq, Eq)]
pub struct Pgm {
    pub width: u64,
    pub height: u64,
    pub samples: Vec<u16>,
}

/// "Write `P5`, LF, width, a space, height, LF, `4095`, LF".
pub fn header(width: u64, height: u64) -> Vec<u8> {
    format!("P5\n{width} {height}\n4095\n").into_bytes()
}

/// The length of a file of an allowed size.
pub fn length(width: u64, height: u64) -> u64 {
    header(width, height).len() as u64 + 2 * width * height
}

/// The file written into a lent buffer of `lent` bytes: "Writing tests 1, 6, 16, 11".
pub fn write(pgm: &Pgm, lent: u64) -> Result<Vec<u8>, Refusal> {
    let Pgm {
        width,
        height,
        ref samples,
    } = *pgm;
    require(size_allowed(width, height), Refusal::Size)?;
    let frame = samples.len() as u64;
    require(frame == width * height, Refusal::OutputLength)?;
    require(lent == length(width, height), Refusal::BytesLength)?;
    check_samples(samples)?;
    // "then each sample as two bytes, high byte first"
    let words = samples.iter().flat_map(|sample| sample.to_be_bytes());
    Ok(header(width, height).into_iter().chain(words).collect())
}

/// The frame read into a lent buffer of `lent` samples: "reading 17, 6, 11".
pub fn read(bytes: &[u8], lent: u64) -> Result<Pgm, Refusal> {
    let (width, height) = size(bytes).ok_or(Refusal::Pgm)?;
    require(size_allowed(width, height), Refusal::Pgm)?;
    // "only in that spelling"
    let words = bytes.strip_prefix(&header(width, height)[..]);
    let words = words.ok_or(Refusal::Pgm)?;
    require(words.len() as u64 == 2 * width * height, Refusal::Pgm)?;
    require(lent == width * height, Refusal::OutputLength)?;
    let sample = |word: &[u8]| u16::from_be_bytes([word[0], word[1]]);
    let samples: Vec<u16> = words.chunks(2).map(sample).collect();
    check_samples(&samples)?;
    Ok(Pgm {
        width,
        height,
        samples,
    })
}

/// The two numbers of the second line, however they are spelled.
fn size(bytes: &[u8]) -> Option<(u64, u64)> {
    let line = bytes.split(|&byte| byte == b'\n').nth(1)?;
    let (width, height) = std::str::from_utf8(line).ok()?.split_once(' ')?;
    Some((width.parse().ok()?, height.parse().ok()?))
}

/// "a sample above 4095 is refusal 11 either way"
fn check_samples(samples: &[u16]) -> Result<(), Refusal> {
    let allowed = samples.iter().all(|&sample| sample <= 4095);
    require(allowed, Refusal::Sample)
}
