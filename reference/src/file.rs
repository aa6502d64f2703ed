//! The burst file: reading, and the file check.

use crate::burst::Burst;
use crate::noise::{Levels, NoiseModel, Tuning};
use crate::refusal::{number, require, Refusal};
use crate::shape::Shape;

/// "A line of names".
pub const NAMES: &[u8] = b"width height count reference shot read strength";

/// "a line of those seven values (shot and read are Ls and Lr)".
struct Header {
    shape: Shape,
    reference: u64,
    noise: NoiseModel,
}

/// What an accepted file holds; its black levels are 0, its tiles of side 16, and it has no spatial filter.
#[derive(Debug, PartialEq, Eq)]
pub struct BurstFile {
    pub burst: Burst,
    pub noise: NoiseModel,
}

/// File reading into a lent buffer of `lent` samples.
pub fn read(bytes: &[u8], lent: u64) -> Result<BurstFile, Refusal> {
    let (header, rows) = read_header(bytes)?;
    require(
        lent == header.shape.samples_length(),
        Refusal::SamplesLength,
    )?;
    read_rows(header, rows)
}

/// File reading into a buffer of the length that the header asks for, so without refusal 4.
pub fn read_fitting(bytes: &[u8]) -> Result<BurstFile, Refusal> {
    let (header, rows) = read_header(bytes)?;
    read_rows(header, rows)
}

/// "The file check does the same tests without 4 and answers the number, or 0."
pub fn check(bytes: &[u8]) -> u64 {
    number(&read_fitting(bytes))
}

/// "an empty file or one without a first LF 15, 13, then line 2 by 15 and 14,
/// then 1, 2, 3, 9, 10"; also returns the bytes that follow.
fn read_header(bytes: &[u8]) -> Result<(Header, &[u8]), Refusal> {
    let (first, rest) = split_line(bytes)?;
    require(first == NAMES, Refusal::FirstLine)?;
    let (second, rest) = split_line(rest)?;
    let values = values(second)?;
    let values: [_; 7] = values.try_into().map_err(|_| Refusal::ValueLine)?;
    let [width, height, count, reference, shot, read, strength] = values;
    let header = Header {
        shape: Shape::packed(width, height, count),
        reference,
        noise: NoiseModel {
            levels: Levels { shot, read },
            tuning: Tuning::of_file(strength),
        },
    };
    header.shape.check()?;
    header.shape.check_reference(reference)?;
    header.noise.check()?;
    Ok((header, rest))
}

/// "then each row by 15, 14, 11, then trailing bytes 15".
fn read_rows(header: Header, mut rest: &[u8]) -> Result<BurstFile, Refusal> {
    let mut samples = Vec::new();
    for _ in 0..header.shape.count * header.shape.height {
        let (line, following) = split_line(rest)?;
        read_row(line, header.shape.width, &mut samples)?;
        rest = following;
    }
    require(rest.is_empty(), Refusal::FileEnd)?;
    Ok(BurstFile {
        burst: Burst {
            shape: header.shape,
            reference: header.reference,
            black: [0; 4],
            samples,
        },
        noise: header.noise,
    })
}

/// A row's refusal 14 comes before its refusal 11.
fn read_row(line: &[u8], width: u64, samples: &mut Vec<u16>) -> Result<(), Refusal> {
    let row = values(line)?;
    require(row.len() as u64 == width, Refusal::ValueLine)?;
    for value in row {
        require(value <= 4095, Refusal::Sample)?;
        samples.push(value as u16);
    }
    Ok(())
}

/// "A line without its LF is 15."
fn split_line(bytes: &[u8]) -> Result<(&[u8], &[u8]), Refusal> {
    let end = bytes.iter().position(|&byte| byte == b'\n');
    let end = end.ok_or(Refusal::FileEnd)?;
    Ok((&bytes[..end], &bytes[end + 1..]))
}

/// "one or more spaces between, none at either end of a line".
fn values(line: &[u8]) -> Result<Vec<u64>, Refusal> {
    let spaced_end = line.first() == Some(&b' ') || line.last() == Some(&b' ');
    require(!line.is_empty() && !spaced_end, Refusal::ValueLine)?;
    line.split(|&byte| byte == b' ')
        .filter(|word| !word.is_empty())
        .map(value)
        .collect()
}

/// "Values are 1 to 9 decimal digits, leading zeros allowed".
fn value(word: &[u8]) -> Result<u64, Refusal> {
    let digits = word.len() <= 9 && word.iter().all(u8::is_ascii_digit);
    require(digits, Refusal::ValueLine)?;
    let append = |value, digit: &u8| 10 * value + u64::from(digit - b'0');
    Ok(word.iter().fold(0, append))
}
