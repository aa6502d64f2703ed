//! The exact merge beside the recipe's word at chosen samples.

use super::calls::take_call;
use super::wire::{self, take_array, Word};
use super::Outcome;
use reference::calls::Call;
use reference::fraction::Fraction;
use reference::{exact, exact_filtered};
use std::io::{Read, Write};

/// Answers every call of merge on standard input, each followed by the count of its places
/// and their rows and columns.
pub fn answer_each() -> Outcome {
    wire::answer_each(|input, out| {
        let call = take_call(input)?;
        let places = take_places(input)?;
        write_places(out, call, &places)
    })
}

fn take_places(input: &mut impl Read) -> std::io::Result<Vec<[u64; 2]>> {
    let count = u64::take(input)?;
    (0..count).map(|_| take_array(input)).collect()
}

/// `refused N`, or one line per place.
fn write_places(out: &mut impl Write, mut call: Call, places: &[[u64; 2]]) -> Outcome {
    let number = call.merge().number;
    let setting = match (number, call.setting()) {
        (0, Ok(setting)) => setting,
        _ => return Ok(writeln!(out, "refused {number}")?),
    };
    let exact_sample = match call.tuning.spatial {
        0 => exact::sample,
        _ => exact_filtered::sample,
    };
    let shape = call.burst.shape;
    for &[row, column] in places {
        if row >= shape.height || column >= shape.width {
            return Err("a place lies outside the frame".into());
        }
        let word = call.output[(row * shape.width + column) as usize];
        let sample = exact_sample(&setting, row as i64, column as i64);
        write!(out, "{row} {column} ")?;
        write_sample(out, word, &sample)?;
    }
    Ok(())
}

/// The word, the exact sample, word minus sample, and the sample's numerator and denominator
/// in hexadecimal.
fn write_sample(out: &mut impl Write, word: u16, sample: &Fraction) -> std::io::Result<()> {
    let difference = Fraction::from(i64::from(word)).minus(sample);
    let decimals = format!("{} {}", sample.decimal(), difference.decimal());
    let Fraction {
        numerator,
        denominator,
    } = sample;
    writeln!(out, "{word} {decimals} {numerator:x} {denominator:x}")
}
