//! Calls of the range over the binary protocol: merge's call with the lower noise and the low frame, then the upper noise and
//! the high frame.

use super::calls::{put_answer, put_buffers, put_call, put_noise, take_call, take_noise};
use super::wire::{self, put_many, take_many, Word};
use super::Outcome;
use reference::between::Between;
use reference::calls::Answer;
use reference::random::Random;
use reference::range_call::RangeCall;
use std::error::Error;
use std::io::{stdout, BufWriter, Read, Write};

/// Answers every call on standard input, and tells of frames merged between the ends; a word outside is an error.
pub fn answer_each() -> Outcome {
    let mut between = Between::default();
    let mut random = Random::new(1);
    wire::answer_each(|input, out| {
        let mut call = take_range_call(input)?;
        let number = call.perform();
        if number == 0 {
            between.add(&call, &mut random);
        }
        let answer = Answer {
            number,
            ..Answer::default()
        };
        put_answer(out, &answer)?;
        put_buffers(out, &call.low)?;
        Ok(put_many(out, &call.high)?)
    })?;
    eprintln!("{between}");
    match between.outside {
        0 => Ok(()),
        _ => Err("a merged sample lies outside its range".into()),
    }
}

fn take_range_call(input: &mut impl Read) -> Result<RangeCall, Box<dyn Error>> {
    let low = take_call(input)?;
    let upper = take_noise(input)?;
    let length = u64::take(input)?;
    let high = take_many(input, length)?;
    Ok(RangeCall { low, upper, high })
}

/// Writes calls as `range` takes them.
pub fn put_each(calls: impl Iterator<Item = RangeCall>) -> Outcome {
    let mut out = BufWriter::new(stdout().lock());
    for call in calls {
        put_call(&mut out, &call.low)?;
        put_noise(&mut out, call.upper)?;
        (call.high.len() as u64).put(&mut out)?;
        put_many(&mut out, &call.high)?;
    }
    Ok(out.flush()?)
}
