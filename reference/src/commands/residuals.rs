//! Calls for the residuals of tiles over the binary protocol: align's call, then the residuals.

use super::calls::{put_answer, put_call, take_call};
use super::wire::{self, put_many, take_many, Word};
use super::Outcome;
use reference::calls::{Answer, Call};
use reference::residuals::ResidualsCall;
use std::io::{stdout, BufWriter, Write};

/// Answers every call on standard input.
pub fn answer_each() -> Outcome {
    wire::answer_each(|input, out| {
        let call = take_call(input)?;
        let length = u64::take(input)?;
        let residuals = take_many(input, length)?;
        let mut call = ResidualsCall { call, residuals };
        let answer = Answer {
            number: call.perform(),
            ..Answer::default()
        };
        put_answer(out, &answer)?;
        put_many(out, &call.call.vectors)?;
        put_many(out, &call.call.output)?;
        Ok(put_many(out, &call.residuals)?)
    })
}

/// Writes calls, each with a buffer for residuals, as `residuals` takes them.
pub fn put_each(calls: impl Iterator<Item = Call>) -> Outcome {
    let mut out = BufWriter::new(stdout().lock());
    for call in calls.map(ResidualsCall::of_call) {
        put_call(&mut out, &call.call)?;
        (call.residuals.len() as u64).put(&mut out)?;
        put_many(&mut out, &call.residuals)?;
    }
    Ok(out.flush()?)
}
