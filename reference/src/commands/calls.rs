//! The library calls over the binary protocol.

use super::wire::{self, put_many, take_array, take_many, Word};
use super::Outcome;
use reference::burst::Burst;
use reference::calls::{Answer, Call};
use reference::ceiling::{self, Leaks};
use reference::noise::{Curve, Noise, Tuning};
use reference::shape::Shape;
use std::error::Error;
use std::io::{Read, Write};

/// Answers every call of align on standard input.
pub fn align_each() -> Outcome {
    wire::answer_each(|input, out| {
        let mut call = take_call(input)?;
        put_answer(out, &call.align())?;
        put_buffers(out, &call)
    })
}

/// Answers every call of merge or run on standard input, and tells of their leaks.
pub fn merge_each(perform: fn(&mut Call) -> Answer) -> Outcome {
    let mut leaks = Leaks::default();
    wire::answer_each(|input, out| {
        let mut call = take_call(input)?;
        let answer = perform(&mut call);
        add_leaks(&mut leaks, &call, &answer);
        put_answer(out, &answer)?;
        put_buffers(out, &call)
    })?;
    tell(&leaks)
}

/// Answers every choosing run on standard input, and tells of their leaks: the chosen index comes after run's answer.
pub fn choose_each() -> Outcome {
    let mut leaks = Leaks::default();
    wire::answer_each(|input, out| {
        let mut call = take_call(input)?;
        let (answer, reference) = call.choose();
        add_leaks(&mut leaks, &call, &answer);
        put_answer(out, &answer)?;
        reference.put(out)?;
        put_buffers(out, &call)
    })?;
    tell(&leaks)
}

/// Adds the leaks of an accepted call: "The ghost ceiling of L11 covers s = 0 only."
fn add_leaks(leaks: &mut Leaks, call: &Call, answer: &Answer) {
    if let (0, 0, Ok(setting)) = (answer.number, call.tuning.spatial, call.setting()) {
        for leak in ceiling::leaks(&setting, &call.output) {
            leaks.add(leak);
        }
    }
}

/// Writes to standard error what the leaks come to; one above its ceiling is an error.
fn tell(leaks: &Leaks) -> Outcome {
    eprintln!("{leaks}");
    match leaks.forbidden {
        Some(leak) => Err(format!("a merged sample lies above its ceiling: {leak}").into()),
        None => Ok(()),
    }
}

pub fn put_answer(out: &mut impl Write, answer: &Answer) -> Outcome {
    answer.number.put(out)?;
    put_many(out, &answer.residuals)?;
    Ok(answer.rows.put(out)?)
}

pub fn put_buffers(out: &mut impl Write, call: &Call) -> Outcome {
    put_many(out, &call.vectors)?;
    Ok(put_many(out, &call.output)?)
}

pub fn take_call(input: &mut impl Read) -> Result<Call, Box<dyn Error>> {
    let [width, height, count, reference, row_length] = take_array(input)?;
    let black = take_array(input)?;
    let noise = take_noise(input)?;
    let [strength, side, spatial] = take_array(input)?;
    let [samples, vectors, output, work_length] = take_array(input)?;
    let shape = Shape {
        width,
        height,
        count,
        row_length,
    };
    Ok(Call {
        burst: Burst {
            shape,
            reference,
            black,
            samples: take_many(input, samples)?,
        },
        noise,
        tuning: Tuning {
            strength,
            side,
            spatial,
        },
        vectors: take_many(input, vectors)?,
        output: take_many(input, output)?,
        work_length,
    })
}

pub fn take_noise(input: &mut impl Read) -> Result<Noise, Box<dyn Error>> {
    let [kind, iso, shot, read] = take_array(input)?;
    let curve = Curve {
        shot: f64::from_bits(shot),
        read: f64::from_bits(read),
    };
    match kind {
        0 => Ok(Noise::Curve(curve)),
        1 => Ok(Noise::Iso(iso.try_into()?, curve)),
        _ => Err("the noise kind is neither 0 nor 1".into()),
    }
}

pub fn put_call(out: &mut impl Write, call: &Call) -> std::io::Result<()> {
    let Shape {
        width,
        height,
        count,
        row_length,
    } = call.burst.shape;
    let Tuning {
        strength,
        side,
        spatial,
    } = call.tuning;
    let reference = call.burst.reference;
    put_many(out, &[width, height, count, reference, row_length])?;
    put_many(out, &call.burst.black)?;
    put_noise(out, call.noise)?;
    put_many(out, &[strength, side, spatial])?;
    (call.burst.samples.len() as u64).put(out)?;
    (call.vectors.len() as u64).put(out)?;
    (call.output.len() as u64).put(out)?;
    call.work_length.put(out)?;
    put_many(out, &call.burst.samples)?;
    put_many(out, &call.vectors)?;
    put_many(out, &call.output)
}

pub fn put_noise(out: &mut impl Write, noise: Noise) -> std::io::Result<()> {
    let (kind, iso, curve) = match noise {
        Noise::Curve(curve) => (0, 0, curve),
        Noise::Iso(iso, curve) => (1, iso.into(), curve),
    };
    put_many(
        out,
        &[kind, iso, curve.shot.to_bits(), curve.read.to_bits()],
    )
}
