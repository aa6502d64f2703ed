//! The named programs `motion` and `stack`: what each prints for a file.

use crate::calls::{Answer, Call};
use crate::file::{self, BurstFile};
use crate::noise::{Curve, Noise};
use crate::refusal::Refusal;
use crate::side::SIXTEEN;
use std::fmt::Display;

/// "take files up to 65536 bytes with W = H = 64".
const LARGEST_FILE: usize = 65536;
const SIDE: u64 = 64;

/// Why a program prints no result.
enum Stop {
    TooLarge,
    Refused(u64),
}

impl From<Refusal> for Stop {
    fn from(refusal: Refusal) -> Stop {
        Stop::Refused(refusal.number())
    }
}

/// A file's burst after run.
struct Stacked {
    call: Call,
    residuals: [u64; 7],
}

/// "prints one line per other frame".
pub fn motion(bytes: &[u8]) -> String {
    printed(bytes, motion_lines)
}

/// "the merged frame (names `width height`, their values, rows)".
pub fn stack(bytes: &[u8]) -> String {
    printed(bytes, stack_lines)
}

fn printed(bytes: &[u8], lines: fn(&Stacked) -> String) -> String {
    match stacked(bytes) {
        Ok(stacked) => lines(&stacked),
        Err(Stop::Refused(number)) => format!("refused {number}\n"),
        Err(Stop::TooLarge) => "too large\n".to_string(),
    }
}

/// "a longer file, or an accepted one of another size, prints only `too large`".
fn stacked(bytes: &[u8]) -> Result<Stacked, Stop> {
    if bytes.len() > LARGEST_FILE {
        return Err(Stop::TooLarge);
    }
    let file = file::read_fitting(bytes)?;
    let shape = file.burst.shape;
    if (shape.width, shape.height) != (SIDE, SIDE) {
        return Err(Stop::TooLarge);
    }
    let mut call = call(file);
    match call.run() {
        Answer {
            number: 0,
            residuals,
            ..
        } => Ok(Stacked { call, residuals }),
        Answer { number, .. } => Err(Stop::Refused(number)),
    }
}

/// The call of run for a file, with buffers of the right lengths.
fn call(file: BurstFile) -> Call {
    let noise = Noise::Curve(Curve::of_levels(file.noise.levels));
    Call::fitting(file.burst, noise, file.noise.tuning)
}

/// "(frame index; its tiles; tiles with vector 0,0; greatest absolute part; sum of finest
/// residuals)".
fn motion_lines(stacked: &Stacked) -> String {
    let burst = &stacked.call.burst;
    let tiles = burst.shape.tiles(SIXTEEN);
    let fields = stacked.call.vectors.chunks(2 * tiles as usize);
    let found = fields.zip(stacked.residuals);
    let mut text = "frame tiles still far residual\n".to_string();
    for (frame, (field, residual)) in burst.others().into_iter().zip(found) {
        let still = field.chunks(2).filter(|vector| vector == &[0, 0]).count();
        let far = field
            .iter()
            .fold(0, |far, part| part.unsigned_abs().max(far));
        text += &line(&[frame, tiles, still as u64, far.into(), residual]);
    }
    text
}

fn stack_lines(stacked: &Stacked) -> String {
    let shape = stacked.call.burst.shape;
    let names = "width height\n".to_string() + &line(&[shape.width, shape.height]);
    let rows = stacked.call.output.chunks(shape.width as usize).map(line);
    names + &rows.collect::<String>()
}

/// "print values without leading zeros and with one space between".
fn line<T: Display>(values: &[T]) -> String {
    let words: Vec<String> = values.iter().map(T::to_string).collect();
    words.join(" ") + "\n"
}
