//! The capture station's questions on plain numbers.

use crate::noise::{Curve, Noise, Tuning};
use crate::shape::Shape;
use crate::side::Side;

/// "The length question, given W, H, N and one of the numbers 4 to 7, answers the length
/// which that refusal tests, or 0 for any other number or where refusal 1 or 2 would stand."
/// It "takes side and L, and is 0 where 22 or 23 would stand".
pub fn station_length(shape: Shape, side: u64, number: u64) -> u64 {
    let accepted = shape.check().is_ok() && shape.check_row_length().is_ok();
    match (number, Side::of(side)) {
        (4, Ok(_)) if accepted => shape.samples_length(),
        (5, Ok(side)) if accepted => shape.vectors_length(side),
        (6, Ok(_)) if accepted => shape.output_length(),
        (7, Ok(_)) if accepted => shape.work_length(),
        _ => 0,
    }
}

/// "The noise number is V from a curve (no ISO), t and r, and answers 0 where 8, 9 or 10
/// would, or where its root r exceeds 65520." It takes the side too, is 0 "where 22 would stand; for 32 r goes up to
/// 131040".
pub fn station_noise(shot: f64, read: f64, strength: u64, root: u64, side: u64) -> u64 {
    let noise = Noise::Curve(Curve { shot, read });
    match (Side::of(side), noise.model(Tuning::of_file(strength))) {
        (Ok(side), Ok(model)) if root <= side.largest_root() => model.noise_number(side, root),
        _ => 0,
    }
}
