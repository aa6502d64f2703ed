//! Calls of the range with faults: each refusal at its limits, and every two of them.

use crate::fixed_calls;
use crate::noise::Noise;
use crate::random::Random;
use crate::range_call::RangeCall;
use crate::range_calls::{curve, iso, of_call};
use crate::scenes::add_fault;

/// The refusals that the call tests, in their order.
pub const TESTED: [u64; 17] = [1, 2, 3, 22, 23, 4, 5, 6, 7, 8, 9, 26, 10, 18, 24, 11, 12];

/// Each refusal with itself and with each later one: the number that is answered, and the call.
pub fn pairs_of_faults() -> impl Iterator<Item = (u64, RangeCall)> {
    (0..).zip(TESTED).flat_map(|(index, first): (usize, u64)| {
        TESTED[index..]
            .iter()
            .map(move |&second| (first, with_fault(with_fault(good(), second), first)))
    })
}

/// 8 in the lower curve, 9 in the upper one's shot and 26 by read, so that two of them stand beside each other; 22 and 24 by
/// what merge takes.
fn with_fault(mut call: RangeCall, number: u64) -> RangeCall {
    match number {
        8 => call.low.noise = curve(f64::NAN, 0.0),
        9 => call.upper = curve(65.0, 0.0),
        22 => call.low.set_side(32),
        24 => call.low.tuning.spatial = 1,
        26 => set_ends(&mut call, curve(0.0, 1.0), curve(0.0, 0.0)),
        _ => add_fault(&mut call.low, number, &mut Random::new(number)),
    }
    call
}

/// Two frames of 64 by 64 with a range.
pub fn good() -> RangeCall {
    of_call(
        fixed_calls::two_frames(),
        curve(0.25, 40.0),
        curve(0.5, 100.0),
    )
}

/// Good calls, each with one change.
pub fn refusals() -> impl Iterator<Item = RangeCall> {
    let changes = [
        sides_and_lengths(),
        curve_faults(),
        orders(),
        later_faults(),
    ]
    .concat();
    changes.into_iter().map(|change| {
        let mut call = good();
        change(&mut call);
        call
    })
}

type Change = fn(&mut RangeCall);

/// 22 unless the side is 16, after 3 and before 23; 5, 6 of either frame, and 7.
fn sides_and_lengths() -> Vec<Change> {
    vec![
        |call| call.low.set_side(32),
        |call| call.low.set_side(17),
        |call| {
            call.low.set_side(32);
            call.low.burst.reference = 2;
        },
        |call| {
            call.low.set_side(32);
            call.low.burst.shape.row_length = 63;
        },
        |call| call.low.vectors.push(0),
        |call| call.low.output.truncate(4095),
        |call| call.high.truncate(4095),
        |call| call.high.push(0),
        |call| call.high.clear(),
        |call| {
            call.high.clear();
            call.low.work_length = 0;
        },
        |call| call.low.work_length += 1,
    ]
}

/// 8 and 9 of either curve, 8 before 9.
fn curve_faults() -> Vec<Change> {
    vec![
        |call| call.low.noise = curve(f64::NAN, 0.0),
        |call| call.upper = curve(1.0, f64::INFINITY),
        |call| call.upper = curve(-1.0, 100.0),
        |call| set_ends(call, iso(24, 0.0, 0.0), iso(100, 1.0, 1.0)),
        |call| set_ends(call, iso(100, 0.0, 0.0), iso(409601, 0.0, 0.0)),
        |call| call.upper = curve(65.0, 100.0),
        |call| call.upper = curve(1.0, 4097.0),
        |call| set_ends(call, curve(0.0, 5000.0), curve(1.0, 4096.0)),
        |call| set_ends(call, curve(65.0, 0.0), curve(1.0, f64::NAN)),
        |call| set_ends(call, curve(-1.0, 0.0), curve(65.0, 0.0)),
        |call| set_ends(call, iso(100, 64.0, 0.0), iso(101, 64.0, 0.0)),
    ]
}

/// 26 by either number, as f64 after ISO: two of equal levels are told apart. Zeros of either sign are equal.
fn orders() -> Vec<Change> {
    vec![
        |call| set_ends(call, curve(0.5, 0.0), curve(0.25, 100.0)),
        |call| set_ends(call, curve(0.25, 100.0), curve(0.5, 40.0)),
        |call| set_ends(call, curve(1.0 + f64::EPSILON, 0.0), curve(1.0, 0.0)),
        |call| set_ends(call, curve(0.0, f64::MIN_POSITIVE), curve(0.0, 0.0)),
        |call| set_ends(call, curve(0.0, 1.0), curve(-0.0, 1.0)),
        |call| set_ends(call, curve(-0.0, -0.0), curve(0.0, 0.0)),
        |call| set_ends(call, iso(400, 0.37, 2.5), iso(399, 0.37, 2.5)),
        |call| set_ends(call, iso(100, 2.0, 2.0), iso(200, 1.0, 1.0)),
        |call| set_ends(call, iso(100, 2.0, 4.0), iso(200, 1.0, 1.0)),
        |call| set_ends(call, iso(200, 1.0, 1.0), iso(100, 2.0, 2.0)),
    ]
}

/// 26 before 10; then 10, 18, 24 unless s is 0, 11 and 12.
fn later_faults() -> Vec<Change> {
    vec![
        |call| {
            set_ends(call, curve(2.0, 0.0), curve(1.0, 0.0));
            call.low.tuning.strength = 1025;
        },
        |call| call.low.tuning.strength = 1025,
        |call| {
            call.low.burst.black[2] = 256;
            call.low.tuning.spatial = 1;
        },
        |call| call.low.tuning.spatial = 1,
        |call| call.low.tuning.spatial = 257,
        |call| {
            call.low.tuning.spatial = 256;
            call.low.burst.samples[4095] = 4096;
        },
        |call| call.low.burst.samples[4095] = 4096,
        |call| call.low.vectors[49] = -173,
        |_| {},
    ]
}

fn set_ends(call: &mut RangeCall, lower: Noise, upper: Noise) {
    call.low.noise = lower;
    call.upper = upper;
}
