//! The residuals of tiles: the refusals of their call, the flat example, and sums beside align's.

use reference::fixed_calls::{of_size, two_frames};
use reference::random::Random;
use reference::residuals::ResidualsCall;
use reference::scenes::add_fault;

/// In the order of their tests.
const TESTED: [u64; 11] = [1, 2, 3, 22, 23, 4, 5, 6, 7, 11, 12];

fn with_fault(mut call: ResidualsCall, number: u64) -> ResidualsCall {
    match number {
        6 => call.residuals.push(0),
        _ => add_fault(&mut call.call, number, &mut Random::new(number)),
    }
    call
}

#[test]
fn pairs_of_faults() {
    for (index, &first) in TESTED.iter().enumerate() {
        for &second in &TESTED[index..] {
            let lent = with_fault(
                with_fault(ResidualsCall::of_call(two_frames()), second),
                first,
            );
            let mut call = lent.clone();
            assert_eq!(call.perform(), first, "{first} and {second}");
            assert_eq!(call.residuals, lent.residuals);
        }
    }
}

/// Noise, strength, black levels and output do not count.
#[test]
fn what_is_not_read() {
    let mut call = ResidualsCall::of_call(two_frames());
    for number in [8, 10, 18, 24] {
        call = with_fault(call, number);
    }
    call.call.output.clear();
    assert_eq!(call.perform(), 0);
}

/// Each pixel of the flat example is 16 off, wherever the vectors lead.
#[test]
fn flat_frames() {
    for side in [16, 32] {
        let mut call = two_frames();
        call.burst.reference = 0;
        call.burst.samples = [vec![0; 4096], vec![4; 4096]].concat();
        call.vectors.fill(-172);
        call.set_side(side);
        let mut call = ResidualsCall::of_call(call);
        assert_eq!(call.perform(), 0);
        let tiles = (64 / side as usize + 1).pow(2);
        assert_eq!(call.residuals, vec![16 * side * side; tiles]);
    }
}

#[test]
fn sums_at_found_vectors_are_those_of_align() {
    for side in [16, 32] {
        for mut call in of_size(side, 128, 64, 3).step_by(5) {
            let answer = call.align();
            let others = call.burst.others().len();
            let mut call = ResidualsCall::of_call(call);
            assert_eq!((answer.number, call.perform()), (0, 0));
            let mut sums = [0; 7];
            if others > 0 {
                let frames = call.residuals.chunks(call.residuals.len() / others);
                for (sum, frame) in sums.iter_mut().zip(frames) {
                    *sum = frame.iter().sum();
                }
            }
            assert_eq!(sums, answer.residuals);
        }
    }
}
