//! The range: its refusals, frames that can be worked by hand, and frames merged between its ends.

use reference::between::Between;
use reference::calls::Call;
use reference::fixed_calls;
use reference::noise::{Curve, Noise};
use reference::random::Random;
use reference::range_call::RangeCall;
use reference::range_calls::{calls, of_size, random};
use reference::range_faults::{good, pairs_of_faults, refusals, TESTED};

fn curve(shot: f64, read: f64) -> Noise {
    Noise::Curve(Curve { shot, read })
}

#[test]
fn the_first_fault_is_answered() {
    for (number, lent) in pairs_of_faults() {
        let mut call = lent.clone();
        assert_eq!(call.perform(), number);
        assert_eq!(call.low.vectors, lent.low.vectors);
        assert_eq!((call.low.output, call.high), (lent.low.output, lent.high));
    }
}

#[test]
fn refusals_of_the_list() {
    let numbers = refusals().map(|mut call| call.perform());
    let expected = [
        &[22, 22, 3, 22, 5, 6, 6, 6, 6, 6, 7][..],
        &[8, 8, 8, 8, 8, 9, 9, 9, 8, 8, 9],
        &[26, 26, 26, 26, 0, 0, 26, 0, 0, 26],
        &[26, 10, 18, 24, 24, 24, 11, 12, 0],
    ];
    assert_eq!(numbers.collect::<Vec<_>>(), expected.concat());
}

/// What README.md says of the list.
#[test]
fn calls_of_the_list() {
    let sizes: Vec<_> = calls()
        .map(|call| call.low.burst.shape)
        .map(|shape| (shape.width, shape.height))
        .collect();
    assert_eq!(sizes.len(), 36 + 2 * 4 + 2 + 22 + 15 + 41 + 153);
    assert!(sizes[..36].iter().all(|&size| size == (64, 64)));
    assert_eq!(sizes[36..44], [[(128, 64); 4], [(64, 192); 4]].concat());
    assert_eq!(sizes[44..46], [(64, 4096), (4096, 64)]);
}

/// Of 600 random calls most are accepted, and every number is met.
#[test]
fn random_ranges() {
    let numbers: Vec<u64> = random(64, 600, 1).map(|call| call.refusal()).collect();
    let met = |number: &u64| numbers.contains(number);
    assert!(TESTED.iter().all(met), "{numbers:?}");
    assert!(numbers.iter().filter(|&&number| number == 0).count() > 200);
}

/// At the lower end V is 0 and nothing is taken; at the upper one the flat example's 2 comes out.
#[test]
fn flat_frames() {
    let mut call = good();
    call.low.burst.reference = 0;
    call.low.burst.samples = [vec![0; 4096], vec![4; 4096]].concat();
    call.low.tuning.strength = 1024;
    call.low.noise = curve(0.0, 0.0);
    call.upper = curve(0.0, 4096.0);
    assert_eq!(call.perform(), 0);
    assert_eq!((call.low.output, call.high), (vec![0; 4096], vec![2; 4096]));
}

/// "Equal curves give low and high equal to the plain merge."
#[test]
fn equal_curves_give_the_plain_merge() {
    for mut plain in fixed_calls::of_size(16, 64, 64, 2).step_by(5) {
        let mut call = RangeCall {
            upper: plain.noise,
            high: plain.output.clone(),
            low: plain.clone(),
        };
        assert_eq!((plain.merge().number, call.perform()), (0, 0));
        assert_eq!(
            (&call.low.output, &call.high),
            (&plain.output, &plain.output)
        );
    }
}

/// "For every curve between the two ends, the frame merged with it lies between low and high at each sample."
#[test]
fn frames_between_the_ends() {
    let mut between = Between::default();
    let mut random = Random::new(1);
    for mut call in of_size(64, 64, 0).skip(11).step_by(5) {
        assert_eq!(call.perform(), 0);
        between.add(&call, &mut random);
    }
    assert_eq!((between.frames, between.words), (5 * 20, 5 * 20 * 4096));
    assert_eq!(between.outside, 0);
    assert!(between.widest > 1000);
}

/// The check of frames between can fail: with low and high a step nearer to each other some word is outside.
#[test]
fn narrower_ends_are_noticed() {
    let mut call = good();
    assert_eq!(call.perform(), 0);
    let mut merged: Call = call.low.clone();
    assert_eq!(merged.merge().number, 0);
    call.low.output = merged.output.iter().map(|&word| word + 1).collect();
    let mut between = Between::default();
    between.add(&call, &mut Random::new(1));
    assert!(between.outside >= 4096);
}
