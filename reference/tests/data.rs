//! The fixed calls and the moving files hold what README.md says of them.

use reference::calls::{Answer, Call};
use reference::ceiling::{self, Leaks};
use reference::file::check;
use reference::fixed_calls::{self, calls, of_size};
use reference::ghosts;
use reference::moving_files::cases;
use reference::programs::{motion, stack};
use reference::side::Side;
use reference::side_calls;
use std::collections::BTreeSet;

fn brightest(call: &Call) -> u16 {
    *call.burst.rows().flatten().max().unwrap()
}

#[test]
fn fixed_calls_have_every_count_and_reference() {
    for side in [16, 32] {
        let mut seen = BTreeSet::new();
        let mut greatest = 0;
        for call in calls().filter(|call| call.tuning.side == side).take(175) {
            let shape = call.burst.shape;
            let vectors = shape.vectors_length(Side::of(side).unwrap());
            assert_eq!(call.burst.samples.len() as u64, shape.samples_length());
            assert_eq!(call.vectors.len() as u64, vectors);
            greatest = greatest.max(brightest(&call));
            seen.insert((shape.width, shape.height, shape.count, call.burst.reference));
        }
        assert_eq!(greatest, 4095);
        for (width, height) in [(64, 64), (128, 64), (64, 192), (256, 256)] {
            for count in 1..=8 {
                assert!(
                    (0..count).all(|reference| seen.contains(&(width, height, count, reference)))
                );
            }
        }
        assert_eq!(seen.len(), 4 * 36 + 4 + 3 + 3 + 2);
    }
}

/// The first call of each round has another picture, and in five rounds every noise.
#[test]
fn rounds_turn_pictures_and_noises() {
    let mut strengths = BTreeSet::new();
    let mut greatest = BTreeSet::new();
    for round in 0..8 {
        let call = of_size(32, 64, 64, round).next().unwrap();
        strengths.insert(call.tuning.strength);
        greatest.insert(brightest(&call));
        assert_eq!(of_size(32, 64, 64, round).count(), 36);
    }
    assert_eq!(strengths, BTreeSet::from([0, 8, 77, 1024]));
    assert!(greatest.contains(&0) && greatest.contains(&4095));
}

#[test]
fn black_levels_about_the_samples() {
    let answers = fixed_calls::pedestals()
        .map(|mut call| [call.align(), call.merge()].map(|answer| answer.number));
    let accepted = |answer: &[u64; 2]| answer == &[0, 0];
    let (good, refused): (Vec<_>, Vec<_>) = answers.partition(accepted);
    assert_eq!(good.len(), 7);
    assert_eq!(refused, [[0, 18]; 5]);
}

#[test]
fn row_lengths_at_their_limits() {
    let answers = fixed_calls::row_lengths().map(|mut call| call.merge().number);
    assert_eq!(answers.collect::<Vec<_>>(), [0, 0, 0, 23, 23, 11, 11, 4, 4]);
}

#[test]
fn the_sharpest_frame_is_chosen() {
    let chosen = fixed_calls::soft_frames().map(|mut call| call.choose());
    let chosen = chosen.map(|(answer, reference)| (answer.number, reference));
    let expected = [1, 1, 1, 1, 2, 2, 1, 0, 0].map(|reference| (0, reference));
    assert_eq!(chosen.collect::<Vec<_>>(), expected);
}

#[test]
fn vectors_outside_are_refused() {
    for side in [16, 32] {
        let calls: Vec<Call> = fixed_calls::refused_vectors(side).collect();
        assert_eq!(calls.len(), 8);
        for mut call in calls {
            assert_eq!(call.merge().number, 12);
            assert_eq!(call.run().number, 0);
        }
    }
}

#[test]
fn black_levels_are_tested_after_strength_and_before_samples() {
    let answers = fixed_calls::faults_beside_black().map(|mut call| call.merge().number);
    assert_eq!(answers.collect::<Vec<_>>(), [10, 18, 10]);
}

#[test]
fn sides_are_tested_after_the_reference() {
    let numbers = |perform: fn(&mut Call) -> Answer| -> Vec<u64> {
        let numbers = side_calls::calls().map(|mut call| perform(&mut call).number);
        numbers.collect()
    };
    let refused = [22; 10];
    let lengths = [5, 5, 0, 5, 5];
    assert_eq!(
        numbers(Call::merge),
        [
            &refused[..],
            &[1, 2, 3, 22, 22, 22, 22],
            &lengths,
            &[25, 25, 24, 10, 18, 25, 25, 12]
        ]
        .concat()
    );
    assert_eq!(
        numbers(Call::align),
        [
            &refused[..],
            &[1, 2, 3, 22, 22, 22, 22],
            &lengths,
            &[0, 0, 0, 0, 0, 11, 0, 0]
        ]
        .concat()
    );
    // A reference of 2 is passed over.
    assert_eq!(
        numbers(|call| call.choose().0),
        [
            &refused[..],
            &[1, 2, 22, 22, 22, 22, 22],
            &lengths,
            &[25, 25, 24, 10, 18, 25, 25, 0]
        ]
        .concat()
    );
}

#[test]
fn ghosts_come_near_the_ceiling() {
    // Seven of eight frames lack the object: seven eighths of the noise's half root.
    for (side, nearest) in [(16, "1372 of 1568"), (32, "310 of 363")] {
        let mut leaks = Leaks::default();
        let calls: Vec<Call> = ghosts::calls(side).collect();
        assert_eq!(calls.len(), 5 * 8 * 3);
        for mut call in calls {
            assert_eq!(call.merge().number, 0);
            let found = ceiling::leaks(&call.setting().unwrap(), &call.output);
            found.into_iter().for_each(|leak| leaks.add(leak));
        }
        assert_eq!((leaks.words, leaks.forbidden), (120 * 4096, None));
        assert_eq!(leaks.nearest.to_string(), nearest);
    }
}

/// Why run has no refusal 12.
#[test]
fn found_vectors_stay_within_reach() {
    for side in [16, 32] {
        for mut call in of_size(side, 64, 64, 0).chain(of_size(side, 128, 64, 1)) {
            assert_eq!(call.run().number, 0);
            assert!(call.vectors.iter().all(|part| part.abs() <= 172));
        }
    }
}

#[test]
fn moving_files_are_as_expected() {
    let cases = cases(1);
    for case in &cases {
        assert_eq!(check(&case.bytes), case.number, "{}", case.name);
    }
    let (good, limits) = cases.split_at(224);
    assert!(good
        .iter()
        .all(|case| case.number == 0 && case.bytes.len() <= 65536));
    let names = |printed: &str| -> Vec<&str> {
        let found = limits.iter().filter(|case| motion(&case.bytes) == printed);
        found.map(|case| case.name.as_str()).collect()
    };
    let too_large = ["longer", "longer-blank", "eight", "high", "wide"];
    assert_eq!(names("too large\n"), too_large);
    assert_eq!(names("refused 15\n"), ["largest-blank", "wide-cut"]);
    assert_eq!(limits[0].name, "largest");
    assert!(stack(&limits[0].bytes).starts_with("width height\n64 64\n"));
}
