//! The spatial filter: its noise numbers, tiles that can be worked by hand, and the exact filtered merge.

use reference::calls::Call;
use reference::filtered_calls;
use reference::fraction::Fraction;
use reference::noise::{Curve, Levels, Noise, NoiseModel, Tuning};
use reference::{exact, exact_filtered, lone_sample};
use std::cmp::Ordering;

fn model(shot: u64, read: u64) -> NoiseModel {
    NoiseModel {
        levels: Levels { shot, read },
        tuning: Tuning {
            spatial: 256,
            ..Tuning::of_file(0)
        },
    }
}

#[test]
fn noise_numbers_of_bins() {
    let number = |u, v| model(1024, 0).spatial_number(1600, 2, u, v);
    // m is 0, 16, 22, 128 and 181; the rest is 1024·1600/128.
    assert_eq!(number(0, 0), 0);
    assert_eq!(
        [(0, 1), (1, 0), (0, 15), (15, 0)].map(|(u, v)| number(u, v)),
        [204800; 4]
    );
    assert_eq!(
        [(1, 1), (15, 1), (15, 15)].map(|(u, v)| number(u, v)),
        [281600; 3]
    );
    assert_eq!((number(0, 8), number(8, 8)), (1638400, 2316800));
    assert_eq!(
        model(65536, 4194304).spatial_number(65520, 1, 8, 8),
        12_333_531_136
    );
}

/// What the fixed list says of its white references.
#[test]
fn noise_numbers_about_a_power() {
    let greatest = |shot, read| model(shot, read).spatial_number(65520, 2, 8, 8);
    assert_eq!(greatest(11589, 1247), (1 << 30) - 4);
    assert_eq!(greatest(11589, 1248), (1 << 30) + 18);
    assert!(greatest(65536, 4194304) > 1 << 32);
}

/// Whether two fractions are less than 2^-80 apart.
fn nearly_equal(left: &Fraction, right: &Fraction) -> bool {
    let mut off = left.minus(right);
    if off.numerator.is_negative() {
        off.numerator = off.numerator.negated();
    }
    off.numerator = off.numerator.shifted(80);
    off.compare(&Fraction::from(1)) == Ordering::Less
}

/// One frame whose planes have columns of 102 and 98 in turn; the level of read is 2^19.
fn stripes() -> Call {
    let mut call = lone_sample::PLAIN.call();
    call.burst.shape.count = 1;
    call.burst.samples = [102, 102, 98, 98].repeat(1024);
    call.noise = Noise::Curve(Curve {
        shot: 0.0,
        read: 512.0,
    });
    call.vectors.clear();
    call.tuning.spatial = 256;
    call
}

/// Inside, only bins (0, 0) and (0, 8) are not 0. There |b| is 512 and V' is 2^24, 2^16 in squared samples, so that a fifth
/// of 2 is taken. Whole numbers: Q' is 8192, G' 1638, P' 102/256.
#[test]
fn stripes_lose_a_fifth() {
    for strength in [0, 1024] {
        let mut call = stripes();
        call.tuning.strength = strength;
        assert_eq!(call.merge().number, 0);
        assert_eq!(call.output[64 * 24 + 24..][..4], [102, 102, 98, 98]);
        let setting = call.setting().unwrap();
        for (column, fifths) in [(24, 508), (26, 492)] {
            let exact = exact_filtered::sample(&setting, 24, column);
            assert!(nearly_equal(&exact, &Fraction::from(fifths).over(5)));
        }
    }
}

/// A difference of 1 is halved by the same noise, and halves go upward.
#[test]
fn stripes_of_one_step() {
    let mut call = stripes();
    call.burst.samples = [101, 101, 99, 99].repeat(1024);
    assert_eq!(call.merge().number, 0);
    assert_eq!(call.output[64 * 24 + 24..][..4], [101, 101, 100, 100]);
}

#[test]
fn flat_frames_and_plain_merges_stay() {
    let mut call = stripes();
    call.burst.samples.fill(77);
    assert_eq!(call.merge().number, 0);
    assert_eq!(call.output, [77; 4096]);
    let mut call = stripes();
    call.tuning.spatial = 0;
    assert_eq!(call.merge().number, 0);
    assert_eq!(call.output, call.burst.samples);
}

/// Cut bins leave the sample within 2^-80 of the fraction that is worked whole.
#[test]
fn the_unfiltered_merge_of_cut_bins() {
    let call = lone_sample::PLAIN.call();
    let setting = call.setting().unwrap();
    for (row, column) in [(36, 36), (34, 38), (20, 21)] {
        let whole = exact::sample(&setting, row, column);
        let cut = exact_filtered::sample(&setting, row, column);
        assert!(nearly_equal(&cut, &whole));
    }
}

#[test]
fn exact_filtered_merge_of_a_lone_sample() {
    let mut call = lone_sample::FILTERED.call();
    assert_eq!(call.merge().number, 0);
    assert_eq!(call.output[44 * 64 + 20], 38);
    let value = exact_filtered::sample(&call.setting().unwrap(), 44, 20).decimal();
    assert!(value.starts_with("38.5467884039"), "{value}");
}

#[test]
fn refusals_beside_the_filter() {
    let calls = filtered_calls::calls().skip(3 * 36).take(16);
    let merged = calls.map(|mut call| call.merge().number);
    let limits = [0, 0, 0, 0, 0, 24];
    let beside = [10, 10, 18, 18, 11, 24, 12, 24, 18, 18];
    assert_eq!(merged.collect::<Vec<_>>(), [&limits[..], &beside].concat());
}
