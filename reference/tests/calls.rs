//! Refusals of the calls: each alone, each before a later one, and the buffers kept.

use reference::burst::Burst;
use reference::calls::{Answer, Call};
use reference::fixed_calls;
use reference::noise::{Curve, Noise, Tuning};
use reference::random::Random;
use reference::scenes::{add_fault, FAULTS};
use reference::shape::Shape;

/// The flat example with vectors of −172.
fn good() -> Call {
    let curve = Curve {
        shot: 0.0,
        read: 4096.0,
    };
    Call {
        burst: Burst {
            shape: Shape::packed(64, 64, 2),
            reference: 0,
            black: [0; 4],
            samples: [vec![0; 4096], vec![4; 4096]].concat(),
        },
        noise: Noise::Curve(curve),
        tuning: Tuning::of_file(1024),
        vectors: vec![-172; 50],
        output: vec![9999; 4096],
        work_length: 8192,
    }
}

/// All sums of a tile are equal, so every offset is summed whole: 4 tiles of side 8 and 4 + 9 of side 16 on the levels
/// above, and these rows of level 0, whose tiles cover `area` pixels in all, each 16 off.
fn flat_answer(area: u64, finest_rows: u64) -> Answer {
    Answer {
        number: 0,
        residuals: [16 * area, 0, 0, 0, 0, 0, 0],
        rows: 4 * 648 + 13 * 1344 + finest_rows,
    }
}

/// Of 25 tiles of side 16.
fn flat_16() -> Answer {
    flat_answer(25 * 16 * 16, 25 * 1344)
}

/// Of 9 tiles of side 32.
fn flat_32() -> Answer {
    flat_answer(9 * 32 * 32, 9 * 2688)
}

fn with_fault(mut call: Call, number: u64) -> Call {
    add_fault(&mut call, number, &mut Random::new(number));
    call
}

/// Every pair of faults is refused by the first that the call tests, and changes nothing.
fn check_pairs(perform: fn(&mut Call) -> Answer, tested: &[u64]) {
    for (index, &first) in FAULTS.iter().enumerate() {
        for &second in &FAULTS[index..] {
            let number = match tested.iter().find(|&&n| n == first || n == second) {
                Some(&number) => number,
                None => continue,
            };
            let lent = with_fault(with_fault(good(), second), first);
            let mut call = lent.clone();
            let refused = Answer {
                number,
                ..Answer::default()
            };
            assert_eq!(perform(&mut call), refused, "{first} and {second}");
            assert_eq!(call.vectors, lent.vectors);
            assert_eq!(call.output, lent.output);
        }
    }
}

#[test]
fn refusals_of_align() {
    check_pairs(Call::align, &[1, 2, 3, 22, 23, 4, 5, 7, 11]);
}

#[test]
fn refusals_of_merge() {
    check_pairs(Call::merge, &FAULTS);
}

#[test]
fn refusals_of_run() {
    check_pairs(Call::run, &FAULTS[..16]);
}

#[test]
fn refusals_of_the_choosing_run() {
    let tested: Vec<u64> = FAULTS[..16]
        .iter()
        .copied()
        .filter(|&fault| fault != 3)
        .collect();
    let choose = |call: &mut Call| {
        let (answer, reference) = call.choose();
        assert_eq!(reference, 0);
        answer
    };
    check_pairs(choose, &tested);
    assert_eq!(with_fault(good(), 3).choose().0.number, 0);
}

#[test]
fn the_choosing_run_is_run_with_its_choice() {
    let noise = |index: usize| (index * index * 7 % 4093) as u16;
    let mut call = good();
    call.burst.samples = (0..8192)
        .map(|index| noise(index) / if index < 4096 { 2 } else { 1 })
        .collect();
    let mut run = call.clone();
    run.burst.reference = 1;
    assert_eq!(call.choose(), (run.run(), 1));
    assert_eq!((call.vectors, call.output), (run.vectors, run.output));
}

#[test]
fn untested_faults_are_accepted() {
    let accepted = flat_16();
    for fault in [6, 8, 9, 10, 18, 24, 12] {
        let lent = with_fault(good(), fault);
        let mut call = lent.clone();
        assert_eq!(call.align(), accepted, "{fault}");
        assert_eq!(call.vectors, [0; 50]);
        assert_eq!(call.output, lent.output);
    }
    // Run overwrites the lent vectors; merge takes parts of −172.
    let mut call = with_fault(good(), 12);
    assert_eq!(call.run(), accepted);
    assert_eq!((call.vectors, call.output), (vec![0; 50], vec![2; 4096]));
    let mut call = good();
    assert_eq!(call.merge().number, 0);
    assert_eq!((call.vectors, call.output), (vec![-172; 50], vec![2; 4096]));
}

/// A 256 by 256 frame with a bright hill around a row and column, steeper above and to its left so that no mirror
/// image of it fits.
fn hill(top: i32, left: i32) -> Vec<u16> {
    let drop = |distance: i32| distance * distance / if distance < 0 { 2 } else { 8 };
    let sample = |index: i32| {
        let (down, right) = (index / 256 - top, index % 256 - left);
        (4000 - drop(down) - drop(right)).max(0) as u16
    };
    (0..256 * 256).map(sample).collect()
}

#[test]
fn a_moved_frame_is_found() {
    let mut call = good();
    call.burst.shape = Shape::packed(256, 256, 2);
    call.burst.samples = [hill(120, 124), hill(126, 114)].concat();
    call.vectors = vec![0; 2 * 17 * 17];
    call.work_length = 2 * 256 * 256;
    assert_eq!(call.align().number, 0);
    // Six samples down and ten left are three and five on level 0.
    let centre = 2 * (17 * 8 + 8);
    assert_eq!(call.vectors[centre..centre + 2], [3, -5]);
}

/// "With N = 1 the answer is that frame unchanged, the vector buffer has length 0 and the seven residual sums are 0."
#[test]
fn a_lone_frame_comes_out_unchanged() {
    let mut call = good();
    call.burst.shape.count = 1;
    call.burst.samples = (0..4096).collect();
    call.vectors.clear();
    for perform in [Call::align, Call::merge, Call::run] {
        assert_eq!(perform(&mut call), Answer::default());
    }
    assert_eq!((call.vectors.len(), &call.output), (0, &call.burst.samples));
    for fault in [2, 3, 4, 5, 6, 7, 11] {
        assert_eq!(with_fault(call.clone(), fault).run().number, fault);
    }
}

/// "two bursts that differ only there get equal results": spare words, here all 65535 and then all 0.
#[test]
fn spare_words_do_not_count() {
    let answers = [65535, 0].map(|word| {
        let mut call = good();
        let rows = call.burst.rows().map(|row| [row, &[word; 3][..]].concat());
        call.burst.samples = rows.collect::<Vec<_>>().concat();
        call.burst.shape.row_length = 67;
        (call.run(), call.vectors, call.output)
    });
    assert_eq!(answers[0], answers[1]);
    let mut packed = good();
    assert_eq!(answers[0], (packed.run(), packed.vectors, packed.output));
}

/// Where the best is 0, each of the other 80 offsets is left after one row.
#[test]
fn rows_of_equal_frames() {
    let mut call = good();
    call.burst.shape.count = 3;
    call.burst.samples = vec![7; 3 * 4096];
    call.vectors = vec![0; 100];
    let rows = 2 * (4 * (8 + 80) + 38 * (48 + 16 + 80));
    assert_eq!((call.align().rows, call.run().rows), (rows, rows));
    assert_eq!(call.merge().rows, 0);
}

#[test]
fn flat_frames_at_side_32() {
    let mut call = good();
    call.set_side(32);
    assert_eq!(call.vectors, [-172; 18]);
    assert_eq!(call.merge().number, 0);
    assert_eq!(
        (&call.vectors[..], &call.output),
        (&[-172; 18][..], &vec![2; 4096])
    );
    // Align does not look at s.
    call.tuning.spatial = 1;
    assert_eq!(call.align(), flat_32());
    assert_eq!(call.run().number, 25);
    call.tuning.spatial = 0;
    call.output.fill(9);
    assert_eq!(call.run(), flat_32());
    assert_eq!((call.vectors, call.output), (vec![0; 18], vec![2; 4096]));
}

/// At every side no tile sums more rows than the bound allows, and found vectors stay within 172.
#[test]
fn rows_and_vectors_stay_within_their_bounds() {
    for (side, bound) in [(16, 1344), (32, 2688)] {
        for mut call in fixed_calls::of_size(side, 128, 64, 3) {
            let rows = call.align().rows;
            // Level 0 has 64 by 32 pixels, level 1 half and level 2 an eighth of that; level 3 is 2 by 1.
            let finest = (128 / side + 1) * (64 / side + 1) * bound;
            let above = (5 * 3 + 2 * 2) * 1344 + 2 * 2 * 648;
            assert!(rows <= (call.burst.shape.count - 1) * (finest + above));
            assert!(call.vectors.iter().all(|part| part.abs() <= 172));
        }
    }
}
