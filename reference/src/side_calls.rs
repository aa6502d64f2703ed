//! Calls about the side of the tiles: sides that are refused, vectors of the other side's length, and the spatial filter
//! beside side 32.

use crate::calls::Call;
use crate::fixed_calls::two_frames;

pub fn calls() -> impl Iterator<Item = Call> {
    refused_sides()
        .chain(changed(beside_a_refused_side()))
        .chain(changed(lengths_of_the_other_side()))
        .chain(changed(filters_beside_side_32()))
}

fn refused_sides() -> impl Iterator<Item = Call> {
    let sides = [0, 1, 8, 15, 17, 31, 33, 64, 1 << 32 | 16, u64::MAX];
    sides.into_iter().map(|side| {
        let mut call = two_frames();
        call.set_side(side);
        call
    })
}

/// Good calls, each with one of these changes.
fn changed(changes: Vec<fn(&mut Call)>) -> impl Iterator<Item = Call> {
    changes.into_iter().map(|change| {
        let mut call = two_frames();
        change(&mut call);
        call
    })
}

/// 22 comes after 1, 2 and 3, before 23, 4, 5 and all later ones.
fn beside_a_refused_side() -> Vec<fn(&mut Call)> {
    vec![
        |call| {
            call.set_side(8);
            call.burst.shape.height = 96;
        },
        |call| {
            call.set_side(17);
            call.burst.shape.count = 9;
        },
        |call| {
            call.set_side(0);
            call.burst.reference = 2;
        },
        |call| {
            call.set_side(64);
            call.burst.shape.row_length = 63;
        },
        |call| {
            call.set_side(0);
            call.burst.samples.clear();
        },
        |call| {
            call.set_side(33);
            call.vectors.clear();
        },
        |call| {
            call.set_side(17);
            call.tuning.strength = 1025;
            call.tuning.spatial = 257;
        },
    ]
}

/// The length of the other side, and at side 32 the right one, one over and one short: 5 but for the right one.
fn lengths_of_the_other_side() -> Vec<fn(&mut Call)> {
    vec![
        |call| call.tuning.side = 32,
        |call| {
            call.set_side(32);
            call.tuning.side = 16;
        },
        |call| call.set_side(32),
        |call| {
            call.set_side(32);
            call.vectors.push(0);
        },
        |call| {
            call.set_side(32);
            call.vectors.pop();
        },
    ]
}

/// 25 comes after 10, 18 and 24, before 11 and 12; align looks at none of them but 11.
fn filters_beside_side_32() -> Vec<fn(&mut Call)> {
    vec![
        |call| filter_32(call, 1),
        |call| filter_32(call, 256),
        |call| filter_32(call, 257),
        |call| {
            filter_32(call, 1);
            call.tuning.strength = 1025;
        },
        |call| {
            filter_32(call, 256);
            call.burst.black[1] = 256;
        },
        |call| {
            filter_32(call, 1);
            call.burst.samples[9] = 4096;
        },
        |call| {
            filter_32(call, 26);
            call.vectors[17] = 173;
        },
        |call| {
            filter_32(call, 0);
            call.vectors[17] = 173;
        },
    ]
}

fn filter_32(call: &mut Call, spatial: u64) {
    call.set_side(32);
    call.tuning.spatial = spatial;
}
