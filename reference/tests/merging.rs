//! Checked figures M1 to M11, the flat example, and the exact merge at single samples.

use reference::align::{own_and_neighbour, CoarseIndices};
use reference::exact;
use reference::lone_sample;
use reference::merge::{correction, inverse_rounded, root, shrunk};
use reference::noise::{Curve, Levels, Noise, NoiseModel, Tuning};
use reference::programs::{motion, stack};
use reference::side::{SIXTEEN, THIRTY_TWO};
use reference::square::Square;
use reference::transform::{Bins, Complex, Tile};

/// A tile of one value.
fn flat(value: i64) -> Tile {
    Square::filled(16, value)
}

fn levels(shot: u64, read: u64) -> Levels {
    Levels { shot, read }
}

#[test]
fn m1_to_m3_roots() {
    assert_eq!(root(&flat(100), 0), 1600);
    assert_eq!(root(&flat(4095), 0), 65520);
    let mut tile = flat(0);
    tile[(5, 7)] = 1;
    assert_eq!(root(&tile, 0), 1);
}

/// "the amount by which it exceeds its plane's black, or 0"
#[test]
fn roots_above_black() {
    assert_eq!(root(&flat(100), 64), 36 * 16);
    assert_eq!(root(&flat(64), 64), 0);
    assert_eq!(root(&flat(0), 255), 0);
    let mut tile = flat(60);
    tile[(0, 0)] = 67;
    tile[(9, 3)] = 68;
    assert_eq!(root(&tile, 64), 5);
}

/// Of the planes only the second has light: 4 above its black, so r is 64, V is 2^28, as |Q|² is, and half of the other
/// frame's difference is taken.
#[test]
fn black_levels_of_the_planes() {
    let mut call = lone_sample::PLAIN.call();
    call.burst.shape.count = 2;
    call.burst.black = [64, 60, 64, 255];
    call.burst.samples = [vec![64; 4096], vec![68; 4096]].concat();
    call.noise = Noise::Curve(Curve {
        shot: 64.0,
        read: 0.0,
    });
    call.vectors.truncate(50);
    assert_eq!(call.merge().number, 0);
    let rows: Vec<u16> = [[64, 65].repeat(32), vec![64; 64]].concat();
    assert_eq!(call.output, rows.repeat(32));
}

#[test]
fn m4_and_m5_noise_numbers() {
    let model = |strength| NoiseModel {
        levels: levels(1024, 0),
        tuning: Tuning::of_file(strength),
    };
    assert_eq!(model(8).noise_number(SIXTEEN, 1600), 819200);
    assert_eq!(model(0).noise_number(SIXTEEN, 1600), 0);
}

#[test]
fn m6_and_m7_levels() {
    let base = Curve {
        shot: 1.0,
        read: 1.0,
    };
    assert_eq!(Noise::Iso(400, base).levels(), Ok(levels(4096, 16384)));
    let highest = Curve {
        shot: 64.0,
        read: 0.0,
    };
    assert_eq!(Noise::Curve(highest).levels(), Ok(levels(65536, 0)));
}

#[test]
fn m8_and_m9_coarse_indices() {
    let indices = |own, neighbour| CoarseIndices { own, neighbour };
    assert_eq!(own_and_neighbour(5, 4, 9), indices(1, 2));
    assert_eq!(own_and_neighbour(6, 4, 9), indices(2, 1));
    assert_eq!(own_and_neighbour(5, 4, 1), indices(1, 1));
}

#[test]
fn m10_and_m11_flat_bin() {
    let bin = Complex { re: -16384, im: 0 };
    let shrunk_bin = Complex { re: -15420, im: 0 };
    assert_eq!(shrunk(bin, 1 << 32), shrunk_bin);
    let mut bins: Bins = Square::filled(16, Complex::default());
    bins[(0, 0)] = shrunk_bin;
    assert_eq!(inverse_rounded(SIXTEEN, &bins), flat(-964));
    assert_eq!(correction(SIXTEEN, &flat(-4), 1 << 32), flat(-964));
    assert_eq!(correction(SIXTEEN, &flat(-4), 0), flat(0));
}

/// The same tile at side 32: the bin is −4·1024 samples, −16384 quarters, and V is that number squared, so that half of
/// the difference is taken.
#[test]
fn flat_bin_at_side_32() {
    let tile = |value| Square::filled(32, value);
    assert_eq!(correction(THIRTY_TWO, &tile(-4), 1 << 28), tile(-512));
    assert_eq!(root(&tile(100), 0), 3200);
    assert_eq!(root(&tile(4095), 0), THIRTY_TWO.largest_root());
}

/// The flat example as a file with this strength.
fn flat_file(strength: &str) -> Vec<u8> {
    let row = |value: &str| vec![value; 64].join(" ") + "\n";
    let names = "width height count reference shot read strength\n";
    let values = format!("64 64 2 0 0 4194304 {strength}\n");
    let frames = row("0").repeat(64) + &row("4").repeat(64);
    [names, &values, &frames].concat().into_bytes()
}

fn flat_stack(value: &str) -> String {
    let row = vec![value; 64].join(" ") + "\n";
    "width height\n64 64\n".to_string() + &row.repeat(64)
}

#[test]
fn flat_example() {
    let motion_text = "frame tiles still far residual\n1 25 25 0 102400\n";
    assert_eq!(motion(&flat_file("1024")), motion_text);
    assert_eq!(stack(&flat_file("1024")), flat_stack("2"));
    assert_eq!(stack(&flat_file("0")), flat_stack("0"));
}

#[test]
fn a_lone_frame() {
    let text = String::from_utf8(flat_file("1024")).unwrap();
    let lines: Vec<&str> = text.lines().collect();
    let rows = lines[2 + 64..].join("\n");
    let file = [lines[0], "64 64 1 0 65536 4194304 1024", &rows, ""].join("\n");
    assert_eq!(motion(file.as_bytes()), "frame tiles still far residual\n");
    assert_eq!(stack(file.as_bytes()), flat_stack("4"));
}

#[test]
fn programs_stop() {
    let mut file = flat_file("1025");
    assert_eq!(motion(&file), "refused 10\n");
    assert_eq!(stack(b""), "refused 15\n");
    file.resize(65536, b' ');
    assert_eq!(stack(&file), "refused 10\n");
    file.push(b' ');
    assert_eq!(stack(&file), "too large\n");
    // A good file of another size, small enough to be read.
    let row = vec!["0"; 128].join(" ") + "\n";
    let names = "width height count reference shot read strength\n";
    let wide = [names, "128 64 2 0 0 0 0\n", &row.repeat(128)].concat();
    assert_eq!(motion(wide.as_bytes()), "too large\n");
    assert_eq!(motion(&wide.as_bytes()[..9000]), "refused 15\n");
}

/// A plane of 32 read 32 places off is flipped, read 64 places off it is itself.
#[test]
fn mirrored_frames_agree() {
    let sample = |index: usize| (index * index * 7 % 4093) as u16;
    let flip = |place: usize| 2 * (31 - place / 2) + place % 2;
    let flipped = |index: usize| sample(64 * flip(index / 64) + flip(index % 64));
    let frame = |sample: &dyn Fn(usize) -> u16| (0..4096).map(sample).collect::<Vec<_>>();
    for (half_periods, other) in [
        (0, frame(&sample)),
        (1, frame(&flipped)),
        (-2, frame(&sample)),
        (3, frame(&flipped)),
        (-5, frame(&flipped)),
    ] {
        let mut call = lone_sample::PLAIN.call();
        call.burst.shape.count = 2;
        call.burst.reference = 1;
        call.burst.samples = [other, frame(&sample)].concat();
        call.vectors = vec![32 * half_periods; 50];
        assert_eq!(call.merge().number, 0);
        assert_eq!(call.output, frame(&sample), "{half_periods}");
    }
}

#[test]
fn exact_merge_of_a_lone_sample() {
    let mut call = lone_sample::PLAIN.call();
    assert_eq!(call.merge().number, 0);
    assert_eq!(call.output[36 * 64 + 36], 118);
    let setting = call.setting().unwrap();
    assert_eq!(setting.noise.levels, levels(0, 3422141));
    let value = exact::sample(&setting, 36, 36).decimal();
    assert!(value.starts_with("118.5510720579"), "{value}");
}

/// Five eighths do not hold at side 32.
#[test]
fn exact_merge_of_a_lone_sample_at_side_32() {
    let mut call = lone_sample::WIDE.call();
    assert_eq!(call.merge().number, 0);
    assert_eq!(call.output[40 * 128 + 40], 393);
    let value = exact::sample(&call.setting().unwrap(), 40, 40).decimal();
    assert!(value.starts_with("393.7118421615"), "{value}");
}

/// The difference is 1 all over, and V, in sixteenths, is |Q|²: half of it is taken, and half of that for the two frames.
#[test]
fn exact_merge_of_flat_frames_at_side_32() {
    let mut call = lone_sample::WIDE.call();
    call.burst.shape.count = 2;
    call.burst.samples = [vec![8; 128 * 128], vec![9; 128 * 128]].concat();
    call.noise = Noise::Curve(Curve {
        shot: 0.0,
        read: 64.0,
    });
    call.set_side(32);
    let setting = call.setting().unwrap();
    for (row, column) in [(0, 0), (31, 32), (65, 127)] {
        assert_eq!(
            exact::sample(&setting, row, column).decimal(),
            "8.250000000000"
        );
    }
}
