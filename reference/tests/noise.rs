//! Noise levels, refusals 8 and 9, and the station's two questions on numbers.

use reference::noise::{Curve, Levels, Noise};
use reference::refusal::Refusal::{self, NoiseLimit, NoiseValue};
use reference::shape::Shape;
use reference::station::{station_length, station_noise};

fn curve(shot: f64, read: f64) -> Result<Levels, Refusal> {
    Noise::Curve(Curve { shot, read }).levels()
}

fn iso(iso: u32, shot: f64, read: f64) -> Result<Levels, Refusal> {
    Noise::Iso(iso, Curve { shot, read }).levels()
}

fn levels(shot: u64, read: u64) -> Result<Levels, Refusal> {
    Ok(Levels { shot, read })
}

#[test]
fn curve_limits() {
    let above = |value: f64| f64::from_bits(value.to_bits() + 1);
    assert_eq!(curve(64.0, 4096.0), levels(65536, 4194304));
    assert_eq!(curve(above(64.0), 0.0), Err(NoiseLimit));
    assert_eq!(curve(0.0, above(4096.0)), Err(NoiseLimit));
    assert_eq!(curve(f64::MAX, 0.0), Err(NoiseLimit));
    assert_eq!(curve(-0.0, -0.0), levels(0, 0));
    assert_eq!(curve(f64::from_bits(1), f64::from_bits(1)), levels(0, 0));
    assert_eq!(curve(65.0, -1.0), Err(NoiseValue));
    for bad in [
        f64::NAN,
        -f64::NAN,
        f64::INFINITY,
        f64::NEG_INFINITY,
        -f64::from_bits(1),
        -1.0,
    ] {
        assert_eq!(curve(bad, 0.0), Err(NoiseValue));
        assert_eq!(curve(0.0, bad), Err(NoiseValue));
        assert_eq!(iso(100, bad, 0.0), Err(NoiseValue));
        assert_eq!(iso(100, 0.0, bad), Err(NoiseValue));
    }
}

#[test]
fn iso_limits() {
    assert_eq!(iso(24, 0.0, 0.0), Err(NoiseValue));
    assert_eq!(iso(409601, 0.0, 0.0), Err(NoiseValue));
    assert_eq!(iso(u32::MAX, 0.0, 0.0), Err(NoiseValue));
    assert_eq!(iso(25, 256.0, 65536.0), levels(65536, 4194304));
    assert_eq!(
        iso(409600, 1.0 / 64.0, 1.0 / 4096.0),
        levels(65536, 4194304)
    );
    assert_eq!(iso(25, 257.0, 0.0), Err(NoiseLimit));
    assert_eq!(iso(24, 257.0, 0.0), Err(NoiseValue));
    // An overflow to infinity in scaling is refusal 9.
    assert_eq!(iso(409600, f64::MAX, 0.0), Err(NoiseLimit));
    assert_eq!(iso(409600, 0.0, f64::MAX), Err(NoiseLimit));
    assert_eq!(iso(25, -0.0, f64::from_bits(1)), levels(0, 0));
}

#[test]
fn read_is_scaled_by_the_rounded_square() {
    // α·(α·read) gives Lr 0.
    let read = f64::from_bits(0x3f84cfc8974f1e1a);
    assert_eq!(iso(31, 0.0, read), levels(0, 1));
}

fn length(width: u64, height: u64, count: u64, number: u64) -> u64 {
    station_length(Shape::packed(width, height, count), 16, number)
}

#[test]
fn station_lengths() {
    assert_eq!(length(64, 64, 2, 4), 8192);
    assert_eq!(length(64, 64, 2, 5), 50);
    assert_eq!(length(64, 64, 2, 6), 4096);
    assert_eq!(length(64, 64, 2, 7), 8192);
    assert_eq!(length(4096, 64, 8, 5), 7 * 2 * 257 * 5);
    assert_eq!(length(4096, 4096, 8, 4), 8 << 24);
    // A lone frame has no vectors; its other lengths hold.
    let lone = [4, 5, 6, 7].map(|number| length(128, 64, 1, number));
    assert_eq!(lone, [8192, 0, 8192, 16384]);
    for number in [0, 1, 2, 3, 8, 15, 22, 23, u64::MAX] {
        assert_eq!(length(64, 64, 2, number), 0);
    }
    for (width, height, count) in [
        (0, 64, 2),
        (96, 64, 2),
        (64, 4160, 2),
        (64, 64, 0),
        (64, 64, 9),
        (64, 64, u64::MAX),
        (u64::MAX - 63, 64, 2),
    ] {
        assert_eq!(length(width, height, count, 4), 0);
    }
}

#[test]
fn station_lengths_at_side_32() {
    let length = |width, height, count, number| {
        station_length(Shape::packed(width, height, count), 32, number)
    };
    assert_eq!(
        [4, 5, 6, 7].map(|number| length(64, 64, 2, number)),
        [8192, 18, 4096, 8192]
    );
    assert_eq!(length(4096, 64, 8, 5), 7 * 2 * 129 * 3);
    assert_eq!(length(64, 64, 1, 5), 0);
}

/// "The length question takes side and L, and is 0 where 22 or 23 would stand."
#[test]
fn station_lengths_of_padded_rows() {
    let lengths = |row_length, side| {
        let mut shape = Shape::packed(64, 128, 3);
        shape.row_length = row_length;
        [4, 5, 6, 7].map(|number| station_length(shape, side, number))
    };
    let others = |samples| [samples, 2 * 2 * 5 * 9, 8192, 16384];
    assert_eq!(lengths(65, 16), others(3 * 65 * 128));
    assert_eq!(lengths(320, 16), others(3 * 320 * 128));
    for (row_length, side) in [
        (63, 16),
        (321, 16),
        (0, 16),
        (u64::MAX, 16),
        (64, 0),
        (64, 8),
        (64, 17),
        (63, 32),
        (64, 64),
    ] {
        assert_eq!(lengths(row_length, side), [0; 4]);
    }
}

#[test]
fn station_noise_numbers() {
    let noise = |shot, read, strength, root| station_noise(shot, read, strength, root, 16);
    assert_eq!(noise(1.0, 0.0, 8, 1600), 819200);
    // One floor, after multiplying by t.
    assert_eq!(noise(1.0 / 1024.0, 0.0, 15, 1), 0);
    assert_eq!(noise(1.0 / 1024.0, 0.0, 16, 1), 1);
    assert_eq!(noise(1.0 / 1024.0, 0.0, 2, 15), 1);
    let largest = 1024 * (65536 * 65520 + 16 * 4194304) / 16;
    assert_eq!(noise(64.0, 4096.0, 1024, 65520), largest);
    assert_eq!(noise(64.0, 4096.0, 1024, 65521), 0);
    assert_eq!(noise(64.0, 4096.0, 1025, 65520), 0);
    assert_eq!(noise(64.0, 4096.0, u64::MAX, u64::MAX), 0);
    assert_eq!(noise(65.0, 4096.0, 1024, 65520), 0);
    assert_eq!(noise(64.0, f64::NAN, 1024, 65520), 0);
}

#[test]
fn station_noise_numbers_of_sides() {
    let noise = |strength, root, side| station_noise(64.0, 4096.0, strength, root, side);
    let largest = 1024 * (65536 * 131040 + 32 * 4194304) / 128;
    assert_eq!(noise(1024, 131040, 32), largest);
    assert_eq!(noise(1024, 131041, 32), 0);
    assert_eq!(noise(1025, 131040, 32), 0);
    assert_eq!(station_noise(1.0 / 1024.0, 0.0, 127, 1, 32), 0);
    assert_eq!(station_noise(1.0 / 1024.0, 0.0, 128, 1, 32), 1);
    for side in [0, 8, 15, 17, 31, 33, 64, u64::MAX] {
        assert_eq!(noise(1024, 1, side), 0);
    }
}
