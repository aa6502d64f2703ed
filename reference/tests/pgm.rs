//! PGM files: the spelling, refusals in order, and the way there and back.

use reference::pgm::{length, read, write, Pgm};
use reference::pgm_data::{readings, writings};
use reference::refusal::{number, Refusal};

fn good() -> Pgm {
    Pgm {
        width: 64,
        height: 128,
        samples: (0..8192).map(|index| index % 4096).collect(),
    }
}

#[test]
fn the_spelling() {
    let bytes = write(&good(), 15 + 2 * 8192).unwrap();
    assert!(bytes.starts_with(b"P5\n64 128\n4095\n\0\0\0\x01\0\x02"));
    assert!(bytes.ends_with(b"\x0f\xfe\x0f\xff"));
    assert_eq!(length(64, 64), 14 + 8192);
    assert_eq!(length(1024, 4096), 18 + (8 << 20));
    assert_eq!(read(&bytes, 8192), Ok(good()));
}

/// "Writing tests 1, 6, 16, 11."
#[test]
fn refusals_of_writing() {
    let mut pgm = good();
    assert_eq!(write(&pgm, 16398), Err(Refusal::BytesLength));
    pgm.samples[8191] = 4096;
    assert_eq!(write(&pgm, 16399), Err(Refusal::Sample));
    assert_eq!(write(&pgm, 16400), Err(Refusal::BytesLength));
    pgm.samples.push(0);
    assert_eq!(write(&pgm, 0), Err(Refusal::OutputLength));
    pgm.height = 96;
    assert_eq!(write(&pgm, 0), Err(Refusal::Size));
}

/// "reading 17, 6, 11"
#[test]
fn refusals_of_reading() {
    let mut bytes = write(&good(), 16399).unwrap();
    assert_eq!(read(&bytes, 8191), Err(Refusal::OutputLength));
    bytes[15] = 16;
    assert_eq!(read(&bytes, 8192), Err(Refusal::Sample));
    assert_eq!(read(&bytes, 0), Err(Refusal::OutputLength));
    bytes.push(0);
    assert_eq!(read(&bytes, 0), Err(Refusal::Pgm));
    for bytes in [&b""[..], b"P5", b"P5\n64 64", b"P5\n64 64\n4095\n"] {
        assert_eq!(read(bytes, 4096), Err(Refusal::Pgm));
    }
    // Sizes that are not allowed, at their own length.
    assert_eq!(read(b"P5\n0 0\n4095\n", 0), Err(Refusal::Pgm));
    let narrow = [&b"P5\n32 64\n4095\n"[..], &[0; 4096]].concat();
    assert_eq!(read(&narrow, 2048), Err(Refusal::Pgm));
}

#[test]
fn data_meet_every_refusal() {
    let mut met = [0; 18];
    for writing in writings(1000, 1) {
        let result = write(&writing.pgm, writing.lent);
        met[number(&result) as usize] += 1;
        if let Ok(bytes) = result {
            let lent = writing.pgm.samples.len() as u64;
            assert_eq!(read(&bytes, lent), Ok(writing.pgm));
        }
    }
    assert!([0, 1, 6, 16, 11].iter().all(|&number| met[number] > 20));
    let mut met = [0; 18];
    for reading in readings(2000, 1) {
        let result = read(&reading.bytes, reading.lent);
        met[number(&result) as usize] += 1;
        if let Ok(pgm) = result {
            let lent = reading.bytes.len() as u64;
            assert_eq!(write(&pgm, lent), Ok(reading.bytes));
        }
    }
    assert!([0, 17, 6, 11].iter().all(|&number| met[number] > 50));
    assert_eq!(met.iter().sum::<u32>(), 2000);
}
