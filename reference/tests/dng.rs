//! DNG files: what is accepted, each refusal, and which of two comes first.

use reference::dng::read;
use reference::dng_data::readings;
use reference::noise::Curve;
use reference::refusal::number;
use reference::shape::Shape;

const BYTE: u16 = 1;
const SHORT: u16 = 3;
const LONG: u16 = 4;
const RATIONAL: u16 = 5;
const DOUBLE: u16 = 12;

/// Tag, type, count, and the field of a directory entry.
type Entry = (u16, u16, u32, u32);

/// A file of 64 by 64 samples of 7: header, noise at 8, black levels at 24, strip at 32, directory at the end.
#[derive(Clone)]
struct File {
    entries: Vec<Entry>,
    strip: Vec<u8>,
}

const DIRECTORY: usize = 32 + 8192;

fn good() -> File {
    File {
        entries: vec![
            (256, SHORT, 1, 64),
            (257, LONG, 1, 64),
            (258, SHORT, 1, 16),
            (259, SHORT, 1, 1),
            (262, SHORT, 1, 32803),
            (273, LONG, 1, 32),
            (277, SHORT, 1, 1),
            (279, LONG, 1, 8192),
            (33421, SHORT, 2, 0x2_0002),
            (33422, BYTE, 4, 0x0201_0100),
            (50717, SHORT, 1, 4095),
            (51041, DOUBLE, 2, 8),
        ],
        strip: [7, 0].repeat(4096),
    }
}

fn with_black() -> File {
    let mut file = good();
    file.entries.push((50713, SHORT, 2, 0x2_0002));
    file.entries.push((50714, SHORT, 4, 24));
    file
}

impl File {
    fn bytes(&self) -> Vec<u8> {
        let mut bytes = b"II\x2a\0".to_vec();
        bytes.extend((DIRECTORY as u32).to_le_bytes());
        bytes.extend(0.5f64.to_le_bytes());
        bytes.extend(0.25f64.to_le_bytes());
        bytes.extend([60, 0, 61, 0, 62, 1, 63, 255]);
        bytes.extend(&self.strip);
        bytes.extend((self.entries.len() as u16).to_le_bytes());
        for (tag, kind, count, field) in &self.entries {
            bytes.extend(tag.to_le_bytes());
            bytes.extend(kind.to_le_bytes());
            bytes.extend(count.to_le_bytes());
            bytes.extend(field.to_le_bytes());
        }
        bytes
    }

    /// The file with the entry of a tag changed.
    fn with(&self, tag: u16, change: impl Fn(&mut Entry)) -> File {
        let mut file = self.clone();
        let changed = file.entries.iter_mut().filter(|entry| entry.0 == tag);
        changed.for_each(change);
        file
    }

    fn without(&self, tag: u16) -> File {
        let mut file = self.clone();
        file.entries.retain(|entry| entry.0 != tag);
        file
    }

    fn also(&self, entry: Entry) -> File {
        let mut file = self.clone();
        file.entries.push(entry);
        file
    }

    fn number(&self) -> u64 {
        bytes_number(&self.bytes())
    }
}

/// The number for a burst of two frames of 64 by 64.
fn bytes_number(bytes: &[u8]) -> u64 {
    number(&read(bytes, Shape::packed(64, 64, 2), 1, &mut [9; 8192]))
}

#[test]
fn an_accepted_file() {
    let mut shape = Shape::packed(64, 64, 3);
    shape.row_length = 66;
    let mut samples = vec![65535; 3 * 66 * 64];
    let dng = read(&with_black().bytes(), shape, 1, &mut samples).unwrap();
    let curve = Curve {
        shot: 2047.5,
        read: 4192256.25,
    };
    assert_eq!((dng.curve, dng.black), (curve, [60, 61, 318, 65343]));
    let row = [[7; 64].as_slice(), &[65535; 2]].concat();
    let other = vec![65535; 66 * 64];
    assert_eq!(samples, [other.clone(), row.repeat(64), other].concat());
    let dng = read(&good().bytes(), Shape::packed(64, 64, 1), 0, &mut [0; 4096]);
    assert_eq!(dng.unwrap().black, [0; 4]);
}

#[test]
fn what_is_passed_over() {
    // Other tags wherever their values are, also twice; 50713 alone; the upper bytes of a SHORT; order; what follows.
    let far = (50712, SHORT, 1 << 31, u32::MAX);
    assert_eq!(good().also(far).also(far).number(), 0);
    let alone = (50713, RATIONAL, 7, u32::MAX);
    assert_eq!(good().also(alone).also(alone).number(), 0);
    assert_eq!(good().with(259, |entry| entry.3 = 0xffff_0001).number(), 0);
    let mut file = with_black();
    file.entries.reverse();
    assert_eq!(file.number(), 0);
    assert_eq!(bytes_number(&[file.bytes(), vec![0; 5]].concat()), 0);
}

#[test]
fn outside_the_file() {
    let bytes = with_black().bytes();
    for length in [
        0,
        4,
        7,
        8,
        DIRECTORY,
        DIRECTORY + 1,
        DIRECTORY + 2,
        bytes.len() - 1,
    ] {
        assert_eq!(bytes_number(&bytes[..length]), 19, "{length}");
    }
    for (place, byte) in [
        (0, b'M'),
        (1, b'M'),
        (2, 43),
        (3, 1),
        (7, 255),
        (DIRECTORY, 255),
    ] {
        let mut bytes = bytes.clone();
        bytes[place] = byte;
        assert_eq!(bytes_number(&bytes), 19, "{place}");
    }
    let length = bytes.len() as u32;
    let at = |tag, place| with_black().with(tag, |entry| entry.3 = place).number();
    assert_eq!(
        [length - 16, length - 15, u32::MAX].map(|place| at(51041, place)),
        [0, 19, 19]
    );
    assert_eq!(
        [length - 8, length - 7, u32::MAX].map(|place| at(50714, place)),
        [0, 19, 19]
    );
    assert_eq!(
        [length - 8192, length - 8191, u32::MAX].map(|place| at(273, place))[1..],
        [19, 19]
    );
    // The strip's length is the tag's, whatever the burst's size.
    assert_eq!(
        [length - 32, length - 31].map(|strip| at(279, strip)),
        [21, 19]
    );
}

#[test]
fn absent_and_given_twice() {
    for entry in good().entries {
        assert_eq!(good().without(entry.0).number(), 20);
        assert_eq!(good().also(entry).number(), 20);
        assert_eq!(good().also((entry.0, 0, 0, 0)).number(), 20);
    }
    assert_eq!(with_black().without(50713).number(), 20);
    assert_eq!(good().also((50714, RATIONAL, 4, 0)).number(), 20);
    // A directory without entries.
    let mut bytes = good().bytes();
    bytes[DIRECTORY..DIRECTORY + 2].copy_from_slice(&[0, 0]);
    assert_eq!(bytes_number(&bytes), 20);
}

#[test]
fn wrong_types_counts_and_values() {
    for (tag, kind, count, _) in with_black().entries {
        let other = with_black().with(tag, |entry| {
            entry.1 = if kind == BYTE { SHORT } else { BYTE }
        });
        assert_eq!(other.number(), 21, "type of {tag}");
        let other = with_black().with(tag, |entry| entry.2 = count + 1);
        assert_eq!(other.number(), 21, "count of {tag}");
        let any = [273, 50714, 51041].contains(&tag);
        let other = with_black().with(tag, |entry| entry.3 ^= 1);
        assert_eq!(other.number(), if any { 0 } else { 21 }, "value of {tag}");
        // SHORT and LONG are equal where either will do.
        let either = [256, 257, 50717].contains(&tag);
        let other = with_black().with(tag, |entry| entry.1 = LONG);
        assert_eq!(other.number() == 0, either || kind == LONG, "LONG {tag}");
    }
}

/// What is not of right type and count is never looked up; of those that are the first counts.
#[test]
fn the_first_right_entry() {
    let far = (51041, DOUBLE, 2, u32::MAX);
    assert_eq!(good().without(51041).also(far).number(), 19);
    assert_eq!(good().also(far).number(), 20);
    assert_eq!(
        good()
            .without(51041)
            .also((51041, DOUBLE, 6, u32::MAX))
            .number(),
        21
    );
    let other = good().without(51041).also((51041, DOUBLE, 6, u32::MAX));
    assert_eq!(other.also(far).number(), 19);
    // The strip is tested only where both of its tags have a right entry.
    let strip = good().with(273, |entry| entry.3 = u32::MAX);
    assert_eq!(strip.number(), 19);
    assert_eq!(strip.with(279, |entry| entry.2 = 2).number(), 21);
    assert_eq!(strip.without(279).number(), 20);
}

#[test]
fn the_burst() {
    let bytes = good().bytes();
    let number = |shape, frame, length| {
        let mut samples = vec![9; length];
        let result = number(&read(&bytes, shape, frame, &mut samples));
        assert!(result == 0 || samples == vec![9; length]);
        result
    };
    assert_eq!(number(Shape::packed(64, 128, 2), 0, 8192), 21);
    assert_eq!(number(Shape::packed(64, 64, 9), 9, 0), 2);
    assert_eq!(number(Shape::packed(64, 64, 2), 2, 0), 3);
    let mut shape = Shape::packed(64, 64, 2);
    shape.row_length = 321;
    assert_eq!(number(shape, 1, 0), 23);
    shape.row_length = 320;
    assert_eq!(number(shape, 1, 8192), 4);
    assert_eq!(number(shape, 1, 2 * 320 * 64), 0);
    let small = good()
        .with(256, |entry| entry.3 = 32)
        .with(279, |entry| entry.3 = 4096);
    assert_eq!(
        reference::refusal::number(&read(&small.bytes(), Shape::packed(32, 64, 9), 9, &mut [])),
        1
    );
    let mut file = good();
    file.strip[8191] = 16;
    assert_eq!(file.number(), 11);
}

#[test]
fn data_meet_every_refusal() {
    let mut met = [0; 24];
    for mut reading in readings(6000, 1) {
        let lent = reading.samples.clone();
        let result = read(
            &reading.bytes,
            reading.shape,
            reading.frame,
            &mut reading.samples,
        );
        met[number(&result) as usize] += 1;
        assert!(result.is_ok() || reading.samples == lent);
    }
    for number in [0, 19, 20, 21, 1, 2, 3, 23, 4, 11] {
        assert!(met[number] > 40, "{number}: {met:?}");
    }
}
