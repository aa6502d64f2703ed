//! DNG files to read into a frame of a burst, good and with faults.

use crate::dng::{self, BYTE, DOUBLE, LONG, SHORT};
use crate::random::Random;
use crate::shape::Shape;

/// A file, and the burst with the frame that it is to fill.
pub struct Reading {
    pub bytes: Vec<u8>,
    pub shape: Shape,
    pub frame: u64,
    pub samples: Vec<u16>,
}

/// Readings with up to two faults, in the directory, in the file's bytes or in the burst.
pub fn readings(count: usize, seed: u64) -> impl Iterator<Item = Reading> {
    let mut random = Random::new(seed);
    (0..count).map(move |_| {
        let shape = shape(&mut random);
        let mut draft = Draft::good(shape, &mut random);
        let faults: Vec<usize> = (0..random.below(3)).map(|_| random.below(3)).collect();
        let count = |part| faults.iter().filter(|&&fault| fault == part).count();
        for _ in 0..count(0) {
            draft.spoil(&mut random);
        }
        let mut file = draft.laid(&mut random);
        for _ in 0..count(1) {
            file.spoil(&mut random);
        }
        let mut reading = burst(file.bytes, shape, &mut random);
        for _ in 0..count(2) {
            reading.spoil(&mut random);
        }
        reading
    })
}

/// Width and height such that 2·W·H is 2^64 + 65536.
const WRAPPING: [u64; 2] = [(1 << 32) - 65535, (1 << 31) + 32768];

/// One in eight has a size that is not allowed.
fn shape(random: &mut Random) -> Shape {
    let good = [[64, 64], [64, 64], [64, 64], [64, 128], [128, 64]];
    let wrong = [[96, 64], [64, 32], [0, 64], [0, 0], WRAPPING];
    let [width, height] = match random.below(8) {
        0 => random.pick(&wrong),
        _ => random.pick(&good),
    };
    let count = 1 + random.below(3) as u64;
    let mut shape = Shape::packed(width, height, count);
    shape.row_length += random.pick(&[0, 0, 0, 0, 1, 1, 17, 256]);
    shape
}

/// The burst that a file is for; its samples hold anything.
fn burst(bytes: Vec<u8>, shape: Shape, random: &mut Random) -> Reading {
    let length = match shape.check() {
        Ok(()) => shape.samples_length(),
        Err(_) => 4096,
    };
    Reading {
        bytes,
        shape,
        frame: random.below(shape.count as usize) as u64,
        samples: (0..length).map(|_| random.word() as u16).collect(),
    }
}

impl Reading {
    /// Lets the refusals 21, 2, 3, 23 or 4 stand.
    fn spoil(&mut self, random: &mut Random) {
        let Shape {
            width,
            height,
            count,
            row_length,
        } = &mut self.shape;
        match random.below(6) {
            0 => std::mem::swap(width, height),
            1 => *[width, height][random.below(2)] = random.pick(&[0, 96, 192, u64::MAX]),
            2 => *count = random.pick(&[0, 9, u64::MAX]),
            3 => self.frame = random.pick(&[*count, 9, u64::MAX]),
            4 => *row_length = random.pick(&[0, 63, 321, 385, u64::MAX]),
            _ => self.samples.truncate(self.samples.len() - 1),
        }
    }
}

#[derive(Clone)]
struct Entry {
    tag: u16,
    kind: u16,
    count: u32,
    value: Vec<u8>,
}

/// A file before its parts have their places.
struct Draft {
    entries: Vec<Entry>,
    strip: Vec<u8>,
}

impl Draft {
    fn good(shape: Shape, random: &mut Random) -> Draft {
        let samples = shape.width.saturating_mul(shape.height).min(32768);
        let sample = |_| (random.below(4096) as u16).to_le_bytes();
        let strip: Vec<u8> = (0..samples).flat_map(sample).collect();
        let mut entries = needed(shape, strip.len() as u64, random);
        if random.below(2) == 0 {
            entries.extend(black(random));
        }
        for _ in 0..random.below(4) {
            entries.push(passed_over(random));
        }
        entries.sort_by_key(|entry| entry.tag);
        if random.below(4) == 0 {
            let middle = random.below(entries.len());
            entries.rotate_left(middle);
        }
        Draft { entries, strip }
    }

    /// Changes, drops or repeats an entry, or lets a sample exceed 4095.
    fn spoil(&mut self, random: &mut Random) {
        let index = random.below(self.entries.len());
        let entry = &mut self.entries[index];
        match random.below(8) {
            0 => drop(self.entries.remove(index)),
            1 => {
                let mut again = entry.clone();
                again.spoil(random.below(4), random);
                self.entries.insert(index + random.below(2), again);
            }
            2 => self.entries.retain(|entry| entry.tag != dng::BLACK_LEVEL),
            3 => self
                .entries
                .retain(|entry| entry.tag != dng::BLACK_REPEAT_DIM),
            4 if !self.strip.is_empty() => {
                let last = self.strip.len() / 2 - 1;
                let between = random.below(last + 1);
                let place = random.pick(&[0, between, last]);
                self.strip[2 * place + 1] = random.pick(&[16, 17, 128, 255]);
            }
            _ => entry.spoil(random.below(3), random),
        }
    }

    /// The file, its parts in any order and at any place; offsets and the strip's start are filled in.
    fn laid(&self, random: &mut Random) -> File {
        let mut bytes = b"II\x2a\0\0\0\0\0".to_vec();
        let outside = self.entries.iter().filter(|entry| entry.value.len() > 4);
        let mut parts: Vec<&[u8]> = outside.map(|entry| &entry.value[..]).collect();
        parts.push(&self.strip);
        let directory = vec![0; 2 + 12 * self.entries.len() + random.pick(&[0, 4])];
        parts.push(&directory);
        let (directory_part, strip_part) = (parts.len() - 1, parts.len() - 2);
        let mut places = vec![0; parts.len()];
        let (first, step) = (
            random.below(parts.len()),
            random.pick(&[1, parts.len() - 1]),
        );
        for turn in 0..parts.len() {
            let part = (first + turn * step) % parts.len();
            bytes.resize(bytes.len() + random.pick(&[0, 0, 1, 2]), 0);
            places[part] = bytes.len();
            bytes.extend(parts[part]);
        }
        let mut file = File {
            bytes,
            directory: places[directory_part],
            count: self.entries.len(),
        };
        file.put_long(4, places[directory_part] as u32);
        file.put_entries(&self.entries, &places, places[strip_part] as u32, random);
        file
    }
}

impl Entry {
    /// Another type, another count or another value.
    fn spoil(&mut self, part: usize, random: &mut Random) {
        match part {
            0 => self.kind = random.pick(&[0, 1, 2, 3, 4, 5, 7, 9, 11, 12, 13, 259, 65535]),
            1 => {
                let next = self.count.saturating_add(1);
                self.count = random.pick(&[
                    0,
                    next,
                    self.count.saturating_mul(3),
                    1 << 30,
                    1 << 31,
                    u32::MAX,
                ])
            }
            2 if !self.value.is_empty() => {
                let place = random.below(self.value.len());
                let byte = self.value[place];
                let near = [byte ^ 1, byte ^ 0x80, byte.saturating_add(1)];
                self.value[place] = random.pick(&[0, 1, 255, near[0], near[1], near[2]]);
            }
            _ => {}
        }
    }
}

fn entry(tag: u16, kind: u16, values: &[u64]) -> Entry {
    let size = match kind {
        SHORT => 2,
        LONG => 4,
        DOUBLE => 8,
        _ => 1,
    };
    let bytes = values
        .iter()
        .flat_map(|value| value.to_le_bytes()[..size].to_vec());
    Entry {
        tag,
        kind,
        count: values.len() as u32,
        value: bytes.collect(),
    }
}

/// The needed entries; numbers that SHORT can hold are SHORT or LONG where either will do.
fn needed(shape: Shape, strip: u64, random: &mut Random) -> Vec<Entry> {
    let mut number = |tag, value: u64| match value {
        0..=65535 => entry(tag, random.pick(&[SHORT, LONG]), &[value]),
        _ => entry(tag, LONG, &[value]),
    };
    let mut entries = vec![
        number(dng::IMAGE_WIDTH, shape.width),
        number(dng::IMAGE_LENGTH, shape.height),
        number(dng::STRIP_OFFSETS, 0),
        number(dng::STRIP_BYTE_COUNTS, strip),
        number(dng::WHITE_LEVEL, 4095),
    ];
    entries.extend([
        entry(dng::BITS_PER_SAMPLE, SHORT, &[16]),
        entry(dng::COMPRESSION, SHORT, &[1]),
        entry(dng::PHOTOMETRIC, SHORT, &[32803]),
        entry(dng::SAMPLES_PER_PIXEL, SHORT, &[1]),
        entry(dng::CFA_REPEAT_DIM, SHORT, &[2, 2]),
        entry(dng::CFA_PATTERN, BYTE, &[0, 1, 1, 2]),
        entry(dng::NOISE_PROFILE, DOUBLE, &[noise(random), noise(random)]),
    ]);
    entries
}

/// The bits of a common number, of any finite one, or of one that is refused later.
fn noise(random: &mut Random) -> u64 {
    let any =
        f64::from_bits(random.word() & !(0x7ff << 52) | (950 + random.below(80) as u64) << 52);
    let values = [0.0, -0.0, 1e-5, 0.37, 4.1e-300, 1e300, -1.0];
    let common = random.pick(&values);
    let odd = random.pick(&[
        f64::NAN,
        -f64::NAN,
        f64::INFINITY,
        f64::from_bits(1),
        f64::MAX,
    ]);
    random.pick(&[common, common, any, any, odd]).to_bits()
}

fn black(random: &mut Random) -> [Entry; 2] {
    let highest = random.pick(&[65, 256, 65536]);
    let levels: [u64; 4] = std::array::from_fn(|_| random.below(highest) as u64);
    [
        entry(dng::BLACK_REPEAT_DIM, SHORT, &[2, 2]),
        entry(dng::BLACK_LEVEL, SHORT, &levels),
    ]
}

/// A tag that is not needed: DNGVersion, Orientation, Make, a directory further down, an own one, or 50713 alone.
fn passed_over(random: &mut Random) -> Entry {
    let far = Entry {
        count: 1 << 31,
        ..entry(50712, SHORT, &[1, 2])
    };
    match random.below(6) {
        0 => entry(50706, BYTE, &[1, 4, 0, 0]),
        1 => entry(274, SHORT, &[1]),
        2 => entry(271, 2, &[87, 105, 109, 111, 0]),
        3 => entry(330, LONG, &[u64::from(u32::MAX)]),
        4 => far,
        _ => entry(dng::BLACK_REPEAT_DIM, random.pick(&[SHORT, LONG]), &[1, 1]),
    }
}

/// A file with its directory's place and count of entries.
struct File {
    bytes: Vec<u8>,
    directory: usize,
    count: usize,
}

impl File {
    fn put_long(&mut self, place: usize, value: u32) {
        self.bytes[place..place + 4].copy_from_slice(&value.to_le_bytes());
    }

    /// The entries; in the field of a short value the bytes that do not count hold anything.
    fn put_entries(
        &mut self,
        entries: &[Entry],
        places: &[usize],
        strip: u32,
        random: &mut Random,
    ) {
        let count = (entries.len() as u16).to_le_bytes();
        self.bytes[self.directory..self.directory + 2].copy_from_slice(&count);
        let mut outside = places.iter();
        for (index, entry) in entries.iter().enumerate() {
            let mut field = (random.word() as u32).to_le_bytes();
            match entry.value.len() {
                length @ 0..=4 => field[..length].copy_from_slice(&entry.value),
                _ => field = (*outside.next().expect("a place each") as u32).to_le_bytes(),
            }
            if entry.tag == dng::STRIP_OFFSETS {
                let length = entry.value.len();
                field[..length].copy_from_slice(&strip.to_le_bytes()[..length]);
            }
            let start = self.directory + 2 + 12 * index;
            self.bytes[start..start + 2].copy_from_slice(&entry.tag.to_le_bytes());
            self.bytes[start + 2..start + 4].copy_from_slice(&entry.kind.to_le_bytes());
            self.put_long(start + 4, entry.count);
            self.bytes[start + 8..start + 12].copy_from_slice(&field);
        }
    }

    /// Changes the header, the directory's place or length, an offset, the file's end or any byte.
    fn spoil(&mut self, random: &mut Random) {
        let length = self.bytes.len() as u32;
        let near_end = length.saturating_sub(random.below(20) as u32);
        let size = (2 + 12 * self.count) as u32;
        let field = self.directory + 10 + 12 * random.below(self.count.max(1));
        match random.below(8) {
            0 if length >= 4 => {
                let header = random.pick(&[b"MM\0*", b"II+\0", b"II\0*", b"IM*\0", b"II*\x01"]);
                self.bytes[..4].copy_from_slice(header)
            }
            1 if length >= 8 => {
                let end = length.saturating_sub(size);
                let place = random.pick(&[0, 1, near_end, end, end + 1, u32::MAX - 1, u32::MAX]);
                self.put_long(4, place)
            }
            2 if length as usize >= self.directory + 2 => {
                let count = random.pick(&[0, self.count.saturating_sub(1), self.count + 1, 65535]);
                let count = (count as u16).to_le_bytes();
                self.bytes[self.directory..self.directory + 2].copy_from_slice(&count)
            }
            3 | 4 if length as usize >= field + 4 => {
                let place = random.pick(&[0, near_end, near_end, u32::MAX - 7, u32::MAX]);
                self.put_long(field, place)
            }
            5 => self.bytes.truncate(near_end as usize),
            6 => {
                let shorter = random.below(self.bytes.len() + 1);
                self.bytes.truncate(random.pick(&[shorter, shorter.min(9)]))
            }
            _ => {
                let any = random.below(self.bytes.len() + 1);
                let entry = self.directory + random.below(size as usize);
                let place = random.pick(&[any, entry]).min(self.bytes.len());
                let end = self.bytes.len().min(place + random.below(2));
                self.bytes.splice(place..end, [random.word() as u8]);
            }
        }
    }
}
