//! One frame from an Adobe DNG file: "little-endian TIFF 6.0 structure, first image directory".

use crate::noise::Curve;
use crate::refusal::{require, Refusal};
use crate::shape::Shape;

/// What an accepted file hands back beside its samples: "Curve and black levels are handed back untested."
#[derive(Clone, Copy, Debug, PartialEq)]
pub struct Dng {
    pub curve: Curve,
    pub black: [u64; 4],
}

/// Types of TIFF 6.0.
pub const BYTE: u16 = 1;
pub const SHORT: u16 = 3;
pub const LONG: u16 = 4;
pub const DOUBLE: u16 = 12;

pub const IMAGE_WIDTH: u16 = 256;
pub const IMAGE_LENGTH: u16 = 257;
pub const BITS_PER_SAMPLE: u16 = 258;
pub const COMPRESSION: u16 = 259;
pub const PHOTOMETRIC: u16 = 262;
pub const STRIP_OFFSETS: u16 = 273;
pub const SAMPLES_PER_PIXEL: u16 = 277;
pub const STRIP_BYTE_COUNTS: u16 = 279;
pub const CFA_REPEAT_DIM: u16 = 33421;
pub const CFA_PATTERN: u16 = 33422;
pub const BLACK_REPEAT_DIM: u16 = 50713;
pub const BLACK_LEVEL: u16 = 50714;
pub const WHITE_LEVEL: u16 = 50717;
pub const NOISE_PROFILE: u16 = 51041;

/// A tag with the types and the count that it must have.
#[derive(Clone, Copy)]
struct Listed {
    tag: u16,
    kinds: &'static [u16],
    count: u32,
}

const fn listed(tag: u16, kinds: &'static [u16], count: u32) -> Listed {
    Listed { tag, kinds, count }
}

const NEEDED: [Listed; 12] = [
    listed(IMAGE_WIDTH, &[SHORT, LONG], 1),
    listed(IMAGE_LENGTH, &[SHORT, LONG], 1),
    listed(BITS_PER_SAMPLE, &[SHORT], 1),
    listed(COMPRESSION, &[SHORT], 1),
    listed(PHOTOMETRIC, &[SHORT], 1),
    listed(STRIP_OFFSETS, &[SHORT, LONG], 1),
    listed(SAMPLES_PER_PIXEL, &[SHORT], 1),
    listed(STRIP_BYTE_COUNTS, &[SHORT, LONG], 1),
    listed(CFA_REPEAT_DIM, &[SHORT], 2),
    listed(CFA_PATTERN, &[BYTE], 4),
    listed(WHITE_LEVEL, &[SHORT, LONG], 1),
    listed(NOISE_PROFILE, &[DOUBLE], 2),
];

/// "where 50714 stands, that and 50713"
const BLACK: [Listed; 2] = [
    listed(BLACK_REPEAT_DIM, &[SHORT], 2),
    listed(BLACK_LEVEL, &[SHORT], 4),
];

/// "The reader fills one frame of the lent burst and touches no other." Tests 19, 20, 21, 1, 2, 3, 23, 4 and 11.
pub fn read(bytes: &[u8], shape: Shape, frame: u64, samples: &mut [u16]) -> Result<Dng, Refusal> {
    let directory = Directory::read(bytes).ok_or(Refusal::DngOutside)?;
    require(directory.values_inside(), Refusal::DngOutside)?;
    require(directory.tags_once(), Refusal::DngTags)?;
    let values_right = directory.values_right(shape);
    require(values_right, Refusal::DngValue)?;
    shape.check()?;
    shape.check_reference(frame)?;
    shape.check_row_length()?;
    let length = samples.len() as u64;
    require(length == shape.samples_length(), Refusal::SamplesLength)?;
    let strip = directory.strip().expect("both values are right");
    let strip: Vec<u16> = shorts(&bytes[strip]).collect();
    let allowed = strip.iter().all(|&sample| sample <= 4095);
    require(allowed, Refusal::Sample)?;
    fill(samples, shape, frame, &strip);
    Ok(Dng {
        curve: directory.curve(),
        black: directory.black(),
    })
}

/// "the DNG reader leaves spare words as they were"
fn fill(samples: &mut [u16], shape: Shape, frame: u64, strip: &[u16]) {
    let [width, height, row_length] =
        [shape.width, shape.height, shape.row_length].map(|n| n as usize);
    let rows = samples.chunks_mut(row_length).skip(frame as usize * height);
    for (row, read) in rows.zip(strip.chunks(width)) {
        row[..width].copy_from_slice(read);
    }
}

#[derive(Clone, Copy)]
struct Entry {
    tag: u16,
    kind: u16,
    count: u32,
    /// Where the value or its offset stands in the file.
    field: usize,
}

/// The first image directory.
struct Directory<'a> {
    bytes: &'a [u8],
    entries: Vec<Entry>,
}

impl<'a> Directory<'a> {
    /// The directory of a file with "II 42" whose "count and entries" lie inside it.
    fn read(bytes: &'a [u8]) -> Option<Directory<'a>> {
        let header = bytes.get(..8)?;
        if !header.starts_with(b"II\x2a\0") {
            return None;
        }
        let start = long(&header[4..]) as usize;
        let count = short(bytes.get(start..start + 2)?);
        let first = start + 2;
        let entry = |index: usize| Entry {
            tag: short(&bytes[first + 12 * index..]),
            kind: short(&bytes[first + 12 * index + 2..]),
            count: long(&bytes[first + 12 * index + 4..]),
            field: first + 12 * index + 8,
        };
        let count = usize::from(count);
        bytes.get(first..first + 12 * count)?;
        Some(Directory {
            bytes,
            entries: (0..count).map(entry).collect(),
        })
    }

    fn count(&self, tag: u16) -> usize {
        self.entries.iter().filter(|entry| entry.tag == tag).count()
    }

    /// Those that this file must have: "50713 without 50714" is passed over.
    fn listed(&self) -> Vec<Listed> {
        let black: &[Listed] = match self.count(BLACK_LEVEL) {
            0 => &[],
            _ => &BLACK,
        };
        [&NEEDED[..], black].concat()
    }

    /// Of the entries of a tag, the first that has a right type and count.
    fn first_right(&self, listed: &Listed) -> Option<&Entry> {
        self.entries.iter().find(|entry| {
            let kind = listed.kinds.contains(&entry.kind);
            entry.tag == listed.tag && kind && entry.count == listed.count
        })
    }

    /// The bytes of a right entry's value, unless they are outside the file. Four or less stand in the entry.
    fn value(&self, entry: &Entry) -> Option<&'a [u8]> {
        let size = match entry.kind {
            SHORT => 2,
            LONG => 4,
            DOUBLE => 8,
            _ => 1,
        };
        let length = size * entry.count as usize;
        let start = match length {
            0..=4 => entry.field,
            _ => long(&self.bytes[entry.field..]) as usize,
        };
        self.bytes.get(start..start + length)
    }

    /// The value of a listed tag as numbers, where it has the right type and count and is inside.
    fn numbers(&self, tag: u16) -> Option<Vec<u64>> {
        let all = [&NEEDED[..], &BLACK].concat();
        let listed = all.iter().find(|listed| listed.tag == tag)?;
        let entry = self.first_right(listed)?;
        let value = self.value(entry)?;
        Some(match entry.kind {
            BYTE => value.iter().map(|&byte| byte.into()).collect(),
            SHORT => shorts(value).map(u64::from).collect(),
            LONG => value.chunks(4).map(|word| long(word).into()).collect(),
            _ => value.chunks(8).map(double).collect(),
        })
    }

    /// Start and end of the strip, where both have a right entry.
    fn strip(&self) -> Option<std::ops::Range<usize>> {
        let start = self.numbers(STRIP_OFFSETS)?[0];
        let length = self.numbers(STRIP_BYTE_COUNTS)?[0];
        Some(start as usize..(start + length) as usize)
    }

    /// Refusal 19's last part: the "strip (start by 273, length by 279) or a listed tag's value" is inside the file.
    fn values_inside(&self) -> bool {
        let listed = self.listed();
        let mut right = listed.iter().filter_map(|listed| self.first_right(listed));
        let strip = self
            .strip()
            .map_or(true, |strip| strip.end <= self.bytes.len());
        strip && right.all(|entry| self.value(entry).is_some())
    }

    /// Refusal 20: no "needed tag absent or a listed one given twice".
    fn tags_once(&self) -> bool {
        let once = |listed: &Listed| self.count(listed.tag) == 1;
        self.listed().iter().all(once)
    }

    /// Refusal 21: no "listed type, count or value other than above".
    fn values_right(&self, shape: Shape) -> bool {
        let strip = shape.width.checked_mul(shape.height);
        let strip = strip.and_then(|samples| samples.checked_mul(2));
        let right = |listed: &Listed| {
            let value = match self.numbers(listed.tag) {
                Some(value) => value,
                None => return false,
            };
            match listed.tag {
                IMAGE_WIDTH => value == [shape.width],
                IMAGE_LENGTH => value == [shape.height],
                BITS_PER_SAMPLE => value == [16],
                COMPRESSION | SAMPLES_PER_PIXEL => value == [1],
                PHOTOMETRIC => value == [32803],
                STRIP_BYTE_COUNTS => Some(value[0]) == strip,
                CFA_REPEAT_DIM | BLACK_REPEAT_DIM => value == [2, 2],
                // RGGB
                CFA_PATTERN => value == [0, 1, 1, 2],
                WHITE_LEVEL => value == [4095],
                _ => true,
            }
        };
        self.listed().iter().all(right)
    }

    /// "shot = S times 4095, read = (O times 4095) times 4095, as f64 operations in that order".
    fn curve(&self) -> Curve {
        let profile = self.numbers(NOISE_PROFILE).expect("the value is right");
        let [scale, offset] = [profile[0], profile[1]].map(f64::from_bits);
        Curve {
            shot: scale * 4095.0,
            read: (offset * 4095.0) * 4095.0,
        }
    }

    /// "absent means zeros".
    fn black(&self) -> [u64; 4] {
        let levels = self.numbers(BLACK_LEVEL);
        levels.map_or([0; 4], |levels| std::array::from_fn(|plane| levels[plane]))
    }
}

fn short(bytes: &[u8]) -> u16 {
    u16::from_le_bytes([bytes[0], bytes[1]])
}

fn long(bytes: &[u8]) -> u32 {
    u32::from_le_bytes([bytes[0], bytes[1], bytes[2], bytes[3]])
}

/// The bits of a DOUBLE.
fn double(bytes: &[u8]) -> u64 {
    u64::from(long(bytes)) | u64::from(long(&bytes[4..])) << 32
}

fn shorts(bytes: &[u8]) -> impl Iterator<Item = u16> + '_ {
    bytes.chunks(2).map(short)
}
