//! Good burst files of scenes that move, and files at the limits of the programs `motion` and `stack`.

use crate::cases::Case;
use crate::file::NAMES;
use crate::pictures::Picture;
use crate::random::Random;
use crate::shape::Shape;

/// Levels of shot and read, and strength.
const NOISES: [[u64; 3]; 5] = [
    [380, 102400, 8],
    [65536, 4194304, 1024],
    [65536, 4194304, 0],
    [0, 0, 1024],
    [3, 40, 77],
];

/// "take files up to 65536 bytes".
const LARGEST: usize = 65536;

/// Every count up to 7 with every reference in every picture, then the files at the limits.
pub fn cases(seed: u64) -> Vec<Case> {
    let mut random = Random::new(seed);
    let mut cases = Vec::new();
    for count in 1..=7 {
        for reference in 0..count {
            for picture in Picture::ALL {
                let noise = NOISES[cases.len() % 5];
                let bytes = file([64, 64, count, reference], noise, picture, &mut random);
                let name = format!("{picture:?}-{count}-{reference}").to_lowercase();
                cases.push(case(&name, bytes, 0));
            }
        }
    }
    cases.extend(limits(&mut random));
    cases
}

/// Files of the greatest length or a longer one, and files of another size.
fn limits(random: &mut Random) -> Vec<Case> {
    let mut shifted = |head| file(head, NOISES[0], Picture::Shifted, random);
    let good = shifted([64, 64, 3, 2]);
    let wide = shifted([128, 64, 2, 1]);
    let cut = wide[..wide.len() - 1].to_vec();
    vec![
        case("largest", padded(&good, LARGEST), 0),
        case("longer", padded(&good, LARGEST + 1), 0),
        case("longer-blank", vec![b' '; LARGEST + 1], 15),
        case("largest-blank", vec![b' '; LARGEST], 15),
        case("eight", shifted([64, 64, 8, 3]), 0),
        case("high", shifted([64, 128, 2, 0]), 0),
        case("wide", wide, 0),
        case("wide-cut", cut, 15),
    ]
}

fn case(name: &str, bytes: Vec<u8>, number: u64) -> Case {
    let name = name.to_string();
    Case {
        name,
        bytes,
        number,
    }
}

/// The file of a width, height, count and reference, its samples as large as its length allows.
fn file(head: [u64; 4], noise: [u64; 3], picture: Picture, random: &mut Random) -> Vec<u8> {
    let [width, height, count, _] = head;
    let shape = Shape::packed(width, height, count);
    let highest = match shape.samples_length() / 4096 {
        0..=3 => 4095,
        4..=5 => 99,
        _ => 9,
    };
    let scaled = |sample: u16| u64::from(sample) * highest / 4095;
    let samples: Vec<u64> = picture
        .samples(shape, random)
        .into_iter()
        .map(scaled)
        .collect();
    let rows = samples.chunks(width as usize).map(line);
    let values = line(&[&head[..], &noise].concat());
    let text = values + &rows.collect::<String>();
    [NAMES, b"\n", text.as_bytes()].concat()
}

fn line(values: &[u64]) -> String {
    let words: Vec<String> = values.iter().map(u64::to_string).collect();
    words.join(" ") + "\n"
}

/// The file with more spaces before its last value, up to a length.
fn padded(bytes: &[u8], length: usize) -> Vec<u8> {
    let space = bytes.iter().rposition(|&byte| byte == b' ');
    let (before, after) = bytes.split_at(space.expect("a row has more than one value"));
    let spaces = vec![b' '; length - bytes.len()];
    [before, &spaces, after].concat()
}
