//! Burst files as test data, good and damaged, each with the number it must get.
//! The number follows from the faults put in, not from reading the file.

use crate::file::NAMES;
use crate::random::Random;

pub struct Case {
    pub name: String,
    pub bytes: Vec<u8>,
    pub number: u64,
}

/// The kinds of fault, each with a random choice of its place.
type Kind = (&'static str, fn(&mut Random) -> Fault);

const KINDS: &[Kind] = &[
    ("names", |_| Fault::Names),
    ("malformed-values", |_| Fault::Malformed(1)),
    ("malformed-row", |random| Fault::Malformed(row(random))),
    ("size", |_| Fault::Header(1)),
    ("count", |_| Fault::Header(2)),
    ("single", |_| Fault::Single),
    ("reference", |_| Fault::Header(3)),
    ("noise", |_| Fault::Header(9)),
    ("strength", |_| Fault::Header(10)),
    ("sample", |random| Fault::Sample(row(random))),
    ("cut-names", |_| Fault::Cut(0)),
    ("cut-values", |_| Fault::Cut(1)),
    ("cut-row", |random| Fault::Cut(row(random))),
    ("trailing", |_| Fault::Trailing),
];

/// The whole set: good files, each fault several times, and pairs of faults.
pub fn cases(seed: u64) -> Vec<Case> {
    let mut random = Random::new(seed);
    let mut named_faults = Vec::new();
    for index in 0..16 {
        named_faults.push((format!("good-{index:02}"), vec![]));
        for (kind, fault) in KINDS {
            named_faults.push((format!("{kind}-{index:02}"), vec![fault(&mut random)]));
        }
    }
    for index in 0..120 {
        let faults = vec![any_fault(&mut random), any_fault(&mut random)];
        named_faults.push((format!("pair-{index:03}"), faults));
    }
    let case = |(name, mut faults): (String, Vec<Fault>)| Case {
        name,
        bytes: damaged(Draft::good(FRAMES, &mut random), &mut faults, &mut random),
        number: faults.first().map_or(0, Fault::number),
    };
    named_faults.into_iter().map(case).collect()
}

/// Files with up to two faults, half of them with a few stray bytes as well.
pub fn damaged_files(count: usize, seed: u64) -> impl Iterator<Item = Vec<u8>> {
    let mut random = Random::new(seed);
    let mut good = |index| Draft::good(1 + index % FRAMES, &mut random);
    let good: Vec<Draft> = (0..16).map(&mut good).collect();
    (0..count).map(move |_| {
        let draft = good[random.below(good.len())].clone();
        let mut faults = (0..random.below(3))
            .map(|_| any_fault(&mut random))
            .collect();
        let mut bytes = damaged(draft, &mut faults, &mut random);
        for _ in 0..random.below(2) * random.below(4) {
            stray_byte(&mut bytes, &mut random);
        }
        bytes
    })
}

/// The file with these faults, which are sorted by their places.
fn damaged(mut draft: Draft, faults: &mut Vec<Fault>, random: &mut Random) -> Vec<u8> {
    faults.sort_by_key(Fault::place);
    faults.dedup_by_key(|fault| fault.place());
    // From the last to the first, so that each finds its line whole.
    for fault in faults.iter().rev() {
        fault.apply(&mut draft, random);
    }
    draft.bytes()
}

fn any_fault(random: &mut Random) -> Fault {
    random.pick(KINDS).1(random)
}

/// Overwrites, inserts or removes one byte, half the time in the first two lines.
fn stray_byte(bytes: &mut Vec<u8>, random: &mut Random) {
    let reach = random.pick(&[bytes.len(), bytes.len().min(80)]);
    let place = random.below(reach + 1);
    let byte = random.pick(b"0149 \n\t\r-x\0\xff");
    let end = bytes.len().min(place + random.below(2));
    let inserted = random.below(2);
    bytes.splice(place..end, vec![byte; inserted]);
}

const SIDE: usize = 64;
const FRAMES: usize = 2;
const LINES: usize = 2 + FRAMES * SIDE;

/// A row's line, the first and the last more often.
fn row(random: &mut Random) -> usize {
    let between = 2 + random.below(LINES - 2);
    random.pick(&[2, LINES - 1, between])
}

/// A file as lines, and the bytes after the last one.
#[derive(Clone)]
struct Draft {
    lines: Vec<String>,
    tail: Vec<u8>,
}

impl Draft {
    fn good(frames: usize, random: &mut Random) -> Draft {
        let values = [
            SIDE,
            SIDE,
            frames,
            random.below(frames),
            random.below(65537),
            random.below(4194305),
            random.below(1025),
        ];
        let names = String::from_utf8_lossy(NAMES).into_owned();
        let mut lines = vec![names, spelled(&values, random)];
        lines.resize_with(2 + frames * SIDE, || {
            let row: Vec<usize> = (0..SIDE).map(|_| random.pick(&[0, 4, 9, 4095])).collect();
            spelled(&row, random)
        });
        let tail = Vec::new();
        Draft { lines, tail }
    }

    fn bytes(&self) -> Vec<u8> {
        let lines = self.lines.iter().flat_map(|line| [line, "\n"]);
        let mut bytes = lines.collect::<String>().into_bytes();
        bytes.extend(&self.tail);
        bytes
    }

    fn edit_words(&mut self, line: usize, edit: impl FnOnce(&mut Vec<String>)) {
        let words = self.lines[line].split_whitespace();
        let mut words = words.map(str::to_string).collect();
        edit(&mut words);
        self.lines[line] = words.join(" ");
    }
}

/// A line of values, now and then with leading zeros or a second space before one.
fn spelled(values: &[usize], random: &mut Random) -> String {
    let word = |(index, value): (usize, &usize)| match random.below(40) {
        0 => format!("{value:09}"),
        1 => format!("0{value}"),
        2 if index > 0 => format!(" {value}"),
        _ => value.to_string(),
    };
    let words: Vec<String> = values.iter().enumerate().map(word).collect();
    words.join(" ")
}

enum Fault {
    /// The first line differs.
    Names,
    /// This line is no line of values.
    Malformed(usize),
    /// A value of line 2 meets this refusal.
    Header(u64),
    /// Line 2 has a count of 1, so that bytes follow the only frame.
    Single,
    /// A sample on this line is above 4095.
    Sample(usize),
    /// The file ends before this line's LF.
    Cut(usize),
    /// Bytes follow the last row.
    Trailing,
}

impl Fault {
    fn number(&self) -> u64 {
        match self {
            Fault::Names => 13,
            Fault::Malformed(_) => 14,
            Fault::Header(number) => *number,
            Fault::Sample(_) => 11,
            Fault::Single | Fault::Cut(_) | Fault::Trailing => 15,
        }
    }

    /// Line and rank on it: files are refused at the first such place.
    fn place(&self) -> (usize, u64) {
        match *self {
            Fault::Cut(line) => (line, 0),
            Fault::Names => (0, 1),
            Fault::Malformed(line) => (line, 1),
            Fault::Header(number) => (1, 1 + number),
            Fault::Sample(line) => (line, 2),
            Fault::Single => (2 + SIDE, 0),
            Fault::Trailing => (LINES, 0),
        }
    }

    /// In a file of one frame the last line stands for those that it has not.
    fn apply(&self, draft: &mut Draft, random: &mut Random) {
        let last = draft.lines.len() - 1;
        match *self {
            Fault::Names => change_names(&mut draft.lines[0], random),
            Fault::Malformed(line) => {
                draft.edit_words(line.min(last), |words| malform(words, random))
            }
            Fault::Header(number) => {
                draft.edit_words(1, |words| change_value(words, number, random))
            }
            Fault::Single => draft.edit_words(1, |words| {
                words.splice(2..4, ["1".to_string(), "0".to_string()]);
            }),
            Fault::Sample(line) => {
                draft.edit_words(line.min(last), |words| change_sample(words, random))
            }
            Fault::Cut(line) => cut(draft, line.min(last), random),
            Fault::Trailing => {
                let row = "4 ".repeat(SIDE - 1) + "4\n";
                draft.tail = random.pick(&["\n", " ", "4", "\0", &row]).into();
            }
        }
    }
}

fn change_names(names: &mut String, random: &mut Random) {
    *names = match random.below(8) {
        0 => names.replace("width", "Width"),
        1 => names.replace(" count", "  count"),
        2 => names.replace(' ', "\t"),
        3 => names.replace(" strength", ""),
        4 => format!("{names} "),
        5 => format!(" {names}"),
        6 => format!("{names}\r"),
        _ => String::new(),
    };
}

fn malform(words: &mut Vec<String>, random: &mut Random) {
    let last = match words.len().checked_sub(1) {
        Some(last) => last,
        None => return,
    };
    let index = random.below(words.len());
    match random.below(10) {
        0 => words[index] = "0000000004".to_string(),
        1 => words[index] = random.pick(&["-2", "+2", "2.0", "0x2", "２"]).to_string(),
        2 => words[index] += "\t",
        3 => words[index] += "\0",
        4 => words[last] += "\r",
        5 => words.insert(0, String::new()),
        6 => words.push(String::new()),
        7 => words.push("4".to_string()),
        8 => words.truncate(last),
        _ => words.clear(),
    }
}

/// Lets the value line meet one of the refusals 1, 2, 3, 9 and 10.
fn change_value(words: &mut [String], number: u64, random: &mut Random) {
    let (index, values): (usize, &[&str]) = match number {
        1 => (
            random.below(2),
            &["0", "32", "63", "96", "4160", "999999999"],
        ),
        2 => (2, &["0", "9", "256", "999999999"]),
        3 => (3, &["2", "3", "8", "999999999"]),
        9 => random.pick(&[(4, &["65537"][..]), (5, &["4194305"][..])]),
        _ => (6, &["1025", "65536", "999999999"]),
    };
    words[index] = random.pick(values).to_string();
}

fn change_sample(words: &mut [String], random: &mut Random) {
    let values = ["4096", "4097", "65535", "65536", "69632", "999999999"];
    if let Some(word) = words.get_mut(random.below(SIDE)) {
        *word = random.pick(&values).to_string();
    }
}

/// Ends the file on this line: at its start, before its LF, or somewhere between.
fn cut(draft: &mut Draft, line: usize, random: &mut Random) {
    let text = draft.lines[line].as_bytes();
    let between = random.below(text.len() + 1);
    let length = random.pick(&[0, text.len(), between]);
    draft.tail = text[..length].to_vec();
    draft.lines.truncate(line);
}
