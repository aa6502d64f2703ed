//! Burst files: every refusal that a file can meet, and which of two comes first.

use reference::file::{check, read};
use reference::refusal::Refusal;

/// A good file of two 64 by 64 frames, as its lines.
fn good_lines() -> Vec<String> {
    let names = "width height count reference shot read strength";
    let mut lines = vec![names.to_string(), "64 64 2 0 0 4194304 1024".to_string()];
    lines.resize(2 + 128, row("4"));
    lines
}

/// A row of 64 equal values.
fn row(value: &str) -> String {
    vec![value; 64].join(" ")
}

fn bytes(lines: &[String]) -> Vec<u8> {
    lines
        .iter()
        .flat_map(|line| [line, "\n"].concat().into_bytes())
        .collect()
}

/// The file check of the good file with some lines replaced.
fn check_with(replaced: &[(usize, &str)]) -> u64 {
    let mut lines = good_lines();
    for &(index, line) in replaced {
        lines[index] = line.to_string();
    }
    check(&bytes(&lines))
}

#[test]
fn accepted_forms() {
    assert_eq!(check_with(&[]), 0);
    assert_eq!(check_with(&[(1, "000000064   64 2 1 65536 0 0")]), 0);
    assert_eq!(check_with(&[(5, &row("000004095"))]), 0);
    assert_eq!(check_with(&[(5, &row("0").replace(' ', "   "))]), 0);
}

#[test]
fn a_lone_frame() {
    let mut lines = good_lines();
    lines[1] = "64 64 1 0 0 4194304 1024".to_string();
    assert_eq!(check(&bytes(&lines)), 15);
    lines.truncate(2 + 64);
    let file = read(&bytes(&lines), 4096).unwrap();
    assert_eq!(file.burst.samples, [4; 4096]);
    assert_eq!(read(&bytes(&lines), 8192), Err(Refusal::SamplesLength));
    assert_eq!(check(&bytes(&lines[..65])), 15);
}

#[test]
fn reading_hands_over_the_samples() {
    let mut lines = good_lines();
    lines[2] = row("007");
    let file = read(&bytes(&lines), 8192).unwrap();
    assert_eq!(
        file.burst.samples[..65],
        [[7; 64].as_slice(), &[4]].concat()
    );
    assert_eq!(file.burst.samples.len(), 8192);
    assert_eq!(file.noise.levels.read, 4194304);
    assert_eq!(read(&bytes(&lines), 8191), Err(Refusal::SamplesLength));
}

#[test]
fn names_line() {
    assert_eq!(check(b""), 15);
    assert_eq!(check(b"Width"), 15);
    assert_eq!(check(b"\n"), 13);
    for names in [
        "Width height count reference shot read strength",
        "width height count reference shot read strength ",
        " width height count reference shot read strength",
        "width  height count reference shot read strength",
        "width height count reference shot read strength\r",
        "width height count reference shot read",
        "",
    ] {
        assert_eq!(check_with(&[(0, names)]), 13, "{names:?}");
    }
}

#[test]
fn malformed_values() {
    for values in [
        "",
        " ",
        "64 64 2 0 0 0",
        "64 64 2 0 0 0 0 0",
        " 64 64 2 0 0 0 0",
        "64 64 2 0 0 0 0 ",
        "64 64 2 0 0 0 0\r",
        "64\t64 2 0 0 0 0",
        "64 64 2 0 0 -0 0",
        "64 64 2 0 0 +0 0",
        "64 64 2 0 0 0.0 0",
        "64 64 2 0 0 0x0 0",
        "64 64 2 0 0 0000000000 0",
        "64 64 2 0 0 0 \u{663}",
    ] {
        assert_eq!(check_with(&[(1, values)]), 14, "{values:?}");
    }
    for values in [
        String::new(),
        row("4") + " 4",
        row("4")[2..].to_string(),
        row("4") + " ",
        row("4") + "\r",
        row("0000000004"),
        row("4").replacen(' ', "\t", 1),
        row("-4"),
    ] {
        assert_eq!(check_with(&[(77, &values)]), 14, "{values:?}");
    }
}

#[test]
fn header_refusals() {
    for (values, number) in [
        ("96 64 2 0 0 0 0", 1),
        ("64 0 2 0 0 0 0", 1),
        ("64 4160 2 0 0 0 0", 1),
        ("64 64 0 0 0 0 0", 2),
        ("64 64 1 1 0 0 0", 3),
        ("64 64 9 0 0 0 0", 2),
        ("64 64 2 2 0 0 0", 3),
        ("64 64 2 0 65537 0 0", 9),
        ("64 64 2 0 0 4194305 0", 9),
        ("64 64 2 0 0 0 1025", 10),
        ("999999999 999999999 999999999 999999999 0 0 0", 1),
    ] {
        assert_eq!(check_with(&[(1, values)]), number, "{values:?}");
    }
}

#[test]
fn the_end_of_the_file() {
    let good = bytes(&good_lines());
    for length in [0, 20, 47, 48, 60, 72, 73, 74, 200, 1000, good.len() - 1] {
        assert_eq!(check(&good[..length]), 15, "{length}");
    }
    assert_eq!(check(&[&good[..], b"\n"].concat()), 15);
    assert_eq!(check(&[&good[..], b"4"].concat()), 15);
    assert_eq!(check(&[&good[..], &good[..]].concat()), 15);
    // One row more or less.
    let mut lines = good_lines();
    lines.push(row("4"));
    assert_eq!(check(&bytes(&lines)), 15);
    assert_eq!(check(&bytes(&lines[..129])), 15);
}

#[test]
fn the_first_of_two_refusals() {
    // Line 1 without LF, then a wrong name.
    assert_eq!(check(b"Width height"), 15);
    // A wrong name before a missing line 2.
    assert_eq!(check(b"Width height\n"), 13);
    // A missing LF before the line's own fault.
    let header = bytes(&good_lines()[..1]);
    assert_eq!(check(&[&header[..], b"64 -4"].concat()), 15);
    for (values, number) in [
        ("96 64 9 0 0 0 x", 14),
        ("96 64 9 0 0 0 0", 1),
        ("64 64 9 9 0 0 0", 2),
        ("64 64 2 2 65537 0 0", 3),
        ("64 64 2 0 65537 0 1025", 9),
    ] {
        assert_eq!(check_with(&[(1, values)]), number, "{values:?}");
    }
    // The header before the rows, and an earlier row before a later one.
    assert_eq!(check_with(&[(1, "64 64 2 0 0 0 1025"), (2, "x")]), 10);
    assert_eq!(check_with(&[(2, &row("4096")), (3, "x")]), 11);
    assert_eq!(check_with(&[(2, "x"), (3, &row("4096"))]), 14);
    // In a row 14 before 11, wherever it stands; a row without LF is 15.
    assert_eq!(check_with(&[(9, &(row("4096") + " x"))]), 14);
    assert_eq!(check_with(&[(9, &(row("4096") + " 1"))]), 14);
    let mut lines = good_lines();
    lines[129] = row("4096") + " x";
    let mut file = bytes(&lines);
    assert_eq!(check(&file), 14);
    file.pop();
    assert_eq!(check(&file), 15);
    // The last row before trailing bytes.
    lines[129] = row("4096");
    assert_eq!(check(&[bytes(&lines), b"x".to_vec()].concat()), 11);
    // In reading, refusal 4 stands after 10 and before the rows.
    lines[2] = "x".to_string();
    assert_eq!(read(&bytes(&lines), 8191), Err(Refusal::SamplesLength));
    lines[1] = "64 64 2 0 0 0 1025".to_string();
    assert_eq!(read(&bytes(&lines), 8191), Err(Refusal::Strength));
}
