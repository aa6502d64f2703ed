//! The command line as other programs use it.

use std::io::Write;
use std::process::{Command, Output, Stdio};

fn reference(arguments: &[&str], input: &[u8]) -> Output {
    let mut child = Command::new(env!("CARGO_BIN_EXE_reference"))
        .args(arguments)
        .stdin(Stdio::piped())
        .stdout(Stdio::piped())
        .stderr(Stdio::piped())
        .spawn()
        .unwrap();
    child.stdin.take().unwrap().write_all(input).unwrap();
    child.wait_with_output().unwrap()
}

fn printed(arguments: &[&str], input: &[u8]) -> String {
    let output = reference(arguments, input);
    assert!(output.status.success(), "{output:?}");
    String::from_utf8(output.stdout).unwrap()
}

fn words(values: &[u64]) -> Vec<u8> {
    values
        .iter()
        .flat_map(|value| value.to_le_bytes())
        .collect()
}

/// The flat example as a call, with buffers holding 7.
fn flat_call() -> Vec<u8> {
    let burst = [64, 64, 2, 0, 64, 0, 0, 0, 0];
    let noise_and_tuning = [0, 0, 0, 4096f64.to_bits(), 1024, 16, 0];
    let lengths = [8192, 50, 4096, 8192];
    let mut call = [words(&burst), words(&noise_and_tuning), words(&lengths)].concat();
    call.extend([[0, 0]; 4096].concat());
    call.extend([[4, 0]; 4096].concat());
    call.extend([[7, 0, 0, 0]; 50].concat());
    call.extend([[7, 0]; 4096].concat());
    call
}

#[test]
fn lines() {
    assert_eq!(
        printed(
            &["lengths"],
            b"64 64 2 16 64 5\n64 64 2 32 64 5\n64 64 2 64 64 5\n"
        ),
        "50\n18\n0\n"
    );
    let noise = b"3ff0000000000000 0000000000000000 8 1600 16\n3ff0000000000000 0000000000000000 8 1600 32\n";
    assert_eq!(printed(&["noise"], noise), "819200\n102400\n");
    let levels = b"i 400 3ff0000000000000 3ff0000000000000\nc 7ff8000000000000 0\n";
    assert_eq!(printed(&["levels"], levels), "4096 16384\nrefused 8\n");
}

#[test]
fn files() {
    assert_eq!(printed(&["check"], b""), "15\n");
    assert_eq!(printed(&["motion"], b"\n"), "refused 13\n");
    let files = [&[0, 0, 0, 0, 1, 0, 0, 0][..], b"\n"].concat();
    assert_eq!(printed(&["check-many"], &files), "15\n13\n");
    let reading = [words(&[8192, 1]), b"\n".to_vec()].concat();
    assert_eq!(
        reference(&["read"], &reading).stdout,
        words(&[13, 0, 0, 0, 0, 0, 0, 0])
    );
}

#[test]
fn pgm_files() {
    let writing = [words(&[64, 64, 4096, 8206]), [[9, 1]; 4096].concat()].concat();
    let file = [&b"P5\n64 64\n4095\n"[..], &[[1, 9]; 4096].concat()].concat();
    let written = [words(&[0]), file.clone()].concat();
    assert_eq!(reference(&["write-pgm"], &writing).stdout, written);
    let reading = [words(&[4096, 8206]), file.clone()].concat();
    let refused = [words(&[4095, 8206]), file].concat();
    let read = [
        words(&[0, 64, 64]),
        [[9, 1]; 4096].concat(),
        words(&[6, 0, 0]),
    ]
    .concat();
    assert_eq!(
        reference(&["read-pgm"], &[reading, refused].concat()).stdout,
        read
    );
}

#[test]
fn dng_files() {
    // A header alone: 19, and the lent samples come back.
    let file = b"II\x2a\0\x08\0\0\0";
    let reading = [&words(&[64, 64, 1, 64, 0, 2, 8])[..], &[1, 2, 3, 4], file].concat();
    let answer = [&words(&[19, 0, 0, 0, 0, 0, 0])[..], &[1, 2, 3, 4]].concat();
    assert_eq!(reference(&["read-dng"], &reading).stdout, answer);
}

#[test]
fn calls() {
    let twice = [flat_call(), flat_call()].concat();
    let zero_vectors = vec![0; 4 * 50];
    let sums = words(&[0, 102400, 0, 0, 0, 0, 0, 0, 53664]);
    let aligned = [&sums[..], &zero_vectors, &[[7, 0]; 4096].concat()].concat();
    assert_eq!(
        reference(&["align"], &twice).stdout,
        [&aligned[..], &aligned].concat()
    );
    let run = [sums, zero_vectors, [[2, 0]; 4096].concat()].concat();
    assert_eq!(
        reference(&["run"], &twice).stdout,
        [&run[..], &run].concat()
    );
}

#[test]
fn exact_samples() {
    let call = [flat_call(), words(&[1, 63, 5])].concat();
    // Of 4 the Wiener weight keeps 16/17, and each of two frames counts half: 32/17.
    let text = printed(&["exact"], &call);
    assert!(
        text.starts_with("63 5 2 1.882352941176 0.117647058823 "),
        "{text}"
    );
}

#[test]
fn unreadable_input() {
    assert!(!reference(&["run"], b"short").status.success());
    assert!(!reference(&["lengths"], b"64 64 2\n").status.success());
    assert!(!reference(&["unknown"], b"").status.success());
}
