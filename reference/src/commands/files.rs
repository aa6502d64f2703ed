//! Subcommands on burst files.

use super::wire::{answer_each, put_many, take_array, take_bytes, Word};
use super::Outcome;
use reference::file::{self, BurstFile};
use reference::refusal::number;
use std::io::{stdin, Read, Write};

/// What a program prints for the file on standard input.
pub fn print(program: fn(&[u8]) -> String) -> Outcome {
    print!("{}", program(&whole_input()?));
    Ok(())
}

/// The file check's number for the file on standard input.
pub fn check() -> Outcome {
    println!("{}", file::check(&whole_input()?));
    Ok(())
}

/// One number per line for a sequence of files, each after its length as a u32.
pub fn check_many() -> Outcome {
    answer_each(|input, out| {
        let length = u32::take(input)?;
        let bytes = take_bytes(input, u64::from(length))?;
        Ok(writeln!(out, "{}", file::check(&bytes))?)
    })
}

/// A sequence of file readings: lent length and file length as u64, then the file.
pub fn read() -> Outcome {
    answer_each(|input, out| {
        let [lent, length] = take_array(input)?;
        let result = file::read(&take_bytes(input, length)?, lent);
        number(&result).put(out)?;
        put_many(out, &result.as_ref().map_or([0; 7], header_values))?;
        let samples = result.map_or(vec![], |file| file.burst.samples);
        Ok(put_many(out, &samples)?)
    })
}

/// The seven values of the header line in its order.
fn header_values(file: &BurstFile) -> [u64; 7] {
    let BurstFile { burst, noise } = file;
    [
        burst.shape.width,
        burst.shape.height,
        burst.shape.count,
        burst.reference,
        noise.levels.shot,
        noise.levels.read,
        noise.tuning.strength,
    ]
}

fn whole_input() -> std::io::Result<Vec<u8>> {
    let mut bytes = Vec::new();
    stdin().lock().read_to_end(&mut bytes)?;
    Ok(bytes)
}
