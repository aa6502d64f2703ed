//! PGM files written and read over the binary protocol.

use super::wire::{answer_each, put_many, take_array, take_bytes, take_many, Word};
use super::Outcome;
use reference::pgm::{read, write, Pgm};
use reference::pgm_data::{readings, writings};
use reference::refusal::number;
use std::io::{stdout, BufWriter, Write};

/// A sequence of writings: width, height, frame length and buffer length, then the frame.
pub fn answer_writings() -> Outcome {
    answer_each(|input, out| {
        let [width, height, frame, lent] = take_array(input)?;
        let samples = take_many(input, frame)?;
        let pgm = Pgm {
            width,
            height,
            samples,
        };
        let result = write(&pgm, lent);
        number(&result).put(out)?;
        Ok(out.write_all(&result.unwrap_or_default())?)
    })
}

/// A sequence of readings: frame length and file length, then the file.
pub fn answer_readings() -> Outcome {
    answer_each(|input, out| {
        let [lent, length] = take_array(input)?;
        let result = read(&take_bytes(input, length)?, lent);
        number(&result).put(out)?;
        let (size, samples) = match result {
            Ok(pgm) => ([pgm.width, pgm.height], pgm.samples),
            Err(_) => ([0, 0], vec![]),
        };
        put_many(out, &size)?;
        Ok(put_many(out, &samples)?)
    })
}

/// Writes writings as `write-pgm` takes them.
pub fn put_writings(count: &str, seed: &str) -> Outcome {
    let mut out = BufWriter::new(stdout().lock());
    for writing in writings(count.parse()?, seed.parse()?) {
        let Pgm {
            width,
            height,
            samples,
        } = writing.pgm;
        put_many(
            &mut out,
            &[width, height, samples.len() as u64, writing.lent],
        )?;
        put_many(&mut out, &samples)?;
    }
    Ok(out.flush()?)
}

/// Writes readings as `read-pgm` takes them.
pub fn put_readings(count: &str, seed: &str) -> Outcome {
    let mut out = BufWriter::new(stdout().lock());
    for reading in readings(count.parse()?, seed.parse()?) {
        put_many(&mut out, &[reading.lent, reading.bytes.len() as u64])?;
        out.write_all(&reading.bytes)?;
    }
    Ok(out.flush()?)
}
