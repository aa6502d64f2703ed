//! Test data for other programs.

use super::calls::put_call;
use super::wire::{put_many, Word};
use super::Outcome;
use reference::calls::Call;
use reference::cases::{damaged_files, Case};
use reference::lone_sample::LoneSample;
use reference::random::Random;
use reference::scenes;
use reference::shape::Shape;
use std::io::{stdout, BufWriter, Write};
use std::path::Path;

/// Writes each case to a file of its name and `expected.txt` with a line `NAME number` each.
pub fn write_files(directory: &str, seed: &str, cases: fn(u64) -> Vec<Case>) -> Outcome {
    let directory = Path::new(directory);
    std::fs::create_dir_all(directory)?;
    let mut expected = String::new();
    for case in cases(seed.parse()?) {
        let name = format!("{}.burst", case.name);
        std::fs::write(directory.join(&name), &case.bytes)?;
        expected += &format!("{name} {}\n", case.number);
    }
    std::fs::write(directory.join("expected.txt"), expected)?;
    Ok(())
}

/// Writes damaged files as `check-many` takes them.
pub fn write_damaged(count: &str, seed: &str) -> Outcome {
    let mut out = BufWriter::new(stdout().lock());
    for bytes in damaged_files(count.parse()?, seed.parse()?) {
        u32::try_from(bytes.len())?.put(&mut out)?;
        out.write_all(&bytes)?;
    }
    out.flush()?;
    Ok(())
}

/// Writes random calls with frames up to `side` in width and height.
pub fn write_calls(side: &str, count: &str, seed: &str) -> Outcome {
    let side = side.parse()?;
    if side < 64 {
        return Err("frames are at least 64 wide and high".into());
    }
    write_each(scenes::calls(side, count.parse()?, seed.parse()?))
}

/// Writes the call of each lone sample, and its place, as `exact` takes them.
pub fn write_lone_samples(samples: impl Iterator<Item = LoneSample>) -> Outcome {
    let mut out = BufWriter::new(stdout().lock());
    for sample in samples {
        put_call_with_places(&mut out, &sample.call(), &[sample.place])?;
    }
    out.flush()?;
    Ok(())
}

/// Writes calls, each with so many random places, as `exact` takes them.
pub fn write_with_places(calls: impl Iterator<Item = Call>, count: usize) -> Outcome {
    let mut out = BufWriter::new(stdout().lock());
    let mut random = Random::new(1);
    for call in calls {
        let Shape { width, height, .. } = call.burst.shape;
        let mut below = |side: u64| random.below(side as usize) as u64;
        let places: Vec<_> = (0..count).map(|_| [below(height), below(width)]).collect();
        put_call_with_places(&mut out, &call, &places)?;
    }
    out.flush()?;
    Ok(())
}

fn put_call_with_places(out: &mut impl Write, call: &Call, places: &[[u64; 2]]) -> Outcome {
    put_call(out, call)?;
    (places.len() as u64).put(out)?;
    put_many(out, &places.concat())?;
    Ok(())
}

/// Writes calls as `align`, `merge` and `run` take them.
pub fn write_each(calls: impl Iterator<Item = Call>) -> Outcome {
    let mut out = BufWriter::new(stdout().lock());
    for call in calls {
        put_call(&mut out, &call)?;
    }
    out.flush()?;
    Ok(())
}
