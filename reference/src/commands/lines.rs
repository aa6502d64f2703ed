//! Questions of one line, answered by one line.

use super::Outcome;
use reference::noise::{Curve, Noise};
use reference::shape::Shape;
use reference::station::{station_length, station_noise};
use std::error::Error;
use std::io::{stdin, stdout, BufRead, BufWriter, Write};

pub type Answer = Result<String, Box<dyn Error>>;

/// Answers every line of standard input.
pub fn answer_each(answer: fn(&[&str]) -> Answer) -> Outcome {
    let mut out = BufWriter::new(stdout().lock());
    for line in stdin().lock().lines() {
        let line = line?;
        let words: Vec<&str> = line.split_whitespace().collect();
        let text = answer(&words).map_err(|error| format!("line `{line}`: {error}"))?;
        writeln!(out, "{text}")?;
    }
    out.flush()?;
    Ok(())
}

/// `width height count side row_length number`
pub fn length(words: &[&str]) -> Answer {
    let [width, height, count, side, row_length, number] = match words {
        [a, b, c, d, e, f] => [a, b, c, d, e, f],
        _ => return Err("expected `width height count side row_length number`".into()),
    };
    let shape = Shape {
        width: width.parse()?,
        height: height.parse()?,
        count: count.parse()?,
        row_length: row_length.parse()?,
    };
    let answer = station_length(shape, side.parse()?, number.parse()?);
    Ok(answer.to_string())
}

/// `shotbits readbits strength root side`
pub fn noise(words: &[&str]) -> Answer {
    let [shot, read, strength, root, side] = match words {
        [a, b, c, d, e] => [a, b, c, d, e],
        _ => return Err("expected `shotbits readbits strength root side`".into()),
    };
    let Curve { shot, read } = curve(shot, read)?;
    let (root, side) = (root.parse()?, side.parse()?);
    let answer = station_noise(shot, read, strength.parse()?, root, side);
    Ok(answer.to_string())
}

/// `c shotbits readbits` or `i iso shotbits readbits`
pub fn levels(words: &[&str]) -> Answer {
    let noise = match words {
        ["c", shot, read] => Noise::Curve(curve(shot, read)?),
        ["i", iso, shot, read] => Noise::Iso(iso.parse()?, curve(shot, read)?),
        _ => return Err("expected `c shotbits readbits` or `i iso shotbits readbits`".into()),
    };
    Ok(match noise.levels() {
        Ok(levels) => format!("{} {}", levels.shot, levels.read),
        Err(refusal) => format!("refused {}", refusal.number()),
    })
}

/// A curve from two f64 bit patterns of 16 hex digits each.
fn curve(shot: &str, read: &str) -> Result<Curve, Box<dyn Error>> {
    let value = |digits| u64::from_str_radix(digits, 16).map(f64::from_bits);
    Ok(Curve {
        shot: value(shot)?,
        read: value(read)?,
    })
}
