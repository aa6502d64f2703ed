//! The subcommands.

mod calls;
mod data;
mod dng;
mod exact;
mod files;
mod lines;
mod pgm;
mod range;
mod residuals;
mod wire;

use reference::calls::Call;
use reference::cases::cases;
use reference::programs::{motion, stack};
use reference::{filtered_calls, fixed_calls, lone_sample, moving_files, range_calls, scenes};
use std::error::Error;
use std::iter::once;
use std::num::ParseIntError;

pub type Outcome = Result<(), Box<dyn Error>>;

pub fn dispatch(arguments: &[String]) -> Outcome {
    let words: Vec<&str> = arguments.iter().map(String::as_str).collect();
    match words[..] {
        ["lengths"] => lines::answer_each(lines::length),
        ["noise"] => lines::answer_each(lines::noise),
        ["levels"] => lines::answer_each(lines::levels),
        ["motion"] => files::print(motion),
        ["stack"] => files::print(stack),
        ["check"] => files::check(),
        ["check-many"] => files::check_many(),
        ["read"] => files::read(),
        ["align"] => calls::align_each(),
        ["merge"] => calls::merge_each(Call::merge),
        ["run"] => calls::merge_each(Call::run),
        ["choose"] => calls::choose_each(),
        ["range"] => range::answer_each(),
        ["residuals"] => residuals::answer_each(),
        ["write-pgm"] => pgm::answer_writings(),
        ["read-pgm"] => pgm::answer_readings(),
        ["read-dng"] => dng::answer_readings(),
        ["exact"] => exact::answer_each(),
        ["lone-sample"] => data::write_lone_samples(once(lone_sample::PLAIN)),
        ["wide-sample"] => data::write_lone_samples(once(lone_sample::WIDE)),
        ["filtered-sample"] => data::write_lone_samples(once(lone_sample::FILTERED)),
        ["wide-samples", count, seed] => {
            let samples = lone_sample::wide(count.parse()?, seed.parse()?);
            data::write_lone_samples(samples)
        }
        ["filtered-samples", count, seed] => {
            let samples = lone_sample::filtered(count.parse()?, seed.parse()?);
            data::write_lone_samples(samples)
        }
        ["cases", directory, seed] => data::write_files(directory, seed, cases),
        ["moving", directory, seed] => data::write_files(directory, seed, moving_files::cases),
        ["damaged", count, seed] => data::write_damaged(count, seed),
        ["calls", side, count, seed] => data::write_calls(side, count, seed),
        ["pgm-frames", count, seed] => pgm::put_writings(count, seed),
        ["pgm-files", count, seed] => pgm::put_readings(count, seed),
        ["dng-files", count, seed] => dng::put_readings(count, seed),
        ["fixed-calls"] => data::write_each(fixed_calls::calls()),
        ["fixed-calls", side, width, height, round] => {
            data::write_each(fixed_of_size([side, width, height, round])?)
        }
        ["filtered-calls", width, height, round] => {
            let calls = filtered_calls::of_size(width.parse()?, height.parse()?, round.parse()?);
            data::write_each(calls)
        }
        ["range-calls"] => range::put_each(range_calls::calls()),
        ["range-calls", "aimed"] => range::put_each(range_calls::aimed()),
        ["range-calls", width, height, round] => {
            let calls = range_calls::of_size(width.parse()?, height.parse()?, round.parse()?);
            range::put_each(calls)
        }
        ["random-ranges", side, count, seed] => {
            let calls = range_calls::random(side.parse()?, count.parse()?, seed.parse()?);
            range::put_each(calls)
        }
        ["residual-calls"] => residuals::put_each(fixed_calls::calls()),
        ["residual-calls", side, count, seed] => {
            residuals::put_each(scenes::calls(side.parse()?, count.parse()?, seed.parse()?))
        }
        ["fixed-places", side, width, height, round] => {
            data::write_with_places(fixed_of_size([side, width, height, round])?, 8)
        }
        ["filtered-places", width, height, round] => {
            let calls = filtered_calls::of_size(width.parse()?, height.parse()?, round.parse()?);
            data::write_with_places(calls, 2)
        }
        _ => Err("unknown subcommand; README.md lists them".into()),
    }
}

/// The fixed calls of a side, width and height in a round.
fn fixed_of_size(words: [&str; 4]) -> Result<impl Iterator<Item = Call>, ParseIntError> {
    let [side, width, height, round] = words;
    let (side, round) = (side.parse()?, round.parse()?);
    Ok(fixed_calls::of_size(
        side,
        width.parse()?,
        height.parse()?,
        round,
    ))
}
