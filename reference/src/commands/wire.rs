//! Little-endian words on the binary protocol.

use super::Outcome;
use std::io::{stdin, stdout, BufRead, BufReader, BufWriter, ErrorKind, Read, Result, StdinLock};
use std::io::{StdoutLock, Write};

pub type Input<'a> = BufReader<StdinLock<'a>>;
pub type Output<'a> = BufWriter<StdoutLock<'a>>;

/// Answers every question on standard input, each before the next is read.
pub fn answer_each(mut answer: impl FnMut(&mut Input, &mut Output) -> Outcome) -> Outcome {
    let mut input = BufReader::new(stdin().lock());
    let mut out = BufWriter::new(stdout().lock());
    while !input.fill_buf()?.is_empty() {
        answer(&mut input, &mut out)?;
        out.flush()?;
    }
    Ok(())
}

/// A word of fixed width.
pub trait Word: Sized {
    fn take(input: &mut impl Read) -> Result<Self>;
    fn put(&self, out: &mut impl Write) -> Result<()>;
}

macro_rules! word {
    ($($type:ty)*) => {$(
        impl Word for $type {
            fn take(input: &mut impl Read) -> Result<Self> {
                let mut bytes = [0; std::mem::size_of::<$type>()];
                input.read_exact(&mut bytes)?;
                Ok(<$type>::from_le_bytes(bytes))
            }

            fn put(&self, out: &mut impl Write) -> Result<()> {
                out.write_all(&self.to_le_bytes())
            }
        }
    )*};
}

word!(u16 i32 u32 u64);

pub fn take_array<const N: usize>(input: &mut impl Read) -> Result<[u64; N]> {
    let mut words = [0; N];
    for word in &mut words {
        *word = u64::take(input)?;
    }
    Ok(words)
}

pub fn take_many<T: Word>(input: &mut impl Read, length: u64) -> Result<Vec<T>> {
    (0..length).map(|_| T::take(input)).collect()
}

pub fn take_bytes(input: &mut impl Read, length: u64) -> Result<Vec<u8>> {
    let mut bytes = Vec::new();
    input.take(length).read_to_end(&mut bytes)?;
    if (bytes.len() as u64) < length {
        return Err(ErrorKind::UnexpectedEof.into());
    }
    Ok(bytes)
}

pub fn put_many<T: Word>(out: &mut impl Write, words: &[T]) -> Result<()> {
    words.iter().try_for_each(|word| word.put(out))
}
