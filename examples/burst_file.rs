//! The calls from Rust, without a crate: reads a burst file of any size on standard input, aligns and merges it, and prints what
//! `motion` or `stack` would, or with `tiles` each tile's vector and residual, as its argument says.
//!
//!     tools/install target/installed && rustc -O examples/burst_file.rs -L target/installed/lib -o target/burst_file

use std::io::Read;
use std::process::exit;

/// Of the tiles that a burst file means.
const SIDE: usize = 16;

// The structs of stacker.h.

#[repr(C)]
struct Burst {
    width: u64,
    height: u64,
    count: u64,
    reference: u64,
    row_length: u64,
    black: [u16; 4],
}

#[repr(C)]
struct Noise {
    shot: f64,
    read: f64,
}

#[repr(C)]
struct Tuning {
    strength: u64,
    side: u64,
    spatial: u64,
}

#[repr(C)]
struct Alignment {
    refusal: u64,
    residuals: [u64; 7],
    _rows: u64,
}

#[repr(C)]
struct BurstFile {
    refusal: u64,
    width: u64,
    height: u64,
    count: u64,
    reference: u64,
    shot_level: u64,
    read_level: u64,
    strength: u64,
}

impl BurstFile {
    fn burst(&self) -> Burst {
        Burst {
            width: self.width,
            height: self.height,
            count: self.count,
            reference: self.reference,
            row_length: self.width,
            black: [0; 4],
        }
    }

    fn columns(&self) -> usize {
        self.width as usize / SIDE + 1
    }

    /// Of one frame.
    fn tiles(&self) -> usize {
        self.columns() * (self.height as usize / SIDE + 1)
    }

    fn others(&self) -> impl Iterator<Item = u64> + '_ {
        (0..self.count).filter(move |&frame| frame != self.reference)
    }

    /// The curve with exactly these levels, 1024 times shot and read: both quotients are exact.
    fn noise(&self) -> Noise {
        Noise {
            shot: self.shot_level as f64 / 1024.0,
            read: self.read_level as f64 / 1024.0,
        }
    }

    fn tuning(&self) -> Tuning {
        Tuning {
            strength: self.strength,
            side: SIDE as u64,
            spatial: 0,
        }
    }
}

#[link(name = "stacker", kind = "static")]
#[rustfmt::skip]
extern "C" {
    fn stacker_file_size(file: *const u8, file_length: usize) -> BurstFile;
    fn stacker_read_file(file: *const u8, file_length: usize, samples: *mut u16, samples_length: usize) -> BurstFile;
    fn stacker_align(burst: Burst, tuning: Tuning, samples: *const u16, samples_length: usize, vectors: *mut i32, vectors_length: usize,
        work: *mut i64, work_length: usize) -> Alignment;
    fn stacker_merge(burst: Burst, noise: Noise, tuning: Tuning, samples: *const u16, samples_length: usize,
        vectors: *const i32, vectors_length: usize, output: *mut u16, output_length: usize, work: *mut i64, work_length: usize) -> u64;
    fn stacker_residuals(burst: Burst, tuning: Tuning, samples: *const u16, samples_length: usize, vectors: *const i32, vectors_length: usize,
        residuals: *mut u64, residuals_length: usize, work: *mut i64, work_length: usize) -> u64;
}

// What C callers must see to, slices bring along: they are aligned, and no two mutable ones overlap.

fn read_file(file: &[u8], samples: &mut [u16]) -> BurstFile {
    unsafe {
        stacker_read_file(
            file.as_ptr(),
            file.len(),
            samples.as_mut_ptr(),
            samples.len(),
        )
    }
}

#[rustfmt::skip]
fn align(file: &BurstFile, samples: &[u16], vectors: &mut [i32], work: &mut [i64]) -> Alignment {
    unsafe {
        stacker_align(file.burst(), file.tuning(), samples.as_ptr(), samples.len(), vectors.as_mut_ptr(), vectors.len(), work.as_mut_ptr(), work.len())
    }
}

#[rustfmt::skip]
fn merge(file: &BurstFile, samples: &[u16], vectors: &[i32], output: &mut [u16], work: &mut [i64]) -> u64 {
    unsafe {
        stacker_merge(file.burst(), file.noise(), file.tuning(), samples.as_ptr(), samples.len(), vectors.as_ptr(), vectors.len(),
            output.as_mut_ptr(), output.len(), work.as_mut_ptr(), work.len())
    }
}

#[rustfmt::skip]
fn residuals_at(file: &BurstFile, samples: &[u16], vectors: &[i32], residuals: &mut [u64], work: &mut [i64]) -> u64 {
    unsafe {
        stacker_residuals(file.burst(), file.tuning(), samples.as_ptr(), samples.len(), vectors.as_ptr(), vectors.len(),
            residuals.as_mut_ptr(), residuals.len(), work.as_mut_ptr(), work.len())
    }
}

fn file_size(file: &[u8]) -> BurstFile {
    unsafe { stacker_file_size(file.as_ptr(), file.len()) }
}

fn accepted(refusal: u64) {
    if refusal != 0 {
        println!("refused {refusal}");
        exit(1);
    }
}

fn print_motion(file: &BurstFile, vectors: &[i32], residuals: &[u64; 7]) {
    println!("frame tiles still far residual");
    let fields = vectors.chunks(2 * file.tiles());
    for ((frame, field), residual) in file.others().zip(fields).zip(residuals) {
        let still = field.chunks(2).filter(|vector| vector == &[0, 0]).count();
        let far = field.iter().map(|part| part.abs()).max().unwrap_or(0);
        println!("{frame} {} {still} {far} {residual}", field.len() / 2);
    }
}

/// A tile without texture matches anywhere: its vector tells something only beside its residual, there and elsewhere.
fn print_tiles(file: &BurstFile, vectors: &[i32], residuals: &[u64]) {
    println!("frame row column down right residual");
    let fields = vectors.chunks(2 * file.tiles());
    for ((frame, field), sums) in file
        .others()
        .zip(fields)
        .zip(residuals.chunks(file.tiles()))
    {
        for (tile, (vector, residual)) in field.chunks(2).zip(sums).enumerate() {
            let (row, column) = (tile / file.columns(), tile % file.columns());
            println!(
                "{frame} {row} {column} {} {} {residual}",
                vector[0], vector[1]
            );
        }
    }
}

fn print_frame(file: &BurstFile, output: &[u16]) {
    println!("width height\n{} {}", file.width, file.height);
    for row in output.chunks(file.width as usize) {
        let words: Vec<String> = row.iter().map(u16::to_string).collect();
        println!("{}", words.join(" "));
    }
}

fn main() {
    let mut bytes = Vec::new();
    std::io::stdin()
        .read_to_end(&mut bytes)
        .expect("standard input");
    let size = file_size(&bytes);
    accepted(size.refusal);
    let mut samples = vec![0; (size.width * size.height * size.count) as usize];
    let file = read_file(&bytes, &mut samples);
    accepted(file.refusal);

    let (width, height, count) = (
        file.width as usize,
        file.height as usize,
        file.count as usize,
    );
    let mut vectors = vec![0; (count - 1) * 2 * file.tiles()];
    let mut residuals = vec![0; (count - 1) * file.tiles()];
    let mut output = vec![0; width * height];
    let mut work = vec![0; 2 * width * height];
    let alignment = align(&file, &samples, &mut vectors, &mut work);
    accepted(alignment.refusal);
    accepted(merge(&file, &samples, &vectors, &mut output, &mut work));
    accepted(residuals_at(
        &file,
        &samples,
        &vectors,
        &mut residuals,
        &mut work,
    ));

    match std::env::args().nth(1).as_deref() {
        Some("motion") => print_motion(&file, &vectors, &alignment.residuals),
        Some("tiles") => print_tiles(&file, &vectors, &residuals),
        _ => print_frame(&file, &output),
    }
}
