//! Reference for the HDR+ burst stacker, written from its scope document alone.
//! Quoted words in the comments are the document's.

#![forbid(unsafe_code)]

pub mod align;
pub mod between;
pub mod burst;
pub mod calls;
pub mod cases;
pub mod ceiling;
pub mod dng;
pub mod dng_data;
pub mod exact;
pub mod exact_filtered;
pub mod file;
pub mod filtered_calls;
pub mod fixed_calls;
pub mod fraction;
pub mod ghosts;
pub mod image;
pub mod integer;
pub mod lone_sample;
pub mod merge;
pub mod moving_files;
pub mod noise;
pub mod pgm;
pub mod pgm_data;
pub mod pictures;
pub mod programs;
pub mod pyramid;
pub mod random;
pub mod range;
pub mod range_call;
pub mod range_calls;
pub mod range_faults;
pub mod refusal;
pub mod residuals;
pub mod scenes;
pub mod shape;
pub mod sharpness;
pub mod side;
pub mod side_calls;
pub mod square;
pub mod station;
pub mod transform;
