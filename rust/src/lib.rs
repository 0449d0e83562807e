//! Runs triple-DEA jobs with the proved library `libtdea.a`.
//!
//! A job is a list of bytes that names keys, a mode, a direction, initial values and data. [`Job`] lays one out, [`run`] runs it:
//!
//! ```
//! use tdea::{run, Direction, Job, Mode};
//!
//! let job = Job {
//!     keys: &0x133457799BBCDFF1_u64.to_be_bytes(),
//!     mode: Mode::Ecb,
//!     direction: Direction::Encipher,
//!     initial_values: &[],
//!     data: &0x0123456789ABCDEF_u64.to_be_bytes(),
//! };
//! let mut out = [0; 8];
//! assert_eq!(run(&job.to_bytes()?, &mut out)?, 8);
//! assert_eq!(out, 0x85E813540F0AB405_u64.to_be_bytes());
//! # Ok::<(), Box<dyn std::error::Error>>(())
//! ```
//!
//! The crate links `libtdea.a` from the folder that the variable `TDEA_LIB_DIR` names at build time, by default from `build/lib` of the
//! repository, where `make lib` leaves it.
mod job;
mod refusal;

pub use job::{Direction, FieldTooLong, Job, Mode};
pub use refusal::Refusal;

/// The most bytes of data that a job takes.
pub const MAX_DATA: usize = 32_768;

mod ffi {
    extern "C" {
        pub fn tdea_run(job: *const u8, job_len: usize, out: *mut u8, out_len: usize) -> i64;
    }
}

/// Runs one job, and answers how many bytes it wrote to the front of `out`: as many as the job has data. The rest of `out` is left.
///
/// The call keeps no state and allocates nothing, so threads may run jobs at the same time.
///
/// # Errors
///
/// A job that is refused leaves all of `out` as it was.
///
/// ```
/// use tdea::{run, Refusal};
///
/// let mut out = [7; 8];
/// assert_eq!(run(&[1, 0], &mut out), Err(Refusal::FieldTruncated));
/// assert_eq!(out, [7; 8]);
/// ```
///
/// # Panics
///
/// Never with the library as proved. An answer beyond the length of `out` would mean that something else was linked; nothing is made of it.
pub fn run(job: &[u8], out: &mut [u8]) -> Result<usize, Refusal> {
    // SAFETY: both slices are valid for their lengths and, `out` being borrowed mutably, do not overlap. The function keeps neither pointer,
    // reads only `job` and writes only `out`. For an empty slice it looks at no byte, so that a dangling pointer does no harm.
    let answer = unsafe { ffi::tdea_run(job.as_ptr(), job.len(), out.as_mut_ptr(), out.len()) };
    match usize::try_from(answer) {
        Ok(written) => {
            assert!(written <= out.len(), "tdea_run says that it wrote {written} bytes to {}", out.len());
            Ok(written)
        }
        Err(_) => Err(Refusal::from_number(answer.unsigned_abs())),
    }
}
