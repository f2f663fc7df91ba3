//! Safe Rust over the static library of `crates/nekhvozu`: sums of two products, with proved answers.
//!
//! Each function here hands its arguments on. The calls ask nothing of the values that they are given; what they ask of
//! pointers and lengths, a slice promises.
#![no_std]
#![warn(missing_docs)]

use core::num::NonZeroU8;

/// A significand and an exponent: s × β^q, where β is the radix of the figure's kind. Any pair of words may be given.
#[repr(C)]
#[derive(Clone, Copy, Debug, PartialEq, Eq)]
pub struct Figure {
    /// The significand.
    pub s: i32,
    /// The exponent.
    pub q: i32,
}

/// Which kind, and which method for ab + cd.
#[repr(u8)]
#[derive(Clone, Copy, Debug, PartialEq, Eq)]
pub enum Arrangement {
    /// 24 binary digits, Kahan's method.
    Binary = 0,
    /// Seven decimal digits, Kahan's method.
    Decimal = 1,
    /// 24 binary digits, the symmetric method.
    Symmetric = 2,
}

/// The number by which a call was refused, or a batch stopped.
#[derive(Clone, Copy, Debug, PartialEq, Eq)]
pub struct Refusal(pub NonZeroU8);

/// What a batch did.
#[derive(Clone, Copy, Debug, PartialEq, Eq)]
pub struct Batch<'r> {
    /// The number of rows run.
    pub rows: usize,
    /// Their lines, at the front of the report.
    pub lines: &'r [u8],
    /// What stopped the batch, if not every row was run.
    pub stopped: Option<Refusal>,
}

#[repr(C)]
struct Answer {
    status: u8,
    figure: Figure,
}

#[repr(C)]
struct BatchEnd {
    rows: usize,
    bytes: usize,
    status: u8,
}

// These fit the functions in crates/nekhvozu/src/lib.rt, where a `Figure` is a `Pair`, and a slice crosses as a pointer
// and a length. Nothing compares the two.
#[link(name = "nekhvozu", kind = "static")]
unsafe extern "C" {
    safe fn nekhvozu_multiply(arrangement: u8, x: Figure, y: Figure) -> Answer;
    safe fn nekhvozu_add(arrangement: u8, x: Figure, y: Figure) -> Answer;
    safe fn nekhvozu_fused(arrangement: u8, x: Figure, y: Figure, z: Figure) -> Answer;
    safe fn nekhvozu_sum(arrangement: u8, a: Figure, b: Figure, c: Figure, d: Figure) -> Answer;
    fn nekhvozu_batch(
        arrangement: u8,
        text: *const u8,
        text_size: usize,
        report: *mut u8,
        report_size: usize,
    ) -> BatchEnd;
}

fn stopped(status: u8) -> Option<Refusal> {
    NonZeroU8::new(status).map(Refusal)
}

fn result(answer: Answer) -> Result<Figure, Refusal> {
    match stopped(answer.status) {
        Some(refusal) => Err(refusal),
        None => Ok(answer.figure),
    }
}

/// x × y, rounded once.
pub fn multiply(by: Arrangement, x: Figure, y: Figure) -> Result<Figure, Refusal> {
    result(nekhvozu_multiply(by as u8, x, y))
}

/// x + y, rounded once.
pub fn add(by: Arrangement, x: Figure, y: Figure) -> Result<Figure, Refusal> {
    result(nekhvozu_add(by as u8, x, y))
}

/// x × y + z, rounded once.
pub fn fused(by: Arrangement, x: Figure, y: Figure, z: Figure) -> Result<Figure, Refusal> {
    result(nekhvozu_fused(by as u8, x, y, z))
}

/// ab + cd, by the arrangement's method.
pub fn sum(by: Arrangement, a: Figure, b: Figure, c: Figure, d: Figure) -> Result<Figure, Refusal> {
    result(nekhvozu_sum(by as u8, a, b, c, d))
}

/// Runs the batch of a text on a new console, and writes its lines at the front of the report.
pub fn batch<'r>(by: Arrangement, text: &[u8], report: &'r mut [u8]) -> Batch<'r> {
    // SAFETY: the declaration fits the library. Both pointers and lengths are those of slices that are borrowed for the
    // call, the second of them alone, so that the two do not overlap; and a slice's pointer is never null.
    let end = unsafe { nekhvozu_batch(by as u8, text.as_ptr(), text.len(), report.as_mut_ptr(), report.len()) };
    Batch { rows: end.rows, lines: &report[..end.bytes], stopped: stopped(end.status) }
}
