//! The functions of the proved libraries: what `picking.h` and `script.h` declare, and what their callers owe.
use std::error::Error;
use std::fmt;

/// What became of an index.
#[derive(Clone, Copy, Debug, PartialEq, Eq)]
pub enum Outcome {
    /// Versions are picked, and are a solution.
    Picked = 0,
    /// There is no solution.
    NoSolution = 1,
    /// The search made too many steps, or memory was refused.
    GaveUp = 2,
    /// A line isn't in the format, or the text has no index, or several.
    Unreadable = 3,
}

/// How a script ended.
#[derive(Clone, Copy, Debug, PartialEq, Eq)]
pub enum Ended {
    /// All lines were obeyed.
    Whole = 0,
    /// A line isn't in the format.
    Unreadable = 1,
    /// Memory was refused.
    NoMemory = 3,
}

/// Where an answer names a version: the first byte of the package's name, and of the version, and their lengths.
#[repr(C)]
#[derive(Clone, Copy, Debug, Default, PartialEq, Eq)]
pub struct Version {
    pub name: usize,
    pub name_length: usize,
    pub version: usize,
    pub version_length: usize,
}

/// Why there is no answer: it takes so many bytes, and the buffer has fewer.
#[derive(Clone, Copy, Debug, PartialEq, Eq)]
pub struct TooSmall {
    pub needed: usize,
}

impl fmt::Display for TooSmall {
    fn fmt(&self, f: &mut fmt::Formatter<'_>) -> fmt::Result {
        write!(f, "{} bytes are needed", self.needed)
    }
}

impl Error for TooSmall {}

// In `picking_c` and `script_c` a slice is one parameter, which crosses as a pointer and then a length. Those that take
// memory have a first parameter `alloc`, which takes no bytes. Nothing compares the declarations.
unsafe extern "C" {
    fn nivolakku_pick(
        index: *const u8,
        length: usize,
        steps: u64,
        answer: *mut u8,
        room: usize,
        needed: *mut usize,
    ) -> u32;

    fn nivolakku_versions(
        answer: *const u8,
        length: usize,
        versions: *mut Version,
        room: usize,
    ) -> usize;

    fn nivolakku_script(
        script: *const u8,
        length: usize,
        transcript: *mut u8,
        room: usize,
        needed: *mut usize,
    ) -> u32;
}

/// Answers the index of a text in so many steps at most, at the start of a buffer: what became of it, and the answer's
/// length.
pub fn pick(index: &[u8], steps: u64, buffer: &mut [u8]) -> Result<(Outcome, usize), TooSmall> {
    let mut needed = 0;
    // SAFETY: the declaration above fits `picking_c`, whose function requires nothing. The pointers and lengths are
    // those of two slices and a number, borrowed for the call, and what is written is borrowed for it alone.
    let status = unsafe {
        nivolakku_pick(
            index.as_ptr(),
            index.len(),
            steps,
            buffer.as_mut_ptr(),
            buffer.len(),
            &mut needed,
        )
    };
    let outcome = match status {
        0 => Outcome::Picked,
        1 => Outcome::NoSolution,
        2 => Outcome::GaveUp,
        3 => Outcome::Unreadable,
        _ => return Err(TooSmall { needed }),
    };
    Ok((outcome, needed))
}

/// How many versions an answer names. They are put into the buffer, as many as it has room for.
pub fn versions(answer: &[u8], buffer: &mut [Version]) -> usize {
    // SAFETY: as in `pick`; `Version` has the fields of the library's, in their order.
    unsafe {
        nivolakku_versions(
            answer.as_ptr(),
            answer.len(),
            buffer.as_mut_ptr(),
            buffer.len(),
        )
    }
}

/// Obeys a script, and writes its transcript to the start of a buffer: how it ended, and the transcript's length.
pub fn script(text: &[u8], buffer: &mut [u8]) -> Result<(Ended, usize), TooSmall> {
    let mut needed = 0;
    // SAFETY: as in `pick`, of `script_c`.
    let status = unsafe {
        nivolakku_script(
            text.as_ptr(),
            text.len(),
            buffer.as_mut_ptr(),
            buffer.len(),
            &mut needed,
        )
    };
    let ended = match status {
        0 => Ended::Whole,
        1 => Ended::Unreadable,
        2 | 3 => Ended::NoMemory,
        _ => return Err(TooSmall { needed }),
    };
    Ok((ended, needed))
}
