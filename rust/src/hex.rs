//! A text as Intel HEX, written and read.
//!
//! One record a line: a colon, and in hexadecimal digits the number of bytes of
//! data, an address in two bytes, a type, the data, and a byte that makes the
//! sum of all zero modulo 256. Both calls need no work area.
//!
//! ```
//! # fn main() -> Result<(), json_patch::hex::Refusal> {
//! use json_patch::hex;
//!
//! let mut output = [0; hex::length(2)];
//! let length = hex::write(b"{}", &mut output)?;
//! assert_eq!(&output[..length], b":020000007B7D06\n:00000001FF\n");
//!
//! let mut text = [0; 16];
//! let length = hex::read(&output[..length], &mut text)?;
//! assert_eq!(&text[..length], b"{}");
//! # Ok(())
//! # }
//! ```

use core::error::Error;
use core::fmt;

/// The longest text, in bytes.
pub const MAX_TEXT: usize = 65_536;

/// How many bytes a text of so many takes as records.
pub const fn length(text: usize) -> usize {
    text.div_ceil(16) * 12 + 2 * text + 12
}

/// Why nothing was written; the output is then as it was.
#[derive(Clone, Copy, Debug, PartialEq, Eq, Hash)]
pub enum Reason {
    /// A text over 65,536 bytes.
    TooLong = 2,
    /// The written text is longer than the output.
    OutputTooShort = 16,
    /// No record of type 00 or 01.
    NotARecord = 18,
    /// The sum is not zero modulo 256.
    WrongSum = 19,
    /// The address is not the next, or past 65,536 bytes.
    WrongAddress = 20,
    /// Anything after the end record, or no end record.
    WrongEnd = 21,
}

impl Reason {
    /// All of them, in the order of their numbers.
    pub const ALL: [Reason; 6] = [
        Reason::TooLong,
        Reason::OutputTooShort,
        Reason::NotARecord,
        Reason::WrongSum,
        Reason::WrongAddress,
        Reason::WrongEnd,
    ];

    /// Its number.
    pub fn number(self) -> u32 {
        self as u32
    }

    /// When it is given, in a few words.
    pub fn meaning(self) -> &'static str {
        match self {
            Reason::TooLong => "a text over 65,536 bytes",
            Reason::OutputTooShort => "written text longer than the lent output",
            Reason::NotARecord => "not a record",
            Reason::WrongSum => "wrong sum",
            Reason::WrongAddress => "address not the next, or past 65,536 bytes",
            Reason::WrongEnd => "anything after the end record, or no end record",
        }
    }
}

/// A refusal: why, and at which line.
#[derive(Clone, Copy, Debug, PartialEq, Eq, Hash)]
pub struct Refusal {
    /// Why.
    pub reason: Reason,
    /// The line, counted from 1; 0 where no line is at fault.
    pub line: usize,
}

impl fmt::Display for Refusal {
    fn fmt(&self, f: &mut fmt::Formatter) -> fmt::Result {
        write!(f, "refused {}: {}", self.reason.number(), self.reason.meaning())?;
        if self.line > 0 {
            write!(f, ", line {}", self.line)?;
        }
        Ok(())
    }
}

impl Error for Refusal {}

/// Writes a text as Intel HEX to the output and gives its length.
///
/// The output's first bytes are the records, and the rest is as it was.
///
/// ```
/// use json_patch::hex::{write, Reason, Refusal};
///
/// let mut output = *b"as it was";
/// let short = Refusal { reason: Reason::OutputTooShort, line: 0 };
/// assert_eq!(write(b"{}", &mut output), Err(short));
/// assert_eq!(&output, b"as it was");
/// ```
pub fn write(text: &[u8], output: &mut [u8]) -> Result<usize, Refusal> {
    call(raw::json_patch_write_hex, text, output)
}

/// Writes the text of Intel HEX to the output and gives its length.
///
/// ```
/// use json_patch::hex::{read, Reason, Refusal};
///
/// let mut output = [0; 4];
/// assert_eq!(read(b":0100000041be\r\n:00000001ff", &mut output), Ok(1));
/// assert_eq!(&output, b"A\0\0\0");
/// let wrong = Refusal { reason: Reason::WrongSum, line: 2 };
/// assert_eq!(read(b":0100000041BE\n:0100010041BE\n", &mut output), Err(wrong));
/// ```
pub fn read(hex: &[u8], output: &mut [u8]) -> Result<usize, Refusal> {
    call(raw::json_patch_read_hex, hex, output)
}

fn call(way: raw::Call, text: &[u8], output: &mut [u8]) -> Result<usize, Refusal> {
    let mut answer = raw::Answer::default();
    // Safety: every pointer and length is of a slice, and the borrows keep those
    // that are written apart from all others.
    let number =
        unsafe { way(text.as_ptr(), text.len(), output.as_mut_ptr(), output.len(), &mut answer) };
    match Reason::ALL.into_iter().find(|reason| reason.number() == number) {
        Some(reason) => Err(Refusal { reason, line: answer.place as usize }),
        None => Ok(answer.length as usize),
    }
}

/// The calls as the static library exports them: `include/json_patch_hex.h`, in
/// Rust.
pub mod raw {
    /// The answer: the fields that every call's answer has.
    #[repr(C)]
    #[derive(Clone, Copy, Debug, Default, PartialEq, Eq)]
    pub struct Answer {
        /// 0, or that of the refusal.
        pub number: u64,
        /// 0.
        pub text: u64,
        /// 0.
        pub op: u64,
        /// The line, else 0.
        pub place: u64,
        /// 0.
        pub pointer: u64,
        /// The written length, 0 on refusal.
        pub length: u64,
    }

    /// One of the two calls.
    pub type Call = unsafe extern "C" fn(*const u8, usize, *mut u8, usize, *mut Answer) -> u32;

    extern "C" {
        /// Writes a text as Intel HEX, or refuses; gives the answer's number.
        ///
        /// # Safety
        /// Each pointer is not null, is aligned, and points to as many bytes as its
        /// length says; the output and the answer overlap neither one another nor
        /// the input.
        pub fn json_patch_write_hex(
            text: *const u8,
            text_length: usize,
            output: *mut u8,
            output_length: usize,
            answer: *mut Answer,
        ) -> u32;

        /// Writes the text of Intel HEX, or refuses; gives the answer's number.
        ///
        /// # Safety
        /// As above.
        pub fn json_patch_read_hex(
            hex: *const u8,
            hex_length: usize,
            output: *mut u8,
            output_length: usize,
            answer: *mut Answer,
        ) -> u32;
    }
}
