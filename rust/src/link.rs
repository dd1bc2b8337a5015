//! Pointers as links: the fragment form of RFC 6901, section 6.
//!
//! A link is `#` and the pointer's bytes: ASCII letters, digits and
//! `-._~!$&'()*+,;=:@/?` as they are, and each other byte as `%` and two
//! hexadecimal digits. Both calls need no work area.
//!
//! ```
//! # fn main() -> Result<(), json_patch::link::Refused> {
//! use json_patch::link;
//!
//! let mut output = [0; 64];
//! let length = link::write("/cut/low é".as_bytes(), &mut output)?;
//! assert_eq!(&output[..length], b"#/cut/low%20%C3%A9");
//!
//! let mut pointer = [0; 64];
//! let length = link::read(&output[..length], &mut pointer)?;
//! assert_eq!(&pointer[..length], "/cut/low é".as_bytes());
//! # Ok(())
//! # }
//! ```

use core::error::Error;
use core::fmt;

/// The longest link that is read, in bytes.
pub const MAX_LINK: usize = 32_768;

/// Why nothing was written; the output is then as it was.
#[derive(Clone, Copy, Debug, PartialEq, Eq, Hash)]
pub enum Refused {
    /// A link over 32,768 bytes.
    TooLong = 2,
    /// No pointer; when writing, also one that is not UTF-8.
    MalformedPointer = 10,
    /// The written text is longer than the output.
    OutputTooShort = 16,
    /// No link, or its bytes are not UTF-8.
    BadLink = 22,
}

impl Refused {
    /// All of them, in the order of their numbers.
    pub const ALL: [Refused; 4] =
        [Refused::TooLong, Refused::MalformedPointer, Refused::OutputTooShort, Refused::BadLink];

    /// Its number.
    pub fn number(self) -> u32 {
        self as u32
    }

    /// When it is given, in a few words.
    pub fn meaning(self) -> &'static str {
        match self {
            Refused::TooLong => "a link over 32,768 bytes",
            Refused::MalformedPointer => "malformed pointer",
            Refused::OutputTooShort => "written text longer than the lent output",
            Refused::BadLink => "no link, or its bytes are not UTF-8",
        }
    }
}

impl fmt::Display for Refused {
    fn fmt(&self, f: &mut fmt::Formatter) -> fmt::Result {
        write!(f, "refused {}: {}", self.number(), self.meaning())
    }
}

impl Error for Refused {}

/// Writes the link of a pointer to the output and gives its length.
///
/// The output's first bytes are the link, and the rest is as it was. When writing
/// there is no limit but the output.
///
/// ```
/// use json_patch::link::{write, Refused};
///
/// let mut output = *b"as it was";
/// assert_eq!(write(b"/~", &mut output), Err(Refused::MalformedPointer));
/// assert_eq!(write(b"/a b c d", &mut output), Err(Refused::OutputTooShort));
/// assert_eq!(&output, b"as it was");
/// assert_eq!(write(b"/a", &mut output), Ok(3));
/// assert_eq!(&output, b"#/ait was");
/// ```
pub fn write(pointer: &[u8], output: &mut [u8]) -> Result<usize, Refused> {
    call(raw::json_patch_write_link, pointer, output)
}

/// Writes the pointer of a link to the output and gives its length.
///
/// The pointer is as it is written, with its `~0` and `~1`; percents are taken
/// once.
///
/// ```
/// use json_patch::link::{read, Refused};
///
/// let mut output = [0; 16];
/// assert_eq!(read(b"#/%2541", &mut output), Ok(4));
/// assert_eq!(&output[..4], b"/%41");
/// assert_eq!(read(b"#/%4", &mut output), Err(Refused::BadLink));
/// assert_eq!(read(b"#a", &mut output), Err(Refused::MalformedPointer));
/// assert_eq!(&output[..4], b"/%41");
/// ```
pub fn read(link: &[u8], output: &mut [u8]) -> Result<usize, Refused> {
    call(raw::json_patch_read_link, link, output)
}

fn call(way: raw::Call, text: &[u8], output: &mut [u8]) -> Result<usize, Refused> {
    let mut answer = raw::Answer::default();
    // Safety: every pointer and length is of a slice, and the borrows keep those
    // that are written apart from all others.
    let number =
        unsafe { way(text.as_ptr(), text.len(), output.as_mut_ptr(), output.len(), &mut answer) };
    match Refused::ALL.into_iter().find(|refused| refused.number() == number) {
        Some(refused) => Err(refused),
        None => Ok(answer.length as usize),
    }
}

/// The calls as the static library exports them: `include/json_patch_link.h`, in
/// Rust.
pub mod raw {
    /// The answer: the fields that every call's answer has. The four in the middle
    /// are 0, and so is the length after a refusal.
    #[repr(C)]
    #[derive(Clone, Copy, Debug, Default, PartialEq, Eq)]
    pub struct Answer {
        /// 0, or that of the refusal.
        pub number: u64,
        /// 0.
        pub text: u64,
        /// 0.
        pub op: u64,
        /// 0.
        pub place: u64,
        /// 0.
        pub pointer: u64,
        /// The written length, 0 on refusal.
        pub length: u64,
    }

    /// One of the two calls.
    pub type Call = unsafe extern "C" fn(*const u8, usize, *mut u8, usize, *mut Answer) -> u32;

    extern "C" {
        /// Writes the link of a pointer, or refuses; gives the answer's number.
        ///
        /// # Safety
        /// Each pointer is not null, is aligned, and points to as many bytes as its
        /// length says; the output and the answer overlap neither one another nor
        /// the input.
        pub fn json_patch_write_link(
            pointer: *const u8,
            pointer_length: usize,
            output: *mut u8,
            output_length: usize,
            answer: *mut Answer,
        ) -> u32;

        /// Writes the pointer of a link, or refuses; gives the answer's number.
        ///
        /// # Safety
        /// As above.
        pub fn json_patch_read_link(
            link: *const u8,
            link_length: usize,
            output: *mut u8,
            output_length: usize,
            answer: *mut Answer,
        ) -> u32;
    }
}
