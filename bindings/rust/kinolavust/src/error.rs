//! Why a call is refused.

use kinolavust_sys as sys;
use std::ffi::{c_char, CStr};
use std::fmt;

pub type Result<T> = std::result::Result<T, Error>;

/// A refusal.
#[derive(Clone, Debug, PartialEq, Eq)]
pub struct Error {
    number: i32,
    message: String,
    place: u64,
    subject: String,
}

/// A copy of a text of C.
///
/// # Safety
///
/// It ends in a zero byte.
unsafe fn copied(text: *const c_char) -> String {
    CStr::from_ptr(text).to_string_lossy().into_owned()
}

impl Error {
    /// The last refusal of a database, which may be NULL.
    pub(crate) fn last(number: i32, db: *const sys::kinolavust) -> Error {
        let mut len = 0;
        // SAFETY: these functions take any open database and NULL; the texts are there until its next call.
        unsafe {
            let subject = sys::kinolavust_subject(db, &mut len);
            Error {
                number,
                message: copied(sys::kinolavust_message(db)),
                place: sys::kinolavust_place(db),
                subject: String::from_utf8_lossy(std::slice::from_raw_parts(subject.cast(), len))
                    .into_owned(),
            }
        }
    }

    /// A call that isn't allowed.
    pub(crate) fn misuse(message: String) -> Error {
        Error {
            number: 11,
            message,
            place: 0,
            subject: String::new(),
        }
    }

    /// Its number: 18 is E18 Unique.
    pub fn number(&self) -> i32 {
        self.number
    }

    /// Its name, as "Unique".
    pub fn name(&self) -> &'static str {
        // SAFETY: each name ends in a zero byte, and is there as long as the program.
        unsafe { CStr::from_ptr(sys::kinolavust_name(self.number)) }
            .to_str()
            .unwrap_or("")
    }

    /// The byte of the statement where it leaves the grammar, or the damaged page; else 0.
    pub fn place(&self) -> u64 {
        self.place
    }

    /// The name or the text that it speaks of, or nothing.
    pub fn subject(&self) -> &str {
        &self.subject
    }
}

impl fmt::Display for Error {
    fn fmt(&self, f: &mut fmt::Formatter<'_>) -> fmt::Result {
        write!(f, "{}", self.message)
    }
}

impl std::error::Error for Error {}
