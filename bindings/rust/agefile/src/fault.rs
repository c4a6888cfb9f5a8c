//! What is wrong with a file, or with a call.

use agefile_sys::*;
use std::error::Error;
use std::ffi::{c_char, c_int, CStr};
use std::fmt;
use std::io::{self, ErrorKind};

/// What is wrong with a file, or with a call: one of the library's list, whose numbers
/// docs/FAULTS.md explains.
///
/// An [`io::Error`] carries it, in which [`Fault::of`] finds it. The kind of that error is
/// [`ErrorKind::InvalidData`] whatever is wrong with a file, even if it was cut: `UnexpectedEof` is
/// what `read_exact` says at the end of a whole plaintext.
#[derive(Clone, Copy, Debug, PartialEq, Eq)]
#[non_exhaustive]
pub enum Fault {
    /// The passphrase or key isn't the file's, or is of another kind.
    WrongKey {
        /// As `number()`.
        number: i32,
    },
    /// The file isn't as its writer left it, or isn't an age file: it was cut, damaged or altered.
    NotWhole {
        /// As `number()`.
        number: i32,
        /// The number of the chunk that it is about, from 0.
        chunk: Option<u64>,
    },
    /// The file demands more work of a passphrase than is allowed.
    WorkTooHigh,
    /// There isn't enough memory.
    OutOfMemory,
    /// An argument isn't allowed.
    Misused {
        /// Which one, and what is.
        argument: &'static str,
    },
    /// The system gave no random bytes, or the library isn't made for this processor.
    System {
        /// As `number()`.
        number: i32,
    },
}

impl Fault {
    /// The fault that the library answers by this number, about this chunk unless that is the
    /// greatest number.
    pub(crate) fn new(number: c_int, chunk: Option<u64>) -> Fault {
        // SAFETY: it takes any number.
        match unsafe { agefile_fault_kind(number) } {
            AGEFILE_KIND_WRONG_KEY => Fault::WrongKey { number },
            AGEFILE_KIND_NOT_WHOLE => {
                Fault::NotWhole { number, chunk: chunk.filter(|it| *it != u64::MAX) }
            }
            AGEFILE_KIND_WORK => Fault::WorkTooHigh,
            AGEFILE_KIND_MEMORY => Fault::OutOfMemory,
            AGEFILE_KIND_MISUSE => Fault::Misused { argument: said(agefile_fault_text, number) },
            _ => Fault::System { number },
        }
    }

    /// Nothing for 0, else that fault.
    pub(crate) fn see(answer: c_int, chunk: Option<u64>) -> Result<(), Fault> {
        match answer {
            0 => Ok(()),
            number => Err(Fault::new(number, chunk)),
        }
    }

    /// The fault that an error carries, even inside other errors, as a reader of archives puts it;
    /// none if a file under it failed, or a key of yours.
    ///
    /// ```
    /// # use agefile::{decrypt, encrypt, Fault, Passphrase};
    /// # let file = encrypt(&[&Passphrase::new("correct horse").work(1)], b"text")?;
    /// let error = decrypt(&[&Passphrase::new("battery")], &file).unwrap_err();
    /// match Fault::of(&error) {
    ///     Some(Fault::WrongKey { .. }) => println!("that isn't the passphrase"),
    ///     Some(it @ Fault::NotWhole { .. }) => println!("fetch the file again: {it}"),
    ///     _ => return Err(error),
    /// }
    /// # Ok::<(), std::io::Error>(())
    /// ```
    pub fn of(error: &io::Error) -> Option<Fault> {
        let mut it: &(dyn Error + 'static) = error;
        loop {
            if let Some(fault) = it.downcast_ref() {
                return Some(*fault);
            }
            it = match it.downcast_ref::<io::Error>() {
                Some(outer) => outer.get_ref()?, // which its `source` passes over
                None => it.source()?,
            };
        }
    }

    /// Its number in docs/FAULTS.md.
    pub fn number(&self) -> i32 {
        use Fault::*;
        match *self {
            WrongKey { number } | NotWhole { number, .. } | System { number } => number,
            WorkTooHigh => AGEFILE_WORK_TOO_HIGH,
            OutOfMemory => AGEFILE_MEMORY,
            Misused { .. } => AGEFILE_MISUSED,
        }
    }

    /// Its name, as `age_tool` prints it.
    pub fn name(&self) -> &'static str {
        said(agefile_fault_name, self.number())
    }
}

/// What the library says of an answer.
fn said(call: unsafe extern "C" fn(c_int) -> *const c_char, answer: c_int) -> &'static str {
    // SAFETY: it takes any number, and its strings are never freed.
    unsafe { CStr::from_ptr(call(answer)) }.to_str().unwrap_or("Unknown")
}

impl fmt::Display for Fault {
    fn fmt(&self, f: &mut fmt::Formatter<'_>) -> fmt::Result {
        let (number, name) = (self.number(), self.name());
        match self {
            Fault::Misused { argument } => return write!(f, "{argument} ({number} {name})"),
            _ => write!(f, "{} ({number} {name}", said(agefile_fault_text, number))?,
        }
        match self {
            Fault::NotWhole { chunk: Some(chunk), .. } => write!(f, ", chunk {chunk})"),
            _ => f.write_str(")"),
        }
    }
}

impl Error for Fault {}

impl From<Fault> for io::Error {
    fn from(fault: Fault) -> io::Error {
        let kind = match fault {
            Fault::OutOfMemory => ErrorKind::OutOfMemory,
            Fault::Misused { .. } => ErrorKind::InvalidInput,
            Fault::System { number: AGEFILE_NO_PROCESSOR } => ErrorKind::Unsupported,
            Fault::System { .. } => ErrorKind::Other,
            _ => ErrorKind::InvalidData,
        };
        io::Error::new(kind, fault)
    }
}
