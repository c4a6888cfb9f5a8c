//! Age files (<https://c2sp.org/age>), over a proved C library; this crate is tested, not proved.
//!
//! An [`Encryptor`] wraps any [`std::io::Write`], and a [`Decryptor`] reads any [`std::io::Read`],
//! at any place if that is [`std::io::Seek`]. [`encrypt`] and [`decrypt`] are for files in memory,
//! and a [`Decoder`] for bytes as they arrive. A key is a [`Passphrase`], or what implements
//! [`Recipient`] and [`Identity`], whose methods are those of the crate `age`.
//!
//! ```
//! use agefile::{Decryptor, Encryptor, Passphrase};
//! use std::io::{self, Read, Write};
//!
//! let key = Passphrase::new("correct horse");
//! # let key = key.work(1);
//! let mut file = Encryptor::new(&[&key]).wrap(Vec::new())?;
//! file.write_all(b"a text of mine")?;
//! let file = file.finish()?; // without it every reader refuses the file
//!
//! let mut text = String::new();
//! Decryptor::new(&[&key]).read(&file[..])?.read_to_string(&mut text)?;
//! assert_eq!(text, "a text of mine");
//! # Ok::<(), io::Error>(())
//! ```
//!
//! No byte is returned before its chunk has been authenticated, and the end (`Ok(0)`) is reported
//! only after the last chunk has been. All of the plaintext before a fault is returned first, and
//! then the [`Fault`], which never looks like an end: no fault is an `UnexpectedEof`.
//!
//! When a reader, writer or key is dropped, its secrets are overwritten, and what the library holds
//! of a chunk. Buffers of plaintext aren't, nor the stack and scrypt's table.

#![warn(missing_docs)]

mod decoder;
mod fault;
mod header;
mod keys;
mod raw;
mod reader;
mod workers;
mod writer;

pub use decoder::{decrypt, Decoder};
pub use fault::Fault;
pub use header::{inspect, Header, Stanza};
pub use keys::{FileKey, Identity, Passphrase, Recipient};
pub use reader::{Decryptor, Reader};
pub use workers::{decrypt_to, MAX_WORKERS};
pub use writer::{encrypt, Encryptor, Writer};
