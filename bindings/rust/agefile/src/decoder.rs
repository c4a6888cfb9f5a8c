//! Bytes as they arrive.

use crate::header::Front;
use crate::raw::{Key, RawDecoder};
use crate::{Fault, Identity};
use agefile_sys::AGEFILE_NO_MATCH;
use std::{fmt, io, mem};

/// Takes a file as it arrives, and gives its plaintext. It reads nothing by itself, and is `Send`:
/// so asynchronous programs need no thread for each file.
///
/// ```
/// # use agefile::{encrypt, Decoder, Passphrase};
/// # let key = Passphrase::new("correct horse").work(1);
/// # let file = encrypt(&[&key], b"a text of mine")?;
/// let mut decoder = Decoder::new(&[&key]);
/// let mut text = Vec::new();
/// for piece in file.chunks(50) {
///     decoder.update(piece, &mut text)?;
/// }
/// decoder.finish(&mut text)?; // the text is whole only if this succeeds
/// assert_eq!(text, b"a text of mine");
/// # Ok::<(), std::io::Error>(())
/// ```
#[must_use = "a text isn't whole until `finish` succeeded"]
pub struct Decoder<'a> {
    identities: Vec<&'a dyn Identity>,
    state: State,
}

enum State {
    Header(Front),
    Open(RawDecoder),
    Failed(Option<Fault>), // without a fault, an identity failed
}

impl<'a> Decoder<'a> {
    /// A decoder of a file that one of these opens.
    pub fn new(identities: &[&'a dyn Identity]) -> Decoder<'a> {
        let begun = Front::new().map_or_else(|it| State::Failed(Some(it)), State::Header);
        Decoder { identities: identities.to_vec(), state: begun }
    }

    /// Takes bytes of the file, and appends the plaintext that they complete. It fails with the
    /// [`Fault`] of the file, before which all plaintext was appended, or an error of an identity;
    /// then each later call fails, too. The call that completes the header takes the time of a
    /// passphrase.
    pub fn update(&mut self, file: &[u8], text: &mut Vec<u8>) -> io::Result<()> {
        let mut rest = file;
        if let State::Header(front) = &mut self.state {
            match front.take(file) {
                Ok(None) => return Ok(()),
                Ok(Some(left)) => rest = left,
                Err(fault) => self.state = State::Failed(Some(fault)),
            }
        }
        self.put(Some(rest), text)
    }

    /// Appends the rest of the plaintext, which is whole only if this succeeds: the file ended.
    pub fn finish(mut self, text: &mut Vec<u8>) -> io::Result<()> {
        self.put(None, text)
    }

    /// Opens the header, unless that was tried before, and gives what comes after it.
    pub(crate) fn put(&mut self, rest: Option<&[u8]>, text: &mut Vec<u8>) -> io::Result<()> {
        self.state = match mem::replace(&mut self.state, State::Failed(None)) {
            State::Header(front) => match opened(&self.identities, &front, text) {
                Ok(raw) => State::Open(raw),
                Err(error) => {
                    self.state = State::Failed(Fault::of(&error));
                    return Err(error);
                }
            },
            other => other,
        };
        match &mut self.state {
            State::Open(raw) => Ok(raw.put(rest, text)?),
            State::Failed(Some(fault)) => Err((*fault).into()),
            _ => Err(io::Error::other("the header wasn't opened, since an identity failed")),
        }
    }

    /// What decodes the rest of the file, if its header is open.
    pub(crate) fn take_open(&mut self) -> Option<RawDecoder> {
        match mem::replace(&mut self.state, State::Failed(None)) {
            State::Open(raw) if raw.payload_at() > 0 => Some(raw),
            other => {
                self.state = other;
                None
            }
        }
    }
}

impl fmt::Debug for Decoder<'_> {
    /// Shows no secret.
    fn fmt(&self, f: &mut fmt::Formatter<'_>) -> fmt::Result {
        f.debug_struct("Decoder").finish_non_exhaustive()
    }
}

/// Opens the header by the first of these that does, and decodes what came with it. (What is wrong
/// with that, each later call says.)
fn opened(ids: &[&dyn Identity], front: &Front, text: &mut Vec<u8>) -> io::Result<RawDecoder> {
    let header = front.header()?;
    let mut fault = Fault::new(AGEFILE_NO_MATCH, None);
    for it in ids {
        let file_key = it.unwrap_stanzas(&header.stanzas).transpose()?;
        let key = match (it.as_passphrase(), &file_key) {
            (Some(it), _) => it.to_read()?,
            (_, Some(it)) => Key::file_key(it, ""),
            _ => continue,
        };
        let mut raw = RawDecoder::new(key)?;
        match raw.put(Some(&front.bytes), text) {
            Err(it @ Fault::WrongKey { .. }) => fault = it,
            Err(it) if raw.payload_at() == 0 => return Err(it.into()),
            _ => return Ok(raw),
        }
    }
    Err(fault.into())
}

/// Returns the plaintext of a file: all of it, or the [`Fault`] of the file, or an error of an
/// identity.
pub fn decrypt(identities: &[&dyn Identity], file: &[u8]) -> io::Result<Vec<u8>> {
    // (a text is shorter than its file)
    let (mut decoder, mut text) = (Decoder::new(identities), Vec::with_capacity(file.len()));
    decoder.update(file, &mut text)?;
    decoder.finish(&mut text)?;
    Ok(text)
}
