//! A reader.

use crate::raw::RawDecoder;
use crate::{Decoder, Fault, Identity};
use agefile_sys::{AGEFILE_BLOCK, AGEFILE_CHUNK, AGEFILE_TRUNCATED};
use std::io::{self, BufRead, ErrorKind, Read, Seek, SeekFrom};
use std::{fmt, mem};

pub(crate) const CHUNK: u64 = AGEFILE_CHUNK as u64;

/// Reads files that one of its identities opens.
pub struct Decryptor<'a>(Vec<&'a dyn Identity>);

impl<'a> Decryptor<'a> {
    /// A decryptor by these.
    pub fn new(identities: &[&'a dyn Identity]) -> Decryptor<'a> {
        Decryptor(identities.to_vec())
    }

    /// Opens the header, as soon as it is there, with the 16 bytes after it, or fails with its
    /// [`Fault`], or an error of the source or an identity. The age file begins at the source's
    /// position. (If a source that doesn't block fails before that, what was read is lost: give its
    /// bytes to a [`Decoder`].)
    pub fn read<R: Read>(&self, mut source: R) -> io::Result<Reader<R>> {
        let (mut piece, mut text, mut offset) = (vec![0; AGEFILE_BLOCK], Vec::new(), 0);
        let mut decoder = Decoder::new(&self.0);
        let raw = loop {
            let n = read_some(&mut source, &mut piece)?;
            offset += n as u64;
            let done = match n {
                0 => decoder.put(None, &mut text),
                _ => decoder.update(&piece[..n], &mut text),
            };
            match decoder.take_open() {
                Some(raw) => break raw, // (what is wrong after the header, it says again)
                None => done?,
            }
        };
        let (at, text_at, begin, state) = (0, 0, None, State::Reading);
        Ok(Reader { source, raw, piece, text, at, text_at, begin, offset, state })
    }
}

/// The plaintext of an age file: [`Read`] and [`BufRead`], and [`Seek`] if its source is.
///
/// ```
/// # use agefile::{encrypt, Decryptor, Passphrase};
/// # use std::io::{self, Cursor, Read, Seek, SeekFrom};
/// # let key = Passphrase::new("correct horse").work(1);
/// # let source = Cursor::new(encrypt(&[&key], b"a text of mine")?);
/// let mut file = Decryptor::new(&[&key]).read(source)?;
/// let mut end = String::new();
/// file.seek(SeekFrom::End(-4))?;
/// file.read_to_string(&mut end)?;
/// assert_eq!(end, "mine");
/// # Ok::<(), io::Error>(())
/// ```
///
/// A fault stays, until a seek. After an error of the source the next call goes on where that read
/// began.
pub struct Reader<R> {
    source: R,
    pub(crate) raw: RawDecoder,
    piece: Vec<u8>,
    text: Vec<u8>,      // what was decoded last
    at: usize,          // how much of it was returned
    text_at: u64,       // its place in the plaintext
    begin: Option<u64>, // where the age file begins in the source
    offset: u64,        // of the source in the age file
    state: State,
}

#[derive(Clone, Copy, Debug, PartialEq)]
enum State {
    Reading,
    Ended,
    Failed(Fault),
    Lost, // the source may be anywhere
}

impl<R> Reader<R> {
    /// The source.
    pub fn get_ref(&self) -> &R {
        &self.source
    }

    /// The source, of which more may have been read than was returned as plaintext.
    pub fn into_inner(self) -> R {
        self.source
    }

    fn place(&self) -> u64 {
        self.text_at + self.at as u64
    }

    /// Forgets what was decoded.
    fn forget(&mut self) {
        (self.text_at, self.at) = (self.place(), 0);
        self.text.clear();
    }
}

impl<R: Read> Reader<R> {
    /// Reads to the end of a block, or less if the source has less, and takes its plaintext.
    fn fill(&mut self) -> io::Result<()> {
        match self.state {
            State::Reading => {}
            State::Ended => return Ok(()),
            State::Failed(fault) => return Err(fault.into()),
            State::Lost => return Err(io::Error::other("a seek failed: seek again")),
        }
        let block = AGEFILE_BLOCK as u64;
        let most = block - (self.offset - self.raw.payload_at()) % block;
        let n = read_some(&mut self.source, &mut self.piece[..most as usize])?;
        self.offset += n as u64;
        self.forget();
        let done = match n {
            0 => self.raw.put(None, &mut self.text),
            _ => self.raw.put(Some(&self.piece[..n]), &mut self.text),
        };
        match done {
            Err(fault) => self.state = State::Failed(fault),
            Ok(()) if n == 0 => self.state = State::Ended,
            Ok(()) => {}
        }
        Ok(done?)
    }
}

impl<R: Read> BufRead for Reader<R> {
    fn fill_buf(&mut self) -> io::Result<&[u8]> {
        while self.at == self.text.len() && self.state != State::Ended {
            self.fill()?;
        }
        Ok(&self.text[self.at..])
    }

    fn consume(&mut self, amount: usize) {
        self.at = self.text.len().min(self.at.saturating_add(amount));
    }
}

impl<R: Read> Read for Reader<R> {
    fn read(&mut self, into: &mut [u8]) -> io::Result<usize> {
        if into.is_empty() {
            return Ok(0);
        }
        let n = self.fill_buf()?.read(into)?;
        self.consume(n);
        Ok(n)
    }
}

impl<R: Read + Seek> Reader<R> {
    /// Returns the length of the plaintext, which its last chunk proves, or the [`Fault`] of that, or
    /// an error of the source. The reader stays where it is.
    pub fn size(&mut self) -> io::Result<u64> {
        let begin = self.begin()?;
        let state = mem::replace(&mut self.state, State::Lost);
        let end = self.source.seek(SeekFrom::End(0)).map_err(of_source)?;
        let size = Blocks::new(&mut self.source, begin).size(&self.raw, end);
        self.source.seek(SeekFrom::Start(begin + self.offset)).map_err(of_source)?;
        self.state = state;
        size
    }

    /// Where the age file begins in the source.
    fn begin(&mut self) -> io::Result<u64> {
        if self.begin.is_none() {
            let at = self.source.stream_position().map_err(of_source)?;
            self.begin = at.checked_sub(self.offset);
        }
        self.begin.ok_or_else(|| io::Error::other("the source was moved"))
    }

    /// Goes to a place in the plaintext.
    fn go_to(&mut self, place: u64) -> io::Result<()> {
        let begin = self.begin()?;
        self.forget();
        self.state = State::Lost;
        let end = self.source.seek(SeekFrom::End(0)).map_err(of_source)?;
        let offset = self.raw.seek(place, end.saturating_sub(begin))?;
        self.source.seek(SeekFrom::Start(begin + offset)).map_err(of_source)?;
        (self.offset, self.text_at, self.state) = (offset, place, State::Reading);
        Ok(())
    }
}

/// A source in which an age file begins there, read by blocks.
pub(crate) struct Blocks<R> {
    source: R,
    begin: u64,
    block: Vec<u8>,
}

impl<R: Read + Seek> Blocks<R> {
    pub(crate) fn new(source: R, begin: u64) -> Blocks<R> {
        Blocks { source, begin, block: vec![0; AGEFILE_BLOCK] }
    }

    /// Puts the plaintext of a chunk into `text`. Returns whether it is the last one.
    pub(crate) fn open(
        &mut self,
        raw: &RawDecoder,
        chunk: u64,
        text: &mut Vec<u8>,
    ) -> io::Result<bool> {
        let at = self.begin + raw.payload_at() + chunk * AGEFILE_BLOCK as u64;
        self.source.seek(SeekFrom::Start(at)).map_err(of_source)?;
        let (mut have, mut n) = (0, 1);
        while n > 0 && have < AGEFILE_BLOCK {
            n = read_some(&mut self.source, &mut self.block[have..])?;
            have += n;
        }
        text.clear();
        Ok(raw.open_at(chunk, &self.block[..have], text)?)
    }

    /// The length of the plaintext of a file that ends there, whatever the source says of its own.
    fn size(&mut self, raw: &RawDecoder, end: u64) -> io::Result<u64> {
        let last = raw.size(end.saturating_sub(self.begin))?.saturating_sub(1) / CHUNK;
        let mut text = Vec::new();
        match self.open(raw, last, &mut text)? {
            true => Ok(last * CHUNK + text.len() as u64),
            false => Err(Fault::new(AGEFILE_TRUNCATED, Some(last + 1)).into()),
        }
    }
}

impl<R: Read + Seek> Seek for Reader<R> {
    /// Goes to a place in the plaintext. It reads nothing, but the last chunk to go to a place from
    /// the end. After the end there is nothing to read.
    fn seek(&mut self, to: SeekFrom) -> io::Result<u64> {
        let place = match to {
            SeekFrom::Start(place) => Some(place),
            SeekFrom::Current(by) => self.place().checked_add_signed(by),
            SeekFrom::End(by) => self.size()?.checked_add_signed(by),
        };
        let place =
            place.ok_or_else(|| io::Error::new(ErrorKind::InvalidInput, "negative place"))?;
        let held = place.checked_sub(self.text_at).filter(|it| *it <= self.text.len() as u64);
        match (self.state, held) {
            (State::Reading | State::Ended, Some(at)) => self.at = at as usize,
            _ => self.go_to(place)?,
        }
        Ok(place)
    }

    fn stream_position(&mut self) -> io::Result<u64> {
        Ok(self.place())
    }
}

impl<R> fmt::Debug for Reader<R> {
    /// Shows no key, and no plaintext.
    fn fmt(&self, f: &mut fmt::Formatter<'_>) -> fmt::Result {
        f.debug_struct("Reader")
            .field("place", &self.place())
            .field("state", &self.state)
            .finish_non_exhaustive()
    }
}

/// The error of a source as it is passed on: a source that was cut itself doesn't say so by the kind
/// that `read_exact` uses for the end of a file.
pub(crate) fn of_source(error: io::Error) -> io::Error {
    match error.kind() {
        ErrorKind::UnexpectedEof => io::Error::new(ErrorKind::InvalidData, error),
        _ => error,
    }
}

/// Reads some bytes, or none at the end.
pub(crate) fn read_some(file: &mut impl Read, room: &mut [u8]) -> io::Result<usize> {
    loop {
        match file.read(room) {
            Err(error) if error.kind() == ErrorKind::Interrupted => {}
            read => return read.map_err(of_source),
        }
    }
}
