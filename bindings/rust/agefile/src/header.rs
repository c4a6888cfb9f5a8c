//! What a header says, before it is opened.

use crate::raw::{Key, RawDecoder};
use crate::reader::read_some;
use crate::{Fault, FileKey};
use agefile_sys::*;
use std::io::{self, Read};

/// What one recipient, or a passphrase, finds the file key in.
#[derive(Clone, Debug, PartialEq, Eq)]
pub struct Stanza {
    /// Its type, as `X25519`.
    pub tag: String,
    /// Its arguments, without the type.
    pub args: Vec<String>,
    /// Its body.
    pub body: Vec<u8>,
}

impl Stanza {
    /// The stanza at this place.
    fn at(it: &agefile_stanza, file: &[u8], bodies: &[u8]) -> Stanza {
        let line = String::from_utf8_lossy(&file[it.args_at..it.args_at + it.args_len]);
        let mut words = line.split(' ').map(String::from);
        Stanza {
            tag: words.next().unwrap_or_default(),
            args: words.collect(),
            body: bodies[it.body_at..it.body_at + it.body_len].to_vec(),
        }
    }

    /// Appends its lines, as they stand in a header. The last line of the body has less than 64
    /// characters, and may have none.
    pub(crate) fn write_to(&self, lines: &mut String) -> Result<(), Fault> {
        let words = || std::iter::once(&self.tag).chain(&self.args);
        if !words().all(|it| !it.is_empty() && it.bytes().all(|it| it.is_ascii_graphic())) {
            let argument = "a stanza's type and arguments must be words of visible ASCII";
            return Err(Fault::Misused { argument });
        }
        lines.push_str("->");
        words().for_each(|it| lines.extend([" ", it]));
        for part in self.body.chunks(48) {
            lines.push('\n');
            lines.extend((0..(8 * part.len()).div_ceil(6)).map(|at| letter(part, at)));
        }
        lines.push_str(if self.body.len() % 48 == 0 { "\n\n" } else { "\n" });
        Ok(())
    }
}

/// A letter of the base64 of some bytes.
fn letter(bytes: &[u8], at: usize) -> char {
    const LETTERS: &[u8] = b"ABCDEFGHIJKLMNOPQRSTUVWXYZabcdefghijklmnopqrstuvwxyz0123456789+/";
    let bit = |at: usize| bytes.get(at / 8).map_or(0, |it| usize::from(*it) >> (7 - at % 8) & 1);
    LETTERS[(0..6).fold(0, |sum, it| sum << 1 | bit(6 * at + it))].into()
}

/// What the header of a file says, before anything is opened. Nobody has confirmed it: whoever can
/// change the file can change it.
#[derive(Clone, Debug, PartialEq, Eq)]
#[non_exhaustive]
pub struct Header {
    /// How many bytes it has.
    pub len: usize,
    /// The work factor that it demands of a passphrase; 0 if no passphrase opens the file.
    pub work: u32,
    /// Its stanzas, of which a hostile header has up to 174,000.
    pub stanzas: Vec<Stanza>,
}

/// Reads the header of a file, and returns what it says, or the [`Fault`] of a header. More of the
/// file may have been read.
///
/// ```
/// # use agefile::{encrypt, inspect, Passphrase};
/// # let file = encrypt(&[&Passphrase::new("correct horse").work(9)], b"text")?;
/// let header = inspect(&file[..])?;
/// assert_eq!((header.work, &header.stanzas[0].tag[..]), (9, "scrypt"));
/// # Ok::<(), std::io::Error>(())
/// ```
pub fn inspect(mut file: impl Read) -> io::Result<Header> {
    let (mut front, mut piece) = (Front::new()?, vec![0; AGEFILE_CHUNK]);
    loop {
        let n = read_some(&mut file, &mut piece)?;
        if n == 0 || !matches!(front.take(&piece[..n]), Ok(None)) {
            return Ok(front.header()?);
        }
    }
}

/// No header is longer, with the nonce after it.
const FRONT_MAX: usize = 1_048_592;

/// The bytes of a file until it has its header.
pub(crate) struct Front {
    pub(crate) bytes: Vec<u8>,
    probe: RawDecoder, // by a key that isn't the file's: it refuses that once the header is whole
}

impl Front {
    pub(crate) fn new() -> Result<Front, Fault> {
        let probe = RawDecoder::new(Key::file_key(&FileKey::new([0; 16]), ""))?;
        Ok(Front { bytes: Vec::new(), probe })
    }

    /// Takes bytes of the file. Returns those that are left of them once the header is whole, with
    /// the nonce after it.
    pub(crate) fn take<'a>(&mut self, piece: &'a [u8]) -> Result<Option<&'a [u8]>, Fault> {
        let (held, rest) = piece.split_at(piece.len().min(FRONT_MAX));
        self.bytes.extend_from_slice(held);
        match self.probe.put(Some(held), &mut Vec::new()) {
            Err(it) if it.number() != AGEFILE_MAC_MISMATCH => Err(it),
            Ok(()) if self.probe.payload_at() == 0 => Ok(None),
            _ => Ok(Some(rest)),
        }
    }

    /// What the header says.
    pub(crate) fn header(&self) -> Result<Header, Fault> {
        let (file, mut bodies) = (self.bytes.as_ptr().cast(), Vec::<u8>::new());
        let (mut len, mut count, mut work, mut written) = (0, 0, 0, 0);
        let mut places = Vec::new();
        // SAFETY: there are as many bytes and places as it says, and nothing overlaps.
        unsafe {
            let answer = agefile_header(file, self.bytes.len(), &mut len, &mut count, &mut work);
            Fault::see(answer, None)?;
            places.resize(count, agefile_stanza::default());
            bodies.resize(len, 0);
            let (to, out) = (places.as_mut_ptr(), bodies.as_mut_ptr().cast());
            let most = count;
            let answer = agefile_stanzas(file, len, to, most, &mut count, out, len, &mut written);
            Fault::see(answer, None)?;
        }
        let stanzas = places.iter().map(|it| Stanza::at(it, &self.bytes, &bodies)).collect();
        Ok(Header { len, work, stanzas })
    }
}
