//! What is wrong with a file, and how it is said.

mod common;

use agefile::{decrypt, encrypt, Decoder, Decryptor, Encryptor, Fault, FileKey, Passphrase};
use common::*;
use std::cell::Cell;
use std::error::Error;
use std::fmt;
use std::io::{self, Cursor, ErrorKind, Read, Seek, SeekFrom};

#[test]
fn says_what_is_wrong() {
    let (file, full) = (sealed(&text_of(70_000)), sealed(&text_of(65_536)));
    let begin = payload_of(&full, 65_536);
    let mut changed = file.clone();
    *changed.last_mut().unwrap() ^= 1;
    let other = Passphrase::new("other");
    for (what, file, key, want) in [
        ("another passphrase", &file[..], other, (13, None)),
        ("a cut header", &file[..50], pw(), (254, None)),
        ("a cut nonce", &file[..begin - 1], pw(), (254, None)),
        ("nothing", b"", pw(), (254, None)),
        ("no payload", &file[..begin], pw(), (20, Some(0))),
        ("a missing chunk", &file[..begin + BLOCK], pw(), (20, Some(1))),
        ("the first bytes of a chunk", &file[..begin + BLOCK + 9], pw(), (18, Some(1))),
        ("a changed byte", &changed, pw(), (17, Some(1))),
        ("no age file", b"x\n", pw(), (1, None)),
        ("something after it", &[&full[..], b"0"].concat(), pw(), (21, None)),
    ] {
        let error = text_in(file, &key).unwrap_err();
        assert_eq!(error.kind(), ErrorKind::InvalidData, "{what}");
        assert_eq!(number(Err::<(), _>(error)), want, "{what}");
        assert_eq!(number(decrypt(&[&key], file)), want, "{what}");
        let is_wrong_key = matches!(fault(decrypt(&[&key], file)), Fault::WrongKey { .. });
        assert_eq!(is_wrong_key, want.0 == 13, "{what}");
    }
    let file = encrypt(&[&Passphrase::new("pw").work(3)], b"text").unwrap();
    assert_eq!(fault(text_in(&file, &pw().max_work(2))), Fault::WorkTooHigh);
    // (another file's key isn't told from a header that was altered)
    let found = decrypt(&[&FileKey::new([0; 16])], &file);
    assert_eq!(fault(found), Fault::NotWhole { number: 14, chunk: None });
}

#[test]
fn says_what_it_means_first() {
    let file = sealed(&text_of(200_000));
    let said = |file: &[u8], key: &Passphrase| text_in(file, key).unwrap_err().to_string();
    assert_eq!(
        said(&file, &Passphrase::new("other")),
        "the passphrase or key doesn't open the file (13 WrongKey)"
    );
    assert_eq!(
        said(&file[..file.len() - 5], &pw()),
        "the file is damaged or was cut here, or something was appended (17 ChunkDamaged, chunk 3)"
    );
    assert_eq!(
        said(&file[..50], &pw()),
        "the file ends in its header or right after it, or isn't an age file (254 HeaderOrNonceCut)"
    );
}

/// Who looks for a file that isn't whole finds each: of the bits of a file, those of the passphrase's
/// stanza make it another passphrase's, or one that demands more work, and all others are found.
#[test]
fn every_bit_is_of_the_right_kind() {
    let key = pw().max_work(4);
    let file = encrypt(&[&key], &text_of(191 - sealed(b"").len())).unwrap();
    assert_eq!(file.len(), 191);
    let mut kinds = [0; 3];
    for bit in 0..1_528 {
        let mut file = file.clone();
        file[bit / 8] ^= 1 << (bit % 8);
        let found = fault(text_in(&file, &key));
        match found {
            Fault::NotWhole { .. } => kinds[0] += 1,
            Fault::WrongKey { .. } => kinds[1] += 1,
            Fault::WorkTooHigh => kinds[2] += 1,
            _ => panic!("bit {bit}: {found:?}"),
        }
        assert_eq!(fault(decrypt(&[&key], &file)), found);
    }
    assert!(kinds[0] > 1_000 && kinds[1] > 0, "{kinds:?}");
}

#[test]
fn refuses_every_cut() {
    let file = sealed(&text_of(70_000));
    for end in (0..file.len()).step_by(997).chain(file.len() - 3..file.len()) {
        assert!(text_in(&file[..end], &pw()).is_err(), "{end}");
        assert!(open(Cursor::new(&file[..end])).map_or(true, |mut it| it.size().is_err()), "{end}");
    }
}

/// All of the text before a damaged chunk is returned, and then the fault, which stays.
#[test]
fn returns_what_comes_before_a_fault() {
    let text = text_of(200_000);
    let mut file = sealed(&text);
    let begin = payload_of(&file, text.len());
    file[begin + 2 * BLOCK + 100] ^= 1;
    let mut reader = open(&file[..]).unwrap();
    let (mut got, mut into) = (Vec::new(), vec![0; 1 << 20]);
    let error = loop {
        match reader.read(&mut into) {
            Ok(n) => got.extend_from_slice(&into[..n]),
            Err(error) => break error,
        }
    };
    assert_eq!(number(Err::<(), _>(error)), (17, Some(2)));
    assert!(got == text[..131_072]);
    assert_eq!(number(reader.read(&mut into)), (17, Some(2)));

    let (key, mut got) = (pw(), Vec::new());
    let mut decoder = Decoder::new(&[&key]);
    assert_eq!(number(decoder.update(&file, &mut got)), (17, Some(2)));
    assert_eq!(number(decoder.update(&file, &mut got)), (17, Some(2)));
    assert_eq!(number(decoder.finish(&mut got)), (17, Some(2)));
    assert!(got == text[..131_072]);
}

/// What the arguments may be is said before anything is done.
#[test]
fn names_the_argument_that_is_wrong() {
    let (file, long) = (sealed(b"text"), vec![b'w'; 65_537]);
    let passphrase = "a passphrase must have 1 to 65,536 bytes";
    for (key, argument) in [
        (Passphrase::new(""), passphrase),
        (Passphrase::new(&long).max_work(0), passphrase),
        (Passphrase::new(&long[1..]).max_work(0), "max_work must be 1 to 22"),
        (pw().max_work(23), "max_work must be 1 to 22"),
    ] {
        see_argument(&text_in(&file, &key).unwrap_err(), argument);
        see_argument(&decrypt(&[&key], &file).unwrap_err(), argument);
    }
    for (key, argument) in [
        (Passphrase::new("").work(0), passphrase),
        (Passphrase::new(&long), passphrase),
        (Passphrase::new(&long[1..]).work(0), "work must be 1 to 22"),
        (pw().work(23), "work must be 1 to 22"),
    ] {
        see_argument(&encrypt(&[&key], b"text").unwrap_err(), argument);
        let mut out = Vec::new();
        see_argument(&Encryptor::new(&[&key]).wrap(&mut out).unwrap_err(), argument);
        assert!(out.is_empty());
    }
    see_argument(&encrypt(&[], b"text").unwrap_err(), "there must be a recipient");
    let both = encrypt(&[&pw(), &pw()], b"text").unwrap_err();
    see_argument(&both, "a passphrase must be the only recipient");
}

fn see_argument(error: &io::Error, argument: &'static str) {
    assert_eq!(Fault::of(error), Some(Fault::Misused { argument }));
    assert_eq!(error.to_string(), format!("{argument} (255 Misused)"));
    assert_eq!(error.kind(), ErrorKind::InvalidInput);
}

/// An error as a reader of archives makes it: it says what it did, and holds why that failed.
#[derive(Debug)]
struct Unpacking(io::Error);

impl fmt::Display for Unpacking {
    fn fmt(&self, f: &mut fmt::Formatter<'_>) -> fmt::Result {
        f.write_str("failed to unpack")
    }
}

impl Error for Unpacking {
    fn source(&self) -> Option<&(dyn Error + 'static)> {
        Some(&self.0)
    }
}

/// A fault is found inside other errors, and in others there is none.
#[test]
fn faults_inside_other_errors() {
    let file = sealed(&text_of(200_000));
    let fault = || decrypt(&[&pw()], &file[..150_000]).unwrap_err();
    let within = |it| io::Error::new(ErrorKind::InvalidData, Unpacking(it));
    for error in [fault(), io::Error::other(fault()), within(fault()), within(within(fault()))] {
        let want = Fault::NotWhole { number: 17, chunk: Some(2) };
        assert_eq!(Fault::of(&error), Some(want), "{error:?}");
        assert_eq!(Fault::of(&error).map(|it| it.name()), Some("ChunkDamaged"));
    }
    let reset = || io::Error::from(ErrorKind::ConnectionReset);
    for error in [reset(), io::Error::other("text"), io::Error::other(reset()), within(reset())] {
        assert_eq!(Fault::of(&error), None, "{error:?}");
    }
}

const LEN: usize = 200_000;

/// Reads records of 8 bytes by the loop that is usual in Rust, and returns how many there were.
fn records(mut text: impl Read) -> io::Result<usize> {
    let (mut count, mut record) = (0, [0; 8]);
    loop {
        match text.read_exact(&mut record) {
            Ok(()) => count += 1,
            Err(error) if error.kind() == ErrorKind::UnexpectedEof => return Ok(count),
            Err(error) => return Err(error),
        }
    }
}

/// A source of which there is so much now, and that may say of itself that it was cut off.
struct Source<'a> {
    data: &'a [u8],
    end: &'a Cell<usize>,
    at: usize,
    says_so: bool,
}

impl Read for Source<'_> {
    fn read(&mut self, room: &mut [u8]) -> io::Result<usize> {
        let end = self.end.get();
        match (&self.data[self.at.min(end)..end]).read(room)? {
            0 if self.says_so => Err(ErrorKind::UnexpectedEof.into()),
            n => {
                self.at += n;
                Ok(n)
            }
        }
    }
}

impl Seek for Source<'_> {
    fn seek(&mut self, to: SeekFrom) -> io::Result<u64> {
        let mut all = Cursor::new(&self.data[..self.end.get()]);
        all.set_position(self.at as u64);
        self.at = all.seek(to)? as usize;
        Ok(self.at as u64)
    }
}

/// Places in a file of `LEN` bytes: all in the header and around the ends of blocks, some others.
fn cut_places(file: &[u8]) -> impl Iterator<Item = usize> {
    let begin = payload_of(file, LEN);
    (0..file.len()).filter(move |cut| {
        let at = cut.wrapping_sub(begin) % BLOCK;
        *cut < begin || !(40..=65_500).contains(&at) || at % 997 == 0
    })
}

/// A text that is cut off is never taken for one that ended.
#[test]
fn cuts_are_no_ends() {
    let data = sealed(&text_of(LEN));
    assert_eq!(records(open(&data[..]).unwrap()).unwrap(), LEN / 8);
    for cut in cut_places(&data) {
        for says_so in [false, true] {
            let end = Cell::new(cut);
            let error = open(Source { data: &data, end: &end, at: 0, says_so })
                .and_then(records)
                .unwrap_err();
            assert_eq!(error.kind(), ErrorKind::InvalidData, "{cut}, {says_so}");
            let is_right = match Fault::of(&error) {
                Some(Fault::NotWhole { .. }) => !says_so,
                _ => says_so,
            };
            assert!(is_right, "{cut}: {error}");
        }
        // one that becomes shorter after it was opened, and read at any place
        let end = Cell::new(data.len());
        let mut reader = open(Source { data: &data, end: &end, at: 0, says_so: false }).unwrap();
        reader.seek(SeekFrom::Start(70_000)).unwrap();
        reader.rewind().unwrap();
        end.set(cut);
        assert_eq!(records(reader).unwrap_err().kind(), ErrorKind::InvalidData, "{cut}");
    }
}

/// A source whose connection is lost when it is sought in, which rustls, for one, calls that.
struct Lost<'a>(Cursor<&'a [u8]>, &'a Cell<usize>);

impl Read for Lost<'_> {
    fn read(&mut self, room: &mut [u8]) -> io::Result<usize> {
        self.0.read(room)
    }
}

impl Seek for Lost<'_> {
    fn seek(&mut self, to: SeekFrom) -> io::Result<u64> {
        let left = self.1.get().checked_sub(1).ok_or(ErrorKind::UnexpectedEof)?;
        self.1.set(left);
        self.0.seek(to)
    }
}

/// It is no end, and after it nothing is read before a seek that succeeds.
#[test]
fn lost_connections_are_no_ends() {
    let text = text_of(LEN);
    let file = sealed(&text);
    for seeks in 0..12 {
        let left = Cell::new(seeks);
        let key = pw();
        let mut reader = Decryptor::new(&[&key]).read(Lost(Cursor::new(&file), &left)).unwrap();
        reader.read_exact(&mut [0; 10]).unwrap();
        let error = loop {
            if let Err(error) = reader.seek(SeekFrom::End(-100)).and_then(|_| reader.rewind()) {
                break error;
            }
        };
        assert_eq!((error.kind(), Fault::of(&error)), (ErrorKind::InvalidData, None));
        let mut got = Vec::new();
        let place = reader.stream_position().unwrap() as usize;
        let done = reader.read_to_end(&mut got);
        assert!(text[place..].starts_with(&got) && (done.is_err() || got.len() == LEN - place));
        left.set(1_000);
        assert_eq!(reader.seek(SeekFrom::Start(99_999)).unwrap(), 99_999);
        assert!(read_all(reader).0 == text[99_999..]);
    }
}
