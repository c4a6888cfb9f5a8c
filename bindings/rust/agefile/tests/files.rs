//! Readers and writers over files in memory, and a file that age 1.1.1 made.

mod common;

use agefile::{decrypt, encrypt, inspect, Decryptor, Encryptor, Fault, Passphrase};
use common::*;
use std::io::{self, BufRead, Cursor, ErrorKind, Read, Write};

#[test]
fn reads_what_it_writes() {
    for len in LENGTHS {
        let text = text_of(len);
        let mut writer = Encryptor::new(&[&pw()]).wrap(Vec::new()).unwrap();
        for piece in text.chunks(9_999) {
            writer.write_all(piece).unwrap();
        }
        for file in [writer.finish().unwrap(), encrypt(&[&pw()], &text).unwrap()] {
            assert_eq!(text_in(&file, &pw()).unwrap(), text);
            assert_eq!(decrypt(&[&pw()], &file).unwrap(), text);
        }
    }
}

#[test]
fn reads_a_file_of_age() {
    let path = concat!(env!("CARGO_MANIFEST_DIR"), "/../../tests/age/passphrase.age");
    let Ok(file) = std::fs::read(path) else {
        return; // this folder stands alone
    };
    let key = Passphrase::new(b"correct horse");
    assert_eq!(text_in(&file, &key).unwrap(), b"hello, passphrase\n");
}

#[test]
fn says_what_a_header_says() {
    let file = sealed(b"a text");
    let header = inspect(&file[..]).unwrap();
    assert_eq!((header.work, header.stanzas.len()), (1, 1));
    let stanza = &header.stanzas[0];
    assert_eq!((stanza.tag.as_str(), stanza.args[1].as_str()), ("scrypt", "1"));
    assert_eq!((stanza.args.len(), stanza.body.len()), (2, 32));

    let end = format!("--- {}\n", "A".repeat(43));
    let of = |count| format!("age-encryption.org/v1\n{}{end}", "-> a bc !~\nAQID\n".repeat(count));
    let file = of(300);
    // (the source gives a byte at a time, and no nonce follows)
    let header = inspect(Pieces(file.as_bytes(), 1, false)).unwrap();
    assert_eq!((header.len, header.work), (file.len(), 0));
    assert_eq!(header.stanzas.len(), 300);
    let stanza = &header.stanzas[299];
    assert_eq!((stanza.tag.as_str(), &stanza.body[..]), ("a", &[1, 2, 3][..]));
    assert_eq!(stanza.args, ["bc", "!~"]);
    // (it says so of headers, too, that no key opens)
    let alone = of(1).replace("-> a bc", "-> scrypt bc");
    assert_eq!(inspect(alone.as_bytes()).unwrap().stanzas[0].tag, "scrypt");

    let of_text = |file: &str| number(inspect(file.as_bytes())).0;
    assert_eq!(of_text(&file[..file.len() - 1]), 254);
    assert_eq!(of_text(&of(0)), 6);
    assert_eq!(of_text("not age\n"), 1);
    // (each stanza by reading the whole header would take minutes)
    let begin = std::time::Instant::now();
    assert_eq!(inspect(of(20_000).as_bytes()).unwrap().stanzas.len(), 20_000);
    assert!(begin.elapsed().as_secs() < 20);
}

#[test]
fn reads_lines() {
    let file = sealed(b"one\ntwo\n");
    let lines: Vec<_> = open(&file[..]).unwrap().lines().map(Result::unwrap).collect();
    assert_eq!(lines, ["one", "two"]);
}

/// Gives one piece a read, and fails each third time.
struct Stumbling<R>(R, u32);

impl<R: Read> Read for Stumbling<R> {
    fn read(&mut self, into: &mut [u8]) -> io::Result<usize> {
        self.1 = (self.1 + 1) % 3;
        if self.1 == 0 {
            return Err(io::Error::from(ErrorKind::TimedOut));
        }
        let most = into.len().min(30_000);
        self.0.read(&mut into[..most])
    }
}

#[test]
fn reads_on_after_a_failed_read() {
    let text = text_of(200_000);
    let file = sealed(&text);
    let mut reader = open(Stumbling(&file[..], 0)).unwrap();
    let (mut got, mut into, mut failed) = (Vec::new(), [0; 50_000], 0);
    loop {
        match reader.read(&mut into) {
            Ok(0) => break,
            Ok(n) => got.extend_from_slice(&into[..n]),
            Err(error) => {
                assert_eq!(error.kind(), ErrorKind::TimedOut);
                failed += 1;
            }
        }
    }
    assert!(got == text && failed > 0);
}

/// A sender that has sent a header, and must not be asked for more.
struct Silent<'a>(&'a [u8]);

impl Read for Silent<'_> {
    fn read(&mut self, into: &mut [u8]) -> io::Result<usize> {
        assert!(!self.0.is_empty(), "more is asked for");
        self.0.read(into)
    }
}

#[test]
fn answers_a_header_that_is_there() {
    let file = sealed(b"text");
    assert!(open(Silent(&file[..file.len() - 3])).is_ok());
    let other = Passphrase::new("other");
    let found = Decryptor::new(&[&other]).read(Silent(&file));
    assert_eq!(fault(found), Fault::WrongKey { number: 13 });
    assert_eq!(number(open(Silent(b"no age file\n"))).0, 1);
}

/// A try takes some milliseconds: one at each piece would take minutes.
#[test]
fn tries_a_slow_header_rarely() {
    let file = sealed(b"");
    let at = file.iter().position(|&it| it == b'\n').unwrap() + 1;
    let stanzas = b"-> --- ---\nAAAA\n".repeat(50_000);
    let long = [&file[..at], &stanzas, &file[at..]].concat();
    let begun = std::time::Instant::now();
    assert_eq!(number(open(Pieces(&long[..], 10, false))).0, 9);
    let endless = [&file[..at], &b"-> a\n"[..], &vec![b'A'; 2_000_000]].concat();
    assert!(matches!(number(open(Pieces(&endless[..], 10, false))).0, 4 | 7));
    assert!(begun.elapsed().as_secs() < 60);
}

#[test]
fn reads_in_threads() {
    fn is_send<T: Send>(it: T) -> T {
        it
    }
    let text = text_of(200_000);
    let file = sealed(&text);
    std::thread::scope(|scope| {
        for _ in 0..4 {
            let reader = is_send(open(&file[..]).unwrap());
            let text = &text;
            scope.spawn(move || assert!(read_all(reader).0 == *text));
        }
    });
    is_send(Encryptor::new(&[&pw()]).wrap(Vec::new()).unwrap()).finish().map(drop).unwrap();
}

/// What is written to fails after some bytes.
struct Full(usize);

impl Write for Full {
    fn write(&mut self, bytes: &[u8]) -> io::Result<usize> {
        let n = bytes.len().min(self.0);
        self.0 -= n;
        Ok(n)
    }

    fn flush(&mut self) -> io::Result<()> {
        Ok(())
    }
}

#[test]
fn a_file_that_failed_is_not_finished() {
    let mut writer = Encryptor::new(&[&pw()]).wrap(Full(70_000)).unwrap();
    assert_eq!(writer.write_all(&text_of(200_000)).unwrap_err().kind(), ErrorKind::WriteZero);
    for later in [writer.write_all(b"x"), writer.flush(), writer.finish().map(|_| ())] {
        let error = later.unwrap_err();
        assert_eq!(error.kind(), ErrorKind::WriteZero);
        let cause = "because an earlier call failed: failed to write whole buffer";
        assert!(error.to_string().ends_with(cause), "{error}");
    }
    assert!(Encryptor::new(&[&pw()]).wrap(Full(10)).is_err());
}

/// What is written to would block, and then takes everything.
struct Blocking(bool);

impl Write for Blocking {
    fn write(&mut self, bytes: &[u8]) -> io::Result<usize> {
        if std::mem::take(&mut self.0) && bytes.len() > 1_000 {
            return Err(io::Error::new(ErrorKind::WouldBlock, "not now"));
        }
        self.0 = true;
        Ok(bytes.len())
    }

    fn flush(&mut self) -> io::Result<()> {
        Ok(())
    }
}

/// Who tries again what would block isn't told to try again for ever.
#[test]
fn a_block_that_is_lost_stays_lost() {
    let mut writer = Encryptor::new(&[&pw()]).wrap(Blocking(true)).unwrap();
    let error = writer.write_all(&text_of(200_000)).unwrap_err();
    assert_eq!(error.kind(), ErrorKind::WouldBlock);
    let error = writer.write_all(b"x").unwrap_err();
    assert_eq!(error.kind(), ErrorKind::Other);
    assert!(error.to_string().ends_with(": not now"), "{error}");
}

/// What is written to panics, and is used all the same.
struct Panicking;

impl Write for Panicking {
    fn write(&mut self, bytes: &[u8]) -> io::Result<usize> {
        assert!(bytes.len() < 1_000, "a block");
        Ok(bytes.len())
    }

    fn flush(&mut self) -> io::Result<()> {
        Ok(())
    }
}

#[test]
fn a_file_that_panicked_is_not_finished() {
    let mut writer = Encryptor::new(&[&pw()]).wrap(Panicking).unwrap();
    let write = std::panic::AssertUnwindSafe(|| writer.write_all(&text_of(200_000)));
    assert!(std::panic::catch_unwind(write).is_err());
    assert!(writer.write_all(b"x").is_err() && writer.finish().is_err());
}

#[test]
fn shows_no_key_and_no_text() {
    let file = sealed(b"horse");
    let pass = Passphrase::new("pw-horse").work(1);
    let mut writer = Encryptor::new(&[&pass]).wrap(io::sink()).unwrap();
    writer.write_all(b"horse").unwrap();
    let mut reader = open(&file[..]).unwrap();
    reader.fill_buf().unwrap();
    let shown = format!("{writer:?} {reader:?} {pass:?} {:?}", agefile::FileKey::new([7; 16]));
    for bytes in [&b"horse"[..], b"pw-horse", &[7; 16]] {
        let numbers = format!("{bytes:?}");
        assert!(!shown.contains("horse") && !shown.contains(numbers.trim_matches(['[', ']'])));
    }
    assert!(shown.contains("Passphrase") && shown.contains("FileKey"), "{shown}");
}

#[test]
fn gives_back_what_it_was_given() {
    let text = text_of(70_000);
    let mut writer = Encryptor::new(&[&pw()]).wrap(Vec::new()).unwrap();
    writer.write_all(&text).unwrap();
    assert!(writer.get_ref().len() > BLOCK);
    assert_eq!(number(text_in(&writer.into_inner(), &pw())), (20, Some(1)));

    let file = sealed(&text);
    let mut reader = open(Cursor::new(&file)).unwrap();
    reader.read_exact(&mut [0; 10]).unwrap();
    assert!(reader.get_ref().position() > 0);
    assert_eq!(reader.into_inner().into_inner(), &file);
}

/// What a writer into memory has may be taken from it, as it comes.
#[test]
fn takes_a_file_as_it_comes() {
    let (text, mut file) = (text_of(200_000), Vec::new());
    let mut writer = Encryptor::new(&[&pw()]).wrap(Vec::new()).unwrap();
    for piece in text.chunks(70_000) {
        writer.write_all(piece).unwrap();
        file.append(writer.get_mut());
    }
    file.append(&mut writer.finish().unwrap());
    assert_eq!(decrypt(&[&pw()], &file).unwrap(), text);
}

/// Of a text that was given up nothing is in the next file, for whomever that is.
#[test]
fn nothing_is_left_of_a_file_that_was_given_up() {
    let other = Passphrase::new("other").work(1);
    for _ in 0..100 {
        let mut given_up = Encryptor::new(&[&pw()]).wrap(Vec::new()).unwrap();
        given_up.write_all(b"SECRET OF A").unwrap();
        drop(given_up);
        let mut next = Encryptor::new(&[&other]).wrap(Vec::new()).unwrap();
        next.write_all(b"hello bob").unwrap();
        assert_eq!(decrypt(&[&other], &next.finish().unwrap()).unwrap(), b"hello bob");
    }
}
