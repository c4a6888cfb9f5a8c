//! The programs that users write first, each run. After `//` are the lines of each, and those of
//! the same in Go over age's own package (filippo.io/age 1.1.1), of which - has no way. (A member of
//! a zip needs a crate for archives, which takes a `Reader`, since that is `Seek`; those for
//! recipients and by identities are the first two, with keys as in `examples/age`.)

mod common;

use agefile::{decrypt, encrypt, inspect};
use agefile::{Decoder, Decryptor, Encryptor, Fault, Identity, Passphrase, Reader, Recipient};
use common::{text_of, CHUNK};
use std::io::{self, Cursor, Read, Seek, SeekFrom, Write};

// 5, 10
fn encrypt_stream(from: &mut impl Read, to: impl Write, key: &dyn Recipient) -> io::Result<()> {
    let mut file = Encryptor::new(&[key]).wrap(to)?;
    io::copy(from, &mut file)?;
    file.finish().map(drop)
}

// 3, 8
fn decrypt_stream(from: impl Read, to: &mut impl Write, key: &dyn Identity) -> io::Result<u64> {
    io::copy(&mut Decryptor::new(&[key]).read(from)?, to)
}

// 4, 18
fn in_memory(text: &[u8], key: &Passphrase) -> io::Result<Vec<u8>> {
    let file = encrypt(&[key], text)?;
    decrypt(&[key], &file)
}

// 7, 8
fn is_whole(file: impl Read, key: &dyn Identity) -> io::Result<bool> {
    match decrypt_stream(file, &mut io::sink(), key) {
        Err(error) if matches!(Fault::of(&error), Some(Fault::NotWhole { .. })) => Ok(false),
        Err(error) => Err(error),
        Ok(_) => Ok(true),
    }
}

// 10, 11
fn decrypt_pieces<'a>(
    pieces: impl Iterator<Item = &'a [u8]>,
    key: &dyn Identity,
) -> io::Result<Vec<u8>> {
    let (mut decoder, mut text) = (Decoder::new(&[key]), Vec::new());
    for piece in pieces {
        decoder.update(piece, &mut text)?;
    }
    decoder.finish(&mut text).map(|()| text)
}

// 9, -
fn resume(
    file: impl Read + Seek,
    to: &mut (impl Write + Seek),
    key: &Passphrase,
) -> io::Result<u64> {
    let mut text = Decryptor::new(&[key]).read(file)?;
    text.seek(SeekFrom::Start(to.seek(SeekFrom::End(0))?))?;
    io::copy(&mut text, to)
}

// 12, -
fn salvage(text: &mut Reader<impl Read + Seek>, to: &mut Vec<u8>) -> io::Result<Vec<u64>> {
    let (size, mut lost) = (text.size()?, Vec::new());
    for at in (0..size).step_by(CHUNK) {
        let mut chunk = vec![0; CHUNK.min((size - at) as usize)];
        text.seek(SeekFrom::Start(at))?;
        if text.read_exact(&mut chunk).is_err() {
            lost.push(at); // and zeros stand there
        }
        to.extend(chunk);
    }
    Ok(lost)
}

// 3, -
fn kinds_of_keys(file: impl Read) -> io::Result<Vec<String>> {
    Ok(inspect(file)?.stanzas.into_iter().map(|it| it.tag).collect())
}

#[test]
fn programs() -> io::Result<()> {
    let (key, text) = (Passphrase::new("correct horse").work(1), text_of(200_000));
    let (mut file, mut out) = (Vec::new(), Vec::new());
    encrypt_stream(&mut &text[..], &mut file, &key)?;
    decrypt_stream(&file[..], &mut out, &key)?;
    assert_eq!(out, text);
    assert_eq!(in_memory(&text, &key)?, text);
    assert_eq!(decrypt_pieces(file.chunks(1_000), &key)?, text);
    assert_eq!(kinds_of_keys(&file[..])?, ["scrypt"]);

    let mut stopped = Cursor::new(text[..70_000].to_vec());
    resume(Cursor::new(&file), &mut stopped, &key)?;
    assert_eq!(stopped.into_inner(), text);

    assert!(is_whole(&file[..], &key)?);
    let other = Passphrase::new("battery");
    assert!(Fault::of(&is_whole(&file[..], &other).unwrap_err()).is_some());
    let damaged = file.len() - 100_000;
    file[damaged] ^= 1;
    assert!(!is_whole(&file[..], &key)?);
    assert!(decrypt_pieces(file.chunks(1_000), &key).is_err());
    let mut saved = Vec::new();
    let mut reader = Decryptor::new(&[&key]).read(Cursor::new(&file))?;
    // (a seek to the first byte of a chunk opens the one before, too: so one after a damaged one is lost)
    let lost = [CHUNK as u64, 2 * CHUNK as u64];
    assert_eq!(salvage(&mut reader, &mut saved)?, lost);
    let (before, after) = (&text[..CHUNK], &text[3 * CHUNK..]);
    assert_eq!(saved, [before, &[0; 2 * CHUNK], after].concat());
    Ok(())
}
