//! Bytes as they arrive.

mod common;

use agefile::{Decoder, Identity, Passphrase};
use common::*;

#[test]
fn takes_any_pieces() {
    for len in LENGTHS {
        let (text, key) = (text_of(len), pw());
        let file = sealed(&text);
        for size in [1, 7, 1_000, CHUNK, BLOCK, 1 << 20] {
            if size == 1 && len > 70_000 {
                continue;
            }
            let (mut decoder, mut got) = (Decoder::new(&[&key]), Vec::new());
            for piece in file.chunks(size) {
                decoder.update(piece, &mut got).unwrap();
                decoder.update(&[], &mut got).unwrap();
                assert!(text.starts_with(&got));
            }
            // (all whole blocks have been given before the end)
            assert!(len - got.len() <= CHUNK);
            decoder.finish(&mut got).unwrap();
            assert!(got == text, "{len} in pieces of {size}");
        }
    }
}

/// What was put into the text before stays there.
#[test]
fn appends() {
    let (key, mut got) = (pw(), b"before ".to_vec());
    let mut decoder = Decoder::new(&[&key]);
    decoder.update(&sealed(b"a text"), &mut got).unwrap();
    decoder.finish(&mut got).unwrap();
    assert_eq!(got, b"before a text");
}

/// A file that was cut is whole for nobody, whatever came before.
#[test]
fn an_end_that_comes_early() {
    let (text, key) = (text_of(70_000), pw());
    let file = sealed(&text);
    let begin = payload_of(&file, text.len());
    for cut in (0..file.len()).filter(|it| *it < begin + 50 || it % 997 == 0) {
        let (mut decoder, mut got) = (Decoder::new(&[&key]), Vec::new());
        decoder.update(&file[..cut], &mut got).unwrap();
        assert!(decoder.finish(&mut got).is_err());
        assert!(got == text[..if cut < begin + BLOCK { 0 } else { CHUNK }], "{cut}");
    }
}

/// It can wait in one thread, and go on in another.
#[test]
fn is_send() {
    let (text, key) = (text_of(70_000), pw());
    let file = sealed(&text);
    let (mut decoder, mut got) = (Decoder::new(&[&key]), Vec::new());
    decoder.update(&file[..60], &mut got).unwrap();
    std::thread::scope(|scope| {
        scope.spawn(|| {
            decoder.update(&file[60..], &mut got).unwrap();
            decoder.finish(&mut got).unwrap();
        });
    });
    assert!(got == text);
}

/// Each passphrase is tried, and the last fault is said.
#[test]
fn tries_all_passphrases() {
    let file = sealed(b"a text");
    let keys: Vec<Passphrase> = ["one", "two", "pw"].into_iter().map(Passphrase::new).collect();
    let all: Vec<&dyn Identity> = keys.iter().map(|it| it as _).collect();
    assert_eq!(agefile::decrypt(&all, &file).unwrap(), b"a text");
    assert_eq!(number(agefile::decrypt(&all[..2], &file)), (13, None));
}

/// What comes with the header is a text, too, however long it is.
#[test]
fn takes_one_large_piece() {
    let (text, key) = (text_of(3_000_000), pw());
    assert!(agefile::decrypt(&[&key], &sealed(&text)).unwrap() == text);
}
