//! What is written if the system gives no random bytes.

mod common;

use agefile::{encrypt, Encryptor, Fault, FileKey, Recipient, Stanza};
use common::*;
use std::io::{self, ErrorKind};
use std::sync::atomic::{AtomicBool, Ordering};

static FAILS: AtomicBool = AtomicBool::new(false);

/// In the place of the system's: it gives the same bytes each time, or none.
#[no_mangle]
unsafe extern "C" fn getrandom(into: *mut u8, len: usize, _: u32) -> isize {
    if FAILS.load(Ordering::Relaxed) {
        return -1;
    }
    into.write_bytes(7, len);
    len as isize
}

struct Anybody;

impl Recipient for Anybody {
    fn wrap_file_key(&self, file_key: &FileKey) -> io::Result<Vec<Stanza>> {
        assert_eq!(file_key.expose(), &[7; 16]);
        Ok(vec![Stanza { tag: "a".into(), args: Vec::new(), body: Vec::new() }])
    }
}

/// Without random bytes no file is begun, and the error says what failed.
#[test]
fn without_random_bytes() {
    assert!(encrypt(&[&Anybody], b"text").is_ok());
    FAILS.store(true, Ordering::Relaxed);
    let (key, mut out) = (pw(), Vec::new());
    for recipient in [&key as &dyn Recipient, &Anybody] {
        let error = Encryptor::new(&[recipient]).wrap(&mut out).unwrap_err();
        assert_eq!(Fault::of(&error), Some(Fault::System { number: 26 }));
        assert_eq!(error.kind(), ErrorKind::Other);
        assert_eq!(error.to_string(), "the system gave no random bytes (26 NoRandom)");
    }
    assert!(out.is_empty());
}
