//! Recipients and identities: keys of age-keygen, whose stanzas are made and opened here, and others.

mod common;

use agefile::{decrypt, encrypt, inspect, Decoder, Decryptor, Encryptor, Fault};
use agefile::{FileKey, Identity, Passphrase, Recipient, Stanza};
use common::primitives::{base64, bech32, to_base64, unwrap, wrap, x25519};
use common::*;
use std::io::{self, Read, Write};
use std::process::{Command, Stdio};
use std::sync::Mutex;

const NINE: [u8; 32] = {
    let mut nine = [0; 32];
    nine[0] = 9;
    nine
};

/// A key of age-keygen.
struct Secret([u8; 32]);

/// Whom it reads for.
struct Public([u8; 32]);

fn salt(share: &[u8; 32], recipient: &[u8; 32]) -> [u8; 64] {
    std::array::from_fn(|at| if at < 32 { share[at] } else { recipient[at - 32] })
}

impl Identity for Secret {
    fn unwrap_stanza(&self, stanza: &Stanza) -> Option<io::Result<FileKey>> {
        let share = base64(stanza.args.first().filter(|_| stanza.tag == "X25519")?)?;
        let (secret, recipient) = (x25519(&self.0, &share), x25519(&self.0, &NINE));
        unwrap(&secret, &salt(&share, &recipient), &stanza.body).map(|it| Ok(FileKey::new(it)))
    }
}

impl Recipient for Public {
    fn wrap_file_key(&self, file_key: &FileKey) -> io::Result<Vec<Stanza>> {
        let mut ephemeral = [0; 32];
        std::fs::File::open("/dev/urandom")?.read_exact(&mut ephemeral)?;
        let (share, secret) = (x25519(&ephemeral, &NINE), x25519(&ephemeral, &self.0));
        let body = wrap(&secret, &salt(&share, &self.0), file_key.expose()).to_vec();
        Ok(vec![Stanza { tag: "X25519".into(), args: vec![to_base64(&share)], body }])
    }
}

/// What age made, beside this folder; nothing if it stands alone.
fn of_age(name: &str) -> Option<Vec<u8>> {
    std::fs::read(format!("{}/../../tests/age/{name}", env!("CARGO_MANIFEST_DIR"))).ok()
}

/// The key in a file of age-keygen, and the recipient that it names.
fn keys_of(name: &str) -> Option<(Secret, Public)> {
    let text = String::from_utf8(of_age(name)?).unwrap();
    let public = text.split("public key: ").nth(1).unwrap().lines().next().unwrap();
    let secret = text.lines().find(|it| it.starts_with("AGE-SECRET-KEY-1")).unwrap();
    Some((Secret(bech32(secret)), Public(bech32(public))))
}

#[test]
fn reads_files_for_keys() {
    let (Some((mine, _)), Some((others, _))) = (keys_of("key.txt"), keys_of("other.txt")) else {
        return; // this folder stands alone
    };
    let file = of_age("one.age").unwrap();
    let both = of_age("two.age").unwrap();
    assert_eq!(decrypt(&[&mine], &file).unwrap(), b"hello, recipient\n");
    assert_eq!(decrypt(&[&mine], &both).unwrap(), b"hello, both\n");
    assert_eq!(decrypt(&[&others], &both).unwrap(), b"hello, both\n");
    // whatever stands before it: one that doesn't fit, or a passphrase, which costs nothing here
    assert_eq!(decrypt(&[&others, &pw(), &mine], &file).unwrap(), b"hello, recipient\n");
    let secret = sealed(b"text");
    assert_eq!(decrypt(&[&mine, &Passphrase::new("x"), &pw()], &secret).unwrap(), b"text");
    let no_match = Fault::WrongKey { number: 12 };
    let nobody: [&[&dyn Identity]; 4] = [&[], &[&others], &[&pw()], &[&pw(), &others]];
    for identities in nobody {
        assert_eq!(fault(decrypt(identities, &file)), no_match);
    }
    assert_eq!(fault(decrypt(&[&mine], &of_age("passphrase.age").unwrap())), no_match);
    assert_eq!(number(decrypt(&[&mine], &file[..90])), (254, None));
    let mut text = String::new();
    Decryptor::new(&[&mine]).read(&file[..]).unwrap().read_to_string(&mut text).unwrap();
    assert_eq!(text, "hello, recipient\n");
}

/// What age decrypts of a file by key.txt, if it is installed.
fn by_age(file: &[u8]) -> Option<Vec<u8>> {
    let path = concat!(env!("CARGO_MANIFEST_DIR"), "/../../tests/age/key.txt");
    let mut age = Command::new("age")
        .args(["-d", "-i", path])
        .stdin(Stdio::piped())
        .stdout(Stdio::piped())
        .spawn()
        .ok()?;
    age.stdin.take().unwrap().write_all(file).unwrap();
    Some(age.wait_with_output().unwrap().stdout)
}

/// Files for one recipient and for two, which their keys open, here and in age.
#[test]
fn writes_files_for_recipients() {
    let (Some((mine, me)), Some((others, them))) = (keys_of("key.txt"), keys_of("other.txt"))
    else {
        return;
    };
    let file = encrypt(&[&me], b"a text").unwrap();
    assert_eq!(decrypt(&[&mine], &file).unwrap(), b"a text");
    assert_eq!(fault(decrypt(&[&others], &file)), Fault::WrongKey { number: 12 });
    let mut file = Encryptor::new(&[&them, &me]).wrap(Vec::new()).unwrap();
    file.write_all(b"a text").unwrap();
    let file = file.finish().unwrap();
    assert_eq!(decrypt(&[&mine], &file).unwrap(), b"a text");
    assert_eq!(decrypt(&[&others], &file).unwrap(), b"a text");
    assert!(by_age(&file).map_or(true, |it| it == b"a text"));
    let error = encrypt(&[&me, &pw()], b"a text").unwrap_err();
    assert_eq!(error.to_string(), "a passphrase must be the only recipient (255 Misused)");
}

/// A recipient that gives these stanzas, and remembers the file key.
struct Given(Vec<Stanza>, Mutex<Option<FileKey>>);

impl Given {
    fn new(tag: &str, args: &[&str], body: &[u8]) -> Given {
        let args = args.iter().map(|it| it.to_string()).collect();
        Given(vec![Stanza { tag: tag.into(), args, body: body.to_vec() }], Mutex::new(None))
    }
}

impl Recipient for Given {
    fn wrap_file_key(&self, file_key: &FileKey) -> io::Result<Vec<Stanza>> {
        *self.1.lock().unwrap() = Some(file_key.clone());
        Ok(self.0.clone())
    }
}

/// Stanzas stand in the header as they were given, with bodies of each length, and the file key that
/// a recipient was given opens the file, and no other one.
#[test]
fn stanzas_are_those_given() {
    let bodies: Vec<Vec<u8>> = (0..150).map(text_of).collect();
    let made: Vec<Given> = bodies.iter().map(|it| Given::new("a", &["bc", "!~"], it)).collect();
    let recipients: Vec<&dyn Recipient> = made.iter().map(|it| it as _).collect();
    let file = encrypt(&recipients, b"a text").unwrap();
    let want: Vec<Stanza> = made.iter().flat_map(|it| it.0.clone()).collect();
    let header = inspect(&file[..]).unwrap();
    assert_eq!((header.work, header.stanzas), (0, want));
    let key = made[0].1.lock().unwrap().take().unwrap();
    assert_eq!(decrypt(&[&key], &file).unwrap(), b"a text");
    let other = encrypt(&recipients, b"a text").unwrap();
    assert_eq!(number(decrypt(&[&key], &other)), (14, None));
    let first = std::str::from_utf8(&file[..44]).unwrap();
    assert_eq!(first, "age-encryption.org/v1\n-> a bc !~\n\n-> a bc !~");
}

#[test]
fn refuses_stanzas_that_no_header_has() {
    let words = "a stanza's type and arguments must be words of visible ASCII";
    for (tag, args) in
        [("", &[][..]), ("a b", &[]), ("a", &[""]), ("a", &["b\n-> c"]), ("a", &["\u{e4}"])]
    {
        let error = encrypt(&[&Given::new(tag, args, b"")], b"a text").unwrap_err();
        assert_eq!(Fault::of(&error), Some(Fault::Misused { argument: words }));
    }
    let two = Given::new("a", &[], b"");
    let found = encrypt(&[&Given::new("scrypt", &["b", "1"], b""), &two], b"a text");
    assert_eq!(number(found), (9, None));
    assert_eq!(number(encrypt(&[&Given(Vec::new(), Mutex::new(None))], b"a text")), (3, None));
}

/// A key in hardware that doesn't answer, and one in a vault that is closed.
struct Broken;

impl Identity for Broken {
    fn unwrap_stanza(&self, _: &Stanza) -> Option<io::Result<FileKey>> {
        Some(Err(io::Error::other("no token")))
    }
}

impl Recipient for Broken {
    fn wrap_file_key(&self, _: &FileKey) -> io::Result<Vec<Stanza>> {
        Err(io::Error::other("no vault"))
    }
}

/// An error of a key is passed on, and isn't a fault of the file. Nothing is written or read after it.
#[test]
fn errors_of_keys() {
    let file = sealed(b"a text");
    let error = decrypt(&[&Broken, &pw()], &file).unwrap_err();
    assert_eq!((Fault::of(&error), error.to_string().as_str()), (None, "no token"));
    let (mut decoder, mut text) = (Decoder::new(&[&Broken]), Vec::new());
    assert!(decoder.update(&file, &mut text).is_err());
    assert!(decoder.update(&file, &mut text).is_err() && text.is_empty());
    assert!(decoder.finish(&mut text).is_err());
    let mut out = Vec::new();
    let error = Encryptor::new(&[&Broken]).wrap(&mut out).unwrap_err();
    assert_eq!((error.to_string().as_str(), out.len()), ("no vault", 0));
}

/// A passphrase is a copy, so that its owner may overwrite his.
#[test]
fn passphrases_are_copies() {
    let mut bytes = b"pw".to_vec();
    let key = Passphrase::new(&bytes).work(1);
    bytes.fill(0);
    assert_eq!(decrypt(&[&pw()], &encrypt(&[&key], b"text").unwrap()).unwrap(), b"text");
    assert_eq!(decrypt(&[&key], &sealed(b"text")).unwrap(), b"text");
}

/// What a file demands is what was asked for, and 18 if nothing was.
#[test]
fn work_factors() {
    for work in [1, 9, 12] {
        let file = encrypt(&[&Passphrase::new("pw").work(work)], b"text").unwrap();
        assert_eq!(inspect(&file[..]).unwrap().work, work);
        assert_eq!(decrypt(&[&pw().max_work(work)], &file).unwrap(), b"text");
        if work > 1 {
            let found = decrypt(&[&pw().max_work(work - 1)], &file);
            assert_eq!(fault(found), Fault::WorkTooHigh);
        }
    }
    let file = encrypt(&[&Passphrase::new("pw")], b"text").unwrap();
    assert_eq!(inspect(&file[..]).unwrap().work, 18);
}
