//! Decrypts an age file from standard input to standard output: `decrypt PASSFILE <IN >OUT`.
//! Only status 0 means that the output is the complete plaintext.

use agefile::{Decryptor, Passphrase};
use std::error::Error;
use std::io::{self, Write};
use std::process::ExitCode;

fn decrypt() -> Result<(), Box<dyn Error>> {
    let name = std::env::args_os().nth(1).ok_or("usage: decrypt PASSFILE <IN >OUT")?;
    let mut pass = std::fs::read(name)?;
    if pass.last() == Some(&b'\n') {
        pass.pop();
    }
    let mut text = Decryptor::new(&[&Passphrase::new(pass)]).read(io::stdin().lock())?;
    let mut out = io::stdout().lock();
    io::copy(&mut text, &mut out)?;
    out.flush()?;
    Ok(())
}

fn main() -> ExitCode {
    match decrypt() {
        Ok(()) => ExitCode::SUCCESS,
        Err(error) => {
            eprintln!("decrypt: {error}");
            ExitCode::FAILURE
        }
    }
}
