//! Encrypts or decrypts from standard input to standard output, as a server does with what it is sent:
//! `over-tokio encrypt|decrypt PASSFILE <IN >OUT`. Only status 0 means that the output is complete.

use agefile::{Decoder, Encryptor, Passphrase};
use std::io::{self, Write};
use tokio::io::{stdin, stdout, AsyncRead, AsyncReadExt, AsyncWrite, AsyncWriteExt};
use tokio::task::block_in_place;

async fn decrypt(
    key: &Passphrase,
    mut from: impl AsyncRead + Unpin,
    mut to: impl AsyncWrite + Unpin,
) -> io::Result<()> {
    let (mut piece, mut text) = (vec![0; 1 << 16], Vec::new());
    let mut decoder = Decoder::new(&[key]);
    loop {
        let n = from.read(&mut piece).await?;
        if n == 0 {
            break;
        }
        // (the call that completes the header takes the time of a passphrase)
        block_in_place(|| decoder.update(&piece[..n], &mut text))?;
        to.write_all(&text).await?;
        text.clear();
    }
    decoder.finish(&mut text)?; // the text is whole only if this succeeds
    to.write_all(&text).await?;
    to.flush().await
}

async fn encrypt(
    key: &Passphrase,
    mut from: impl AsyncRead + Unpin,
    mut to: impl AsyncWrite + Unpin,
) -> io::Result<()> {
    let mut piece = vec![0; 1 << 16];
    let mut file = block_in_place(|| Encryptor::new(&[key]).wrap(Vec::new()))?;
    loop {
        let n = from.read(&mut piece).await?;
        if n == 0 {
            break;
        }
        file.write_all(&piece[..n])?;
        to.write_all(file.get_ref()).await?;
        file.get_mut().clear();
    }
    to.write_all(&file.finish()?).await?; // without it every reader refuses the file
    to.flush().await
}

#[tokio::main]
async fn main() -> io::Result<()> {
    let words: Vec<String> = std::env::args().collect();
    let name = words
        .get(2)
        .ok_or_else(|| io::Error::other("usage: over-tokio encrypt|decrypt PASSFILE"))?;
    let key = Passphrase::new(std::fs::read_to_string(name)?.trim_end_matches('\n')).work(10);
    let done = match words[1].as_str() {
        "encrypt" => tokio::spawn(async move { encrypt(&key, stdin(), stdout()).await }),
        _ => tokio::spawn(async move { decrypt(&key, stdin(), stdout()).await }),
    };
    done.await.map_err(io::Error::other)?
}
