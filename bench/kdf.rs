//! Uses: age_kdf sha2
//!
//! HMAC over 1 MiB, compared with SHA-256 alone over these bytes.
#![tactic(auto)]

use sha2::{Digest, Sha256};
use std::io;
use std::rt::Clock;
use std::time::Instant;

const SIZE: usize = 1_048_576;

fn nanoseconds(rt: &impl Clock, start: Instant) -> io::Result<u64> {
    Ok(u64::try_from(start.elapsed(rt)?.as_nanos()).unwrap_or(u64::MAX))
}

fn main(rt: HostRuntime) -> io::Result<()> {
    let message = vec![in rt.alloc(); 7u8; SIZE]?;
    let mut digest = u64::MAX;
    let mut code = u64::MAX;
    let mut seen = 0u8;
    for _turn in 0..40u32 {
        let start = Instant::now(&rt)?;
        seen ^= Sha256::digest(&message[..])[0];
        digest = digest.min(nanoseconds(&rt, start)?);
        let start = Instant::now(&rt)?;
        seen ^= age_kdf::hmac(b"key", &[&message[..]])[0];
        code = code.min(nanoseconds(&rt, start)?);
    }
    println!(rt; "SHA-256 of 1 MiB\t{digest}\t{SIZE}")?;
    println!(rt; "HMAC of 1 MiB\t{code}\t{SIZE}")?;
    println!(rt; "{seen}")
}
