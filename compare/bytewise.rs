//! A program whose reads give one byte each.

use crate::examples::input;
use std::os::unix::io::OwnedFd;
use std::os::unix::net::UnixDatagram;
use std::process::{Child, Command};

/// The program, started with the other end of what it reads from. A socket for datagrams keeps
/// each of them apart: a read gives one of them, however fast they are sent.
fn started(program: &str, args: &[String]) -> std::io::Result<(Child, UnixDatagram)> {
    let (here, there) = UnixDatagram::pair()?;
    let child = Command::new(program)
        .args(args)
        .stdin(OwnedFd::from(there))
        .spawn()?;
    Ok((child, here))
}

/// Each byte by itself. An empty datagram is read as the end.
fn send_each(bytes: &[u8], to: &UnixDatagram) -> std::io::Result<()> {
    for byte in bytes {
        to.send(&[*byte])?;
    }
    to.send(&[]).map(|_| ())
}

/// Runs a program with the bytes of standard input, one at a time. True where it took all of them
/// and the end, and did not fail.
pub fn bytewise_command(args: &[String]) -> bool {
    let run = |program: &String, rest: &[String]| -> std::io::Result<bool> {
        let (mut child, to) = started(program, rest)?;
        let sent = send_each(&input(), &to);
        let ended = child.wait()?;
        sent.map(|_| ended.success())
    };
    match args.split_first().map(|(program, rest)| run(program, rest)) {
        Some(Ok(good)) => good,
        Some(Err(error)) => {
            eprintln!("bytewise: {}", error);
            false
        }
        None => false,
    }
}
