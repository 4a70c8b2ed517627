//! What a program finds at its standard input.

use std::fs::File;
use std::io::{self, Write};
use std::os::fd::OwnedFd;
use std::os::unix::net::UnixDatagram;
use std::process::Stdio;

/// A standard input.
pub struct Input<'a> {
    /// Where the program reads.
    pub end: Stdio,
    /// Writes what it reads; fails once nobody reads any more.
    pub feed: Box<dyn FnOnce() -> io::Result<()> + Send + 'a>,
}

/// A file or a folder.
pub fn file(path: &str) -> Input<'static> {
    let file = File::open(path).unwrap_or_else(|error| panic!("{path}: {error}"));
    Input { end: file.into(), feed: Box::new(|| Ok(())) }
}

/// A pipe with the bytes.
pub fn pipe(bytes: &[u8]) -> Input<'_> {
    let (end, mut writer) = io::pipe().expect("a pipe can be made");
    Input { end: end.into(), feed: Box::new(move || writer.write_all(bytes)) }
}

/// Bytes that are cut into pieces of this size, of which each read gives just one. They are
/// messages, and an empty message is the end. A read that asks for less than a piece loses its
/// rest.
pub fn pieces(bytes: &[u8], size: usize) -> Input<'_> {
    pieces_of(bytes, &[], &[size])
}

/// The same with pieces of the first sizes, and then of the others in turn, over and over.
pub fn pieces_of<'a>(mut bytes: &'a [u8], first: &[usize], others: &[usize]) -> Input<'a> {
    let (end, writer) = UnixDatagram::pair().expect("sockets can be made");
    let mut messages = Vec::new();
    for &size in first.iter().chain(others.iter().cycle()) {
        // when all is sent: an empty message, the end
        let (message, rest) = bytes.split_at(size.min(bytes.len()));
        messages.push(message);
        bytes = rest;
        if message.is_empty() {
            break;
        }
    }
    let feed = move || messages.into_iter().try_for_each(|message| writer.send(message).map(drop));
    Input { end: OwnedFd::from(end).into(), feed: Box::new(feed) }
}
