//! Requests and replies with their length words.

use model::wire::LONGEST;
use std::fs::File;
use std::io::{self, BufReader, Read, Write};

pub fn write_frame(to: &mut impl Write, body: &[u8]) -> io::Result<()> {
    let length = u32::try_from(body.len()).map_err(io::Error::other)?;
    to.write_all(&length.to_le_bytes())?;
    to.write_all(body)
}

/// Reads the next body, or answers false where the stream has ended. Of a body longer than the
/// driver's buffer one byte more than the buffer is kept.
pub fn read_frame(from: &mut impl Read, body: &mut Vec<u8>) -> io::Result<bool> {
    let mut length = [0; 4];
    let mut got = 0;
    while got < length.len() {
        match from.read(&mut length[got..])? {
            0 if got == 0 => return Ok(false),
            0 => return Err(io::ErrorKind::UnexpectedEof.into()),
            more => got += more,
        }
    }
    let length = u32::from_le_bytes(length) as usize;
    body.resize(length.min(LONGEST + 1), 0);
    from.read_exact(body)?;
    let rest = (length - body.len()) as u64;
    let skipped = io::copy(&mut from.take(rest), &mut io::sink())?;
    if skipped < rest {
        return Err(io::ErrorKind::UnexpectedEof.into());
    }
    Ok(true)
}

/// The bodies of a stored file.
pub fn read_frames(path: &str) -> io::Result<Vec<Vec<u8>>> {
    let mut from = BufReader::new(File::open(path)?);
    let (mut bodies, mut body) = (Vec::new(), Vec::new());
    while read_frame(&mut from, &mut body)? {
        bodies.push(body.clone());
    }
    Ok(bodies)
}
