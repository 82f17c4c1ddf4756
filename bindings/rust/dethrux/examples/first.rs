//! Reads UTF-16 on standard input, in the byte order of its byte order mark, and writes its text.

use dethrux::{io::Reader, ByteOrder::BigEndian};
use std::io;

fn main() -> io::Result<()> {
    let mut text = Reader::with_bom(io::stdin().lock(), BigEndian)?;
    io::copy(&mut text, &mut io::stdout())?;
    Ok(())
}
