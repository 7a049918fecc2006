//! Reads a call script on standard input and prints its capture: the Rust's, with the script's times and what document 02 has otherwise.

use std::io::{self, Read, Write};

use oracle::captured::CaptureFile;

fn main() -> io::Result<()> {
    let mut script = String::new();
    io::stdin().lock().read_to_string(&mut script)?;
    let mut capture = CaptureFile::new()?;
    let expected = capture.of_script(&script)?;
    let cut = || io::Error::other("the Rust cuts a payload of this script");
    io::stdout().lock().write_all(&capture.bytes(&expected).ok_or_else(cut)?)
}
