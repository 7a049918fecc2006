//! What a command is given: files to read and where its result goes.

use crate::output::{Output, Target};
use crate::progress::Progress;
use polvihe_hal::Refusal;
use std::fs::File;
use std::io::{self, Read};
use std::path::PathBuf;

/// Bytes that are read before it is said how far the reading is.
const READ_STEP: usize = 1 << 20;

/// Why a command did not do what it was asked.
#[derive(Debug)]
pub enum Failure {
    Refused(Refusal),
    WrongUse(String),
    /// What could not be read, and why.
    NotRead(String, io::Error),
    /// What could not be written, and why.
    NotWritten(String, io::Error),
}

impl From<Refusal> for Failure {
    fn from(refusal: Refusal) -> Self {
        Self::Refused(refusal)
    }
}

/// A command's files and its output.
pub struct Call {
    /// Standard input where a file has no name.
    pub files: Vec<Option<PathBuf>>,
    pub target: Target,
}

impl Call {
    /// The whole file with this number.
    pub fn read(&self, number: usize) -> Result<Vec<u8>, Failure> {
        match &self.files[number] {
            None => read_whole(io::stdin().lock(), 0).map_err(|error| ("standard input".into(), error)),
            Some(path) => File::open(path)
                .and_then(|file| {
                    let length = file.metadata()?.len();
                    read_whole(file, length)
                })
                .map_err(|error| (path.display().to_string(), error)),
        }
        .map_err(|(name, error)| Failure::NotRead(name, error))
    }

    /// Room for a result of this length.
    pub fn buffer(&self, length: usize) -> Result<Vec<u8>, Failure> {
        let mut buffer = Vec::new();
        match buffer.try_reserve_exact(length) {
            Ok(()) => {
                buffer.resize(length, 0);
                Ok(buffer)
            }
            Err(error) => Err(Failure::NotWritten("the result".into(), error.into())),
        }
    }

    /// Opens the output. What is written stands there once `Output::finish` has answered.
    pub fn output(&self) -> Result<Output, Failure> {
        self.target.open()
    }

    /// Writes the whole result.
    pub fn write(&self, bytes: &[u8]) -> Result<(), Failure> {
        let mut output = self.output()?;
        output.write_all(bytes)?;
        output.finish()
    }
}

/// Reads to the end. `length` is how much is expected, 0 where that is not known.
fn read_whole(mut source: impl Read, length: u64) -> io::Result<Vec<u8>> {
    let mut progress = Progress::new("reading", length);
    let mut bytes = Vec::new();
    bytes.try_reserve_exact(usize::try_from(length).unwrap_or(usize::MAX).saturating_add(READ_STEP))?;
    loop {
        if bytes.capacity() - bytes.len() < READ_STEP {
            bytes.try_reserve(READ_STEP)?;
        }
        if source.by_ref().take(READ_STEP as u64).read_to_end(&mut bytes)? == 0 {
            return Ok(bytes);
        }
        progress.at(bytes.len() as u64);
    }
}
