//! Where a result goes: standard output, a device or pipe, or a file that is written whole or not at all.

use crate::call::Failure;
use crate::progress::Progress;
use std::fs::{self, File, OpenOptions};
use std::io::{self, IsTerminal, Write};
use std::os::unix::fs::{fchown, MetadataExt};
use std::path::{Path, PathBuf};
use std::process;

/// Bytes that are written before it is said how far the writing is.
const WRITE_STEP: usize = 1 << 20;

/// Links from name to name that are followed to a file that is not there yet.
const MOST_LINKS: usize = 40;

/// Where a result is to go.
pub enum Target {
    StandardOutput,
    File(PathBuf),
}

impl Target {
    /// Opens it; a file that is there is left as it is.
    pub fn open(&self) -> Result<Output, Failure> {
        let (name, opened) = match self {
            Self::StandardOutput => ("standard output".into(), Ok(Way::Standard(io::stdout()))),
            Self::File(path) => (path.display().to_string(), way_to(path)),
        };
        match opened {
            Ok(way) => Ok(Output { name, way }),
            Err(error) => Err(Failure::NotWritten(name, error)),
        }
    }
}

/// An open output, and its name.
pub struct Output {
    name: String,
    way: Way,
}

enum Way {
    Standard(io::Stdout),
    /// A device or a pipe.
    Direct(File),
    Whole(WholeFile),
}

impl Output {
    /// How far work is whose result goes here; not shown where the result itself is.
    pub fn progress(&self, what: &'static str, whole: u64) -> Progress {
        match &self.way {
            Way::Standard(stdout) if stdout.is_terminal() => Progress::hidden(),
            _ => Progress::new(what, whole),
        }
    }

    /// Writes these bytes behind the others.
    pub fn write_all(&mut self, bytes: &[u8]) -> Result<(), Failure> {
        let mut progress = self.progress("writing", bytes.len() as u64);
        let mut done = 0;
        for part in bytes.chunks(WRITE_STEP) {
            match &mut self.way {
                Way::Standard(stdout) => stdout.write_all(part),
                Way::Direct(file) => file.write_all(part),
                Way::Whole(whole) => whole.file.write_all(part),
            }
            .map_err(|error| Failure::NotWritten(self.name.clone(), error))?;
            done += part.len();
            progress.at(done as u64);
        }
        Ok(())
    }

    /// Puts what was written in its place.
    pub fn finish(self) -> Result<(), Failure> {
        match self.way {
            Way::Standard(mut stdout) => stdout.flush(),
            Way::Direct(mut file) => file.flush(),
            Way::Whole(whole) => whole.replace(),
        }
        .map_err(|error| Failure::NotWritten(self.name, error))
    }
}

/// A file that is written beside the one that it is to replace.
struct WholeFile {
    file: File,
    beside: PathBuf,
    path: PathBuf,
    is_in_place: bool,
}

impl WholeFile {
    /// Makes a file in the same folder, under a name that is not taken.
    fn beside(path: PathBuf) -> io::Result<Self> {
        let mut number = 0u32;
        loop {
            let beside = path.with_file_name(format!(".polvihe.{}.{number}.part", process::id()));
            match OpenOptions::new().write(true).create_new(true).open(&beside) {
                Ok(file) => return Ok(Self { file, beside, path, is_in_place: false }),
                Err(error) if error.kind() == io::ErrorKind::AlreadyExists => number += 1,
                Err(error) => return Err(error),
            }
        }
    }

    /// Puts the file, once it is on the disk, in the place of the other.
    fn replace(mut self) -> io::Result<()> {
        self.file.sync_all()?;
        fs::rename(&self.beside, &self.path)?;
        self.is_in_place = true;
        Ok(())
    }
}

impl Drop for WholeFile {
    fn drop(&mut self) {
        if !self.is_in_place {
            // Nothing else can be done about a file that cannot be removed.
            let _ = fs::remove_file(&self.beside);
        }
    }
}

fn way_to(path: &Path) -> io::Result<Way> {
    match fs::metadata(path) {
        Ok(there) if there.is_file() => {
            // A file that may not be written is not replaced either.
            OpenOptions::new().write(true).open(path)?;
            let whole = WholeFile::beside(fs::canonicalize(path)?)?;
            // Who may not give a file away keeps it.
            let _ = fchown(&whole.file, Some(there.uid()), Some(there.gid()));
            whole.file.set_permissions(there.permissions())?;
            Ok(Way::Whole(whole))
        }
        Ok(_) => Ok(Way::Direct(OpenOptions::new().write(true).open(path)?)),
        Err(error) if error.kind() == io::ErrorKind::NotFound => Ok(Way::Whole(WholeFile::beside(missing(path))?)),
        Err(error) => Err(error),
    }
}

/// Where a file that is not there is to be made: a symbolic link to it is followed.
fn missing(path: &Path) -> PathBuf {
    let mut path = path.to_path_buf();
    for _ in 0..MOST_LINKS {
        match (fs::read_link(&path), path.parent()) {
            (Ok(link), Some(folder)) => path = folder.join(link),
            _ => break,
        }
    }
    path
}

/// Prints a text on standard output.
pub fn print(text: &str) -> Result<(), Failure> {
    let mut output = Target::StandardOutput.open()?;
    output.write_all(text.as_bytes())?;
    output.finish()
}
