//! Files read and written. A dash stands for standard input and output.

use crate::outcome::Failure;
use std::fs::{self, File};
use std::io::{self, Read, Write};
use std::path::Path;

pub const STANDARD: &str = "-";

/// No plan and no evidence is longer; what is may never end.
const MOST_BYTES: u64 = 1 << 28;

pub fn read(file: &str) -> Result<Vec<u8>, Failure> {
    let content = match file {
        STANDARD => all_of(io::stdin().lock()),
        file => File::open(file).and_then(all_of),
    };
    let content = content.map_err(|error| failed(file, &error))?;
    if content.len() as u64 > MOST_BYTES {
        let words = format!("{file}: longer than {MOST_BYTES} bytes, so no plan or evidence\n");
        return Err(Failure::failed(words));
    }
    Ok(content)
}

fn all_of(source: impl Read) -> io::Result<Vec<u8>> {
    let mut content = Vec::new();
    source.take(MOST_BYTES + 1).read_to_end(&mut content)?;
    Ok(content)
}

/// Writes a file or standard output, and sees to it that all of it arrives.
pub fn write(file: &str, content: &[u8]) -> Result<(), Failure> {
    let written = match file {
        STANDARD => print(content),
        file => store(file, content),
    };
    written.map_err(|error| failed(file, &error))
}

fn print(content: &[u8]) -> io::Result<()> {
    let mut output = io::stdout().lock();
    output.write_all(content)?;
    output.flush()
}

fn store(file: &str, content: &[u8]) -> io::Result<()> {
    let mut output = File::create(file)?;
    output.write_all(content)?;
    match output.sync_all() {
        // Pipes and devices keep nothing that could be lost.
        Err(error) if error.kind() == io::ErrorKind::InvalidInput => Ok(()),
        synced => synced,
    }
}

/// Whether two names stand for one file that there is.
pub fn are_one(one: &str, other: &str) -> bool {
    let place = |file| match file {
        STANDARD => None,
        file => fs::canonicalize(file).ok(),
    };
    place(one).is_some_and(|one| place(other) == Some(one))
}

fn failed(file: &str, error: &io::Error) -> Failure {
    let name = match file {
        STANDARD => "standard input or output",
        file => file,
    };
    Failure::failed(format!("{name}: {error}\n"))
}

/// The name of a file without folders and ending.
pub fn title(file: &str) -> String {
    match file {
        STANDARD => "standard-input".to_string(),
        file => {
            let stem = Path::new(file).file_stem();
            stem.map_or(String::new(), |stem| stem.to_string_lossy().into_owned())
        }
    }
}
