//! Evidence as a file, for others to check.

use crate::facts::Facts;
use crate::files;
use crate::library::Library;
use crate::outcome::Failure;
use drift::Kind;
use std::path::Path;

/// Evidence that was written, read back and passed by the proved check.
pub struct Stored {
    pub file: String,
    pub bytes: usize,
    pub kind: Kind,
}

impl Stored {
    pub fn words(&self) -> String {
        let Stored { file, bytes, kind } = self;
        format!("{file}, a {kind} of {bytes} bytes, passes the proved check")
    }
}

/// Writes the evidence of a plan into a folder, and checks what is there then.
pub fn store(library: &mut Library, facts: &Facts, folder: &str) -> Result<Stored, Failure> {
    let failed = |words: String| Failure::failed(format!("{folder}: {words}\n"));
    std::fs::create_dir_all(folder).map_err(|error| failed(error.to_string()))?;
    let name = format!("{}.{}", facts.title, facts.kind());
    let file = Path::new(folder).join(name);
    let file = file.to_string_lossy().into_owned();
    files::write(&file, &facts.evidence)?;
    let evidence = files::read(&file)?;
    let kind = library
        .check(&facts.model, &evidence)
        .map_err(|refusal| failed(format!("what was written fails the check: {refusal}")))?;
    Ok(Stored {
        file,
        bytes: evidence.len(),
        kind,
    })
}
