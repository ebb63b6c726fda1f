//! `--sums`: the sums of what was written, as `sha256sum -c` takes them. They are made by the system's own `sha256sum`, of the files as they stand in the folder.

use crate::failure::{Failure, NO_OUTPUT};
use crate::file::{Target, apart, identity};
use std::ffi::{OsStr, OsString};
use std::fs;
use std::io;
use std::os::unix::ffi::OsStrExt;
use std::path::{Path, PathBuf};
use std::process::{Command, Output, Stdio};

const TOOL: &str = "sha256sum";

/// So many bytes of names go to the tool at once: the system takes more.
const AT_ONCE: usize = 64 << 10;

/// The file that the sums go to.
pub struct Sums<'a> {
    file: &'a OsStr,
    /// What it was before anything was written.
    before: Option<(u64, u64)>,
}

impl<'a> Sums<'a> {
    /// Fails where there is no such tool, before anything is written.
    pub fn new(file: &'a OsString, image: &OsStr) -> Result<Sums<'a>, Failure> {
        apart(image, file)?;
        Target::at(file)?;
        sums(Path::new("."), &[])?;
        Ok(Sums { file, before: standing(file) })
    }

    /// Writes the sums of files that were written below a folder, by their paths there.
    pub fn write(&self, folder: &Path, written: &[PathBuf]) -> Result<(), Failure> {
        if standing(self.file) != self.before {
            return Err(Failure::file(NO_OUTPUT, self.file, "a file from the disc was written here, so the sums were not"));
        }
        let (mut text, mut rest) = (Vec::new(), written);
        while !rest.is_empty() {
            let mut bytes = 0;
            let fits = |path: &&PathBuf| {
                bytes += path.as_os_str().len();
                bytes <= AT_ONCE
            };
            let (some, behind) = rest.split_at(rest.iter().take_while(fits).count().max(1));
            let names: Vec<&OsStr> = some.iter().map(|path| path.strip_prefix(folder).unwrap_or(path).as_os_str()).collect();
            text.extend(sums(folder, &names)?);
            rest = behind;
        }
        Target::at(self.file)?.write(&text)
    }
}

fn standing(file: &OsStr) -> Option<(u64, u64)> {
    fs::metadata(file).ok().filter(|about| about.is_file()).map(|about| identity(&about))
}

/// What the tool says of some files of a folder.
fn sums(folder: &Path, names: &[&OsStr]) -> Result<Vec<u8>, Failure> {
    let mut tool = Command::new(TOOL);
    let said = tool.arg("--").args(names).current_dir(folder).stdin(Stdio::null()).output();
    let Output { status, stdout, stderr } = said.map_err(|error| match error.kind() {
        io::ErrorKind::NotFound => Failure::new(NO_OUTPUT, format!("--sums needs {TOOL}, which is not installed")),
        _ => Failure::new(NO_OUTPUT, format!("can't run {TOOL}: {error}")),
    })?;
    if status.success() {
        return Ok(stdout);
    }
    let says = OsStr::from_bytes(stderr.split(|byte| *byte == b'\n').next().unwrap_or_default());
    Err(Failure::file(NO_OUTPUT, says, format!("{TOOL} failed: no sums were written")))
}
