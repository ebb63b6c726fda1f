//! A file that `get` or `make` writes: whole, or not at all.

use crate::bar::Bar;
use crate::failure::{Failure, NO_OUTPUT, USAGE};
use crate::map::MapMut;
use crate::signals::Unfinished;
use std::ffi::OsStr;
use std::fs::{self, File, Metadata, Permissions};
use std::hash::{BuildHasher, RandomState};
use std::io::{self, Write};
use std::os::fd::AsFd;
use std::os::unix::fs::{MetadataExt, OpenOptionsExt, PermissionsExt, chown};
use std::path::{Path, PathBuf};

/// Written at a time, between two looks of the bar.
pub const PIECE: usize = 1 << 20;

/// A chain of links is followed no further by the system either.
const LINKS: usize = 40;

/// The bits of a mode that are kept: who may read, write and run it.
const MODE: u32 = 0o777;

/// The mode of a new file, less what the system's mask takes from it.
const NEW: u32 = 0o666;

/// What a file is, whatever its name: its device, and its number there.
pub fn identity(about: &Metadata) -> (u64, u64) {
    (about.dev(), about.ino())
}

/// Whether both names are of one file that is there.
fn is_same(one: &OsStr, other: &OsStr) -> bool {
    let which = |name| fs::metadata(name).map(|file| identity(&file));
    matches!((which(one), which(other)), (Ok(one), Ok(other)) if one == other)
}

/// The image must not be what is written.
pub fn apart(image: &OsStr, file: &OsStr) -> Result<(), Failure> {
    if is_same(image, file) {
        return Err(Failure::file(USAGE, file, "this is the image itself: choose another file"));
    }
    Ok(())
}

/// What files are written to must be a folder that is there.
pub fn see_folder(name: &OsStr) -> Result<(), Failure> {
    match fs::metadata(name) {
        Ok(there) if there.is_dir() => Ok(()),
        Ok(_) => Err(Failure::file(NO_OUTPUT, name, "not a folder: -o needs the folder to write to")),
        Err(error) => Err(Failure::file(NO_OUTPUT, name, format!("can't write to this folder: {error}"))),
    }
}

/// A file to be made or replaced, or standard output.
pub struct Target<'a> {
    name: &'a OsStr,
    /// None is standard output, which is written to and never replaced.
    place: Option<PathBuf>,
}

impl<'a> Target<'a> {
    /// Refuses what a file can't take the place of: a directory, a device, a pipe. A link is followed, and one that leads to nothing refused.
    pub fn at(name: &'a OsStr) -> Result<Target<'a>, Failure> {
        let refused = |says: &str| Err(Failure::file(NO_OUTPUT, name, says));
        match fs::metadata(name) {
            Ok(there) if there.is_dir() => return refused("this is a directory: name the file to write"),
            Ok(there) if is_output(&there) => return Ok(Target { name, place: None }),
            Ok(there) if !there.is_file() || is_open(name) => return refused("not a regular file: use `vault cat`"),
            Err(_) if fs::symlink_metadata(name).is_ok() => return refused("this is a broken link: name the file itself"),
            _ => {}
        }
        let place = fs::canonicalize(name).unwrap_or_else(|_| PathBuf::from(name));
        if place.file_name().is_none() {
            return refused("this is not the name of a file");
        }
        Ok(Target { name, place: Some(place) })
    }

    /// The same of a file that isn't there yet, unless one may be replaced. `hint` goes behind what is said of one that is there.
    pub fn fresh(name: &'a OsStr, force: bool, hint: &str) -> Result<Target<'a>, Failure> {
        let target = Target::at(name)?;
        if !force && target.place.as_ref().is_some_and(|place| fs::symlink_metadata(place).is_ok()) {
            return Err(Failure::file(NO_OUTPUT, name, format!("this file exists: use --force to replace it{hint}")));
        }
        Ok(target)
    }

    /// The same where no link is followed: what is written stands in its folder, or isn't written.
    pub fn inside(name: &'a OsStr) -> Result<Target<'a>, Failure> {
        match fs::symlink_metadata(name) {
            Ok(there) if there.is_symlink() => Err(Failure::file(NO_OUTPUT, name, "this is a link, and links are not followed here")),
            Ok(there) if !there.is_file() => Err(Failure::file(NO_OUTPUT, name, "this exists and is not a regular file")),
            _ => Ok(Target { name, place: Some(PathBuf::from(name)) }),
        }
    }

    pub fn write(&self, bytes: &[u8]) -> Result<(), Failure> {
        let mut bar = Bar::new(bytes.len() as u64);
        self.fill(|file| pieces(file, bytes, &mut bar).map_err(|error| self.unwritten(error)))
    }

    /// The same of a file of `length` bytes that is mapped, and put there by `put`.
    pub fn put(&self, length: usize, put: impl FnOnce(&mut [u8]) -> Result<(), Failure>) -> Result<(), Failure> {
        self.fill(|file| put(&mut self.mapped(file, length)?))
    }

    /// Has a temporary name beside the file written, which then takes the file's name; where that fails nothing is left behind. Standard output is
    /// written as it comes.
    pub fn fill(&self, write: impl FnOnce(&mut File) -> Result<(), Failure>) -> Result<(), Failure> {
        let Some(place) = &self.place else {
            return write(&mut output().map_err(|error| self.unwritten(error))?);
        };
        let old = fs::symlink_metadata(place).ok();
        let (unfinished, mut file) = created(place, "new", old.as_ref()).map_err(|error| self.unwritten(error))?;
        write(&mut file)?;
        // Before the name is taken, so that a power cut or a pulled stick leaves the old file or the new one.
        let kept = old.map_or(Ok(()), |old| keep_at(unfinished.path(), &old));
        let named = kept.and_then(|()| file.sync_all()).and_then(|()| fs::rename(unfinished.path(), place));
        named.map_err(|error| self.unwritten(error))?;
        unfinished.named();
        Ok(())
    }

    /// Where the file stands; standard output has no place.
    pub fn place(&self) -> Option<&Path> {
        self.place.as_deref()
    }

    /// Memory of `length` bytes, all zero, that is kept in a file beside this one. The file has no name any more, and goes with the map.
    pub fn space(&self, length: usize) -> Result<MapMut, Failure> {
        let Some(place) = &self.place else {
            return Err(Failure::file(NO_OUTPUT, self.name, "an image is written to a file, not to standard output"));
        };
        let (unfinished, file) =
            created(place, "space", fs::symlink_metadata(place).ok().as_ref()).map_err(|error| self.unwritten(error))?;
        drop(unfinished);
        self.mapped(&file, length)
    }

    fn mapped(&self, file: &File, length: usize) -> Result<MapMut, Failure> {
        MapMut::new(file, length).map_err(|error| self.unwritten(error))
    }

    /// What can't be written. A reader of standard output that has had enough is no failure.
    pub fn unwritten(&self, error: io::Error) -> Failure {
        match self.place {
            None => Failure::output(error),
            Some(_) => Failure::file(NO_OUTPUT, self.name, format!("can't write this file: {error}")),
        }
    }
}

/// Standard output, without a buffer.
pub fn output() -> io::Result<File> {
    Ok(File::from(io::stdout().as_fd().try_clone_to_owned()?))
}

fn is_output(there: &Metadata) -> bool {
    output().and_then(|output| output.metadata()).is_ok_and(|output| identity(&output) == identity(there))
}

/// Whether a name leads through /proc to a file that is open: it would be replaced under whoever has it open.
fn is_open(name: &OsStr) -> bool {
    let mut at = PathBuf::from(name);
    for _ in 0..LINKS {
        let folder = at.parent().filter(|folder| !folder.as_os_str().is_empty()).unwrap_or(Path::new("."));
        let Ok(folder) = fs::canonicalize(folder) else {
            return false;
        };
        if folder.starts_with("/proc") && folder.ends_with("fd") {
            return true;
        }
        match fs::read_link(&at) {
            Ok(to) => at = folder.join(to),
            Err(_) => return false,
        }
    }
    false
}

/// Gives a new file the mode of the one that it takes the place of, and its owner where that may be.
pub fn keep_at(new: &Path, old: &Metadata) -> io::Result<()> {
    // Only root may give a file away.
    let _ = chown(new, Some(old.uid()), Some(old.gid()));
    fs::set_permissions(new, Permissions::from_mode(old.mode() & MODE))
}

/// A name beside another that nobody else has, for a file that isn't whole yet.
pub fn temporary(place: &Path, what: &str) -> io::Result<Unfinished> {
    let chance = RandomState::new().hash_one(0);
    Unfinished::at(place.with_file_name(format!(".vault-{chance:016x}-{what}")))
}

/// A new file beside another, to be read too: a map needs both. Its name is one that nobody else has. Where the other is there, nobody may read it meanwhile
/// who may not read that.
pub fn created(place: &Path, what: &str, old: Option<&Metadata>) -> io::Result<(Unfinished, File)> {
    let unfinished = temporary(place, what)?;
    let mode = old.map_or(NEW, |old| old.mode() & MODE);
    let file = File::options().read(true).write(true).create_new(true).mode(mode).open(unfinished.path())?;
    Ok((unfinished, file))
}

fn pieces(file: &mut File, bytes: &[u8], bar: &mut Bar) -> io::Result<()> {
    for piece in bytes.chunks(PIECE) {
        file.write_all(piece)?;
        bar.add(piece.len() as u64);
    }
    Ok(())
}

#[cfg(test)]
mod tests {
    use super::*;

    #[test]
    fn what_is_written_is_no_more_open_than_the_old_file() {
        let folder = std::env::temp_dir().join(format!("vault-modes-{}", std::process::id()));
        fs::create_dir(&folder).unwrap();
        let place = folder.join("cue");
        let mode = || created(&place, "new", fs::symlink_metadata(&place).ok().as_ref()).unwrap().1.metadata().unwrap().mode() & MODE;
        let new = mode();
        assert!(new & 0o600 == 0o600 && new & 0o111 == 0, "{new:o}");
        fs::write(&place, b"old").unwrap();
        for kept in [0o600, 0o640, 0o400] {
            fs::set_permissions(&place, Permissions::from_mode(kept)).unwrap();
            assert_eq!(mode() & !kept, 0);
        }
        fs::remove_dir_all(&folder).unwrap();
    }
}
