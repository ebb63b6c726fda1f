//! The image that is asked: its file mapped, or copied into memory.

use crate::failure::{Failure, NO_IMAGE};
use crate::map::Map;
use std::ffi::OsStr;
use std::fs::File;
use std::io::{self, Read, Seek, SeekFrom};
use std::ops::Deref;
use std::os::unix::fs::FileExt;

/// So much of a pipe is read at once, or more.
const PIECE: usize = 1 << 20;

/// A file's bytes, or a device's.
pub enum Image {
    /// As the file has them: who writes to it changes them.
    Mapped(Map),
    /// As the file had them: they stand still.
    Copied(Vec<u8>),
}

impl Image {
    /// Maps an image, or copies the whole of it.
    pub fn open(name: &OsStr, copied: bool) -> Result<Image, Failure> {
        let (file, length) = match found(name) {
            Err(error) if copied && error.kind() == io::ErrorKind::NotSeekable => return piped(name).map(Image::Copied),
            found => found.map_err(|error| unopened(name, error))?,
        };
        if copied {
            return copy(&file, length).map(Image::Copied).map_err(|error| uncopied(name, length, error));
        }
        Map::new(&file, length).map(Image::Mapped).map_err(|error| unopened(name, error))
    }
}

impl Deref for Image {
    type Target = [u8];

    fn deref(&self) -> &[u8] {
        match self {
            Image::Mapped(map) => map,
            Image::Copied(bytes) => bytes,
        }
    }
}

/// The length of an image as it is now.
pub fn length(name: &OsStr) -> Result<usize, Failure> {
    found(name).map(|(_, length)| length).map_err(|error| unopened(name, error))
}

/// The file and its length.
fn found(name: &OsStr) -> io::Result<(File, usize)> {
    let mut file = readable(name)?;
    // Where the end is: a device, such as a drive, has no length in its metadata.
    let length = usize::try_from(file.seek(SeekFrom::End(0))?).map_err(|_| io::ErrorKind::FileTooLarge)?;
    Ok((file, length))
}

fn readable(name: &OsStr) -> io::Result<File> {
    let file = File::open(name)?;
    if file.metadata()?.is_dir() {
        return Err(io::ErrorKind::IsADirectory.into());
    }
    Ok(file)
}

/// A file or a device, of which nothing was looked at yet.
pub fn file(name: &OsStr) -> Result<File, Failure> {
    readable(name).map_err(|error| unopened(name, error))
}

/// A file's bytes by `pread`, in memory of this program's own.
fn copy(file: &File, length: usize) -> io::Result<Vec<u8>> {
    let mut bytes = Vec::new();
    bytes.try_reserve_exact(length).map_err(|_| io::ErrorKind::OutOfMemory)?;
    bytes.resize(length, 0);
    file.read_exact_at(&mut bytes, 0)?;
    Ok(bytes)
}

/// All that a pipe gives, in memory. How much that is isn't known before.
fn piped(name: &OsStr) -> Result<Vec<u8>, Failure> {
    let mut file = file(name)?;
    let (mut bytes, mut read) = (Vec::new(), 0);
    loop {
        if bytes.len() - read < PIECE {
            let more = bytes.len().max(PIECE);
            bytes.try_reserve_exact(more).map_err(|_| uncopied(name, read, io::ErrorKind::OutOfMemory.into()))?;
            bytes.resize(bytes.len() + more, 0);
        }
        match file.read(&mut bytes[read..]) {
            Ok(0) => break,
            Ok(n) => read += n,
            Err(error) if error.kind() == io::ErrorKind::Interrupted => {}
            Err(error) => return Err(uncopied(name, read, error)),
        }
    }
    bytes.truncate(read);
    Ok(bytes)
}

pub fn unopened(name: &OsStr, error: io::Error) -> Failure {
    match error.kind() {
        io::ErrorKind::NotFound => Failure::file(NO_IMAGE, name, "no such file"),
        io::ErrorKind::IsADirectory => Failure::file(NO_IMAGE, name, "this is a directory, not a disc image"),
        io::ErrorKind::NotSeekable => Failure::file(NO_IMAGE, name, "not a file or device (a pipe?): use --copy to read it into memory"),
        _ => Failure::file(NO_IMAGE, name, format!("can't open the image: {error}")),
    }
}

fn uncopied(name: &OsStr, length: usize, error: io::Error) -> Failure {
    match error.kind() {
        io::ErrorKind::OutOfMemory => {
            Failure::file(NO_IMAGE, name, format!("not enough memory to copy {length} bytes: without --copy, a file is mapped instead"))
        }
        io::ErrorKind::UnexpectedEof => Failure::file(NO_IMAGE, name, "the image was cut short while it was being copied"),
        _ => Failure::file(NO_IMAGE, name, format!("can't copy the image: {error}")),
    }
}

#[cfg(test)]
mod tests {
    use super::*;

    #[test]
    fn a_copy_is_of_the_length_that_was_found() {
        let name = std::env::temp_dir().join(format!("vault-copy-{}", std::process::id()));
        std::fs::write(&name, [7; 5000]).unwrap();
        let (file, length) = found(name.as_os_str()).unwrap();
        assert_eq!(copy(&file, length).unwrap(), [7; 5000]);
        assert_eq!(copy(&file, 0).unwrap(), []);
        // Cut short behind the look at its length; and a length that there is no memory for.
        assert_eq!(copy(&file, 5001).unwrap_err().kind(), io::ErrorKind::UnexpectedEof);
        assert_eq!(copy(&file, usize::MAX).unwrap_err().kind(), io::ErrorKind::OutOfMemory);
        std::fs::remove_file(&name).unwrap();
    }
}
