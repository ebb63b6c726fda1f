//! Calls of the system that the standard library doesn't have: a name that is taken only where it is free, and a whole file system that is synced.
#![allow(unsafe_code)]

use std::ffi::{CString, c_char, c_int};
use std::fs::File;
use std::io;
use std::os::fd::{AsRawFd, IntoRawFd};
use std::os::unix::ffi::OsStrExt;
use std::os::unix::fs::OpenOptionsExt;
use std::path::Path;

unsafe extern "C" {
    fn syncfs(file: c_int) -> c_int;
    fn close(file: c_int) -> c_int;
    fn linkat(from_at: c_int, from: *const c_char, to_at: c_int, to: *const c_char, flags: c_int) -> c_int;
}

/// Where the system has the open files of a program by their numbers.
const OPEN: &str = "/proc/self/fd";

/// Names go by the folder that the program runs in.
const HERE: c_int = -100;

fn done(answer: c_int) -> io::Result<()> {
    if answer == 0 { Ok(()) } else { Err(io::Error::last_os_error()) }
}

fn name(path: &Path) -> io::Result<CString> {
    Ok(CString::new(path.as_os_str().as_bytes())?)
}

/// Gives a file another name, which nothing else may have: else this fails with `AlreadyExists`. Where the system or the file system knows no such
/// call the error is one that `is_unknown` knows.
#[cfg(any(target_arch = "x86_64", target_arch = "aarch64", target_arch = "riscv64"))]
pub fn rename_new(from: &Path, to: &Path) -> io::Result<()> {
    use std::ffi::{c_long, c_uint};

    const RENAMEAT2: c_long = if cfg!(target_arch = "x86_64") { 316 } else { 276 };
    const NO_REPLACE: c_uint = 1;

    unsafe extern "C" {
        fn syscall(number: c_long, from_at: c_int, from: *const c_char, to_at: c_int, to: *const c_char, flags: c_uint) -> c_long;
    }
    let (from, to) = (name(from)?, name(to)?);
    // SAFETY: two names that end in a zero byte, and stay while the call runs.
    done(unsafe { syscall(RENAMEAT2, HERE, from.as_ptr(), HERE, to.as_ptr(), NO_REPLACE) } as c_int)
}

#[cfg(not(any(target_arch = "x86_64", target_arch = "aarch64", target_arch = "riscv64")))]
pub fn rename_new(_: &Path, _: &Path) -> io::Result<()> {
    Err(io::ErrorKind::Unsupported.into())
}

/// Whether `rename_new` isn't known here.
pub fn is_unknown(error: &io::Error) -> bool {
    matches!(error.kind(), io::ErrorKind::InvalidInput | io::ErrorKind::Unsupported)
}

/// Whether a file that has no name can be given one here, as far as the system goes.
pub fn can_link() -> bool {
    Path::new(OPEN).exists()
}

/// A file in a folder that has no name yet, and is gone where it gets none. Not every system and file system has such files.
pub fn unnamed(folder: &Path) -> io::Result<File> {
    // O_TMPFILE.
    const UNNAMED: c_int = if cfg!(target_arch = "aarch64") { 0o20_040_000 } else { 0o20_200_000 };

    File::options().read(true).write(true).custom_flags(UNNAMED).open(folder)
}

/// Gives such a file its name, which nothing else may have: else this fails with `AlreadyExists`.
pub fn link_new(file: &File, to: &Path) -> io::Result<()> {
    const FOLLOW: c_int = 0x400;

    let (from, to) = (name(Path::new(&format!("{OPEN}/{}", file.as_raw_fd())))?, name(to)?);
    // SAFETY: two names that end in a zero byte, and stay while the call runs.
    done(unsafe { linkat(HERE, from.as_ptr(), HERE, to.as_ptr(), FOLLOW) })
}

/// Closes a file. A file system may say only now that it can't be written.
pub fn closed(file: File) -> io::Result<()> {
    // SAFETY: an open file that nobody else has.
    done(unsafe { close(file.into_raw_fd()) })
}

/// Has all written that stands in the file system of a folder, and the folder itself.
pub fn sync(folder: &Path) -> io::Result<()> {
    let folder = File::open(folder)?;
    // SAFETY: an open file; no memory of this program is touched.
    done(unsafe { syncfs(folder.as_raw_fd()) })?;
    // A file system in user space is told by this call alone. Where it isn't known the other was enough.
    match folder.sync_all() {
        Err(error) if error.kind() != io::ErrorKind::InvalidInput => Err(error),
        _ => Ok(()),
    }
}

#[cfg(test)]
mod tests {
    use super::*;
    use std::fs;

    #[test]
    fn a_name_is_taken_once() {
        let folder = std::env::temp_dir().join(format!("vault-system-{}", std::process::id()));
        fs::create_dir(&folder).unwrap();
        let (one, two, to) = (folder.join("1"), folder.join("2"), folder.join("to"));
        fs::write(&one, b"1").unwrap();
        fs::write(&two, b"2").unwrap();
        match rename_new(&one, &to) {
            Ok(()) => {
                assert_eq!(rename_new(&two, &to).unwrap_err().kind(), io::ErrorKind::AlreadyExists);
                assert_eq!((fs::read(&to).unwrap(), fs::read(&two).unwrap()), (b"1".to_vec(), b"2".to_vec()));
            }
            Err(error) => assert!(is_unknown(&error), "{error}"),
        }
        assert!(sync(&folder).is_ok() && sync(&to.join("none")).is_err());
        assert!(closed(File::create(&to).unwrap()).is_ok());
        fs::remove_dir_all(&folder).unwrap();
    }
}
