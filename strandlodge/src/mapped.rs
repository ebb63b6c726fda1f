//! A file mapped into memory without a copy: a disc of 25 GB opens at once, and costs only what you look at.
#![allow(unsafe_code)]

use std::ffi::{c_int, c_void};
use std::fs::File;
use std::io::{self, Seek, SeekFrom};
use std::ops::Deref;
use std::os::fd::AsRawFd;
use std::path::Path;
use std::ptr::{self, NonNull};
use std::{fmt, slice};

const PROT_READ: c_int = 1;
const MAP_PRIVATE: c_int = 2;

unsafe extern "C" {
    fn mmap(at: *mut c_void, length: usize, protection: c_int, flags: c_int, file: c_int, offset: i64) -> *mut c_void;
    fn munmap(at: *mut c_void, length: usize) -> c_int;
}

/// A file or a device, mapped for reading: an image that a [`Disc`](crate::Disc) can own.
///
/// ```no_run
/// use strandlodge::{Mapped, Disc};
///
/// # fn main() -> Result<(), Box<dyn std::error::Error>> {
/// // SAFETY: nobody writes to this file, or cuts it short, while the disc is there.
/// let disc = Disc::open(unsafe { Mapped::open("show.img")? })?;
/// println!("{}", disc.label()?);
/// # Ok(())
/// # }
/// ```
pub struct Mapped {
    /// `None` if the file is empty: the system refuses an empty map.
    at: Option<NonNull<u8>>,
    length: usize,
}

// SAFETY: it is memory that is only read, and nothing of it belongs to a thread.
unsafe impl Send for Mapped {}
// SAFETY: the same.
unsafe impl Sync for Mapped {}

impl Mapped {
    /// Maps all of a file or device.
    ///
    /// # Safety
    ///
    /// Nobody may write to the file while it is mapped: a `&[u8]` promises that, and no map can enforce it. If you
    /// can't keep that promise, read the file into memory, or use [`Drive`](crate::Drive). If the file is cut short, or
    /// the drive can't read a sector, looking at the missing bytes ends the program with SIGBUS. Bytes added at the end
    /// of the file are not in the map.
    ///
    /// # Errors
    ///
    /// The system error if the file can't be opened or mapped.
    pub unsafe fn open(path: impl AsRef<Path>) -> io::Result<Mapped> {
        let mut file = File::open(path)?;
        // Where the end is: a device has no length in its metadata.
        let length = usize::try_from(file.seek(SeekFrom::End(0))?).map_err(|_| io::ErrorKind::FileTooLarge)?;
        // SAFETY: handed on.
        unsafe { Mapped::front(&file, length) }
    }

    /// Maps the first `length` bytes of a file. If the file is shorter, looking at a missing byte ends the program.
    ///
    /// # Safety
    ///
    /// As for [`Mapped::open`].
    ///
    /// # Errors
    ///
    /// The system error if the file can't be mapped.
    pub unsafe fn front(file: &File, length: usize) -> io::Result<Mapped> {
        if length == 0 {
            return Ok(Mapped { at: None, length });
        }
        // SAFETY: a new map where the system puts it; no memory of this program is touched.
        let at = unsafe { mmap(ptr::null_mut(), length, PROT_READ, MAP_PRIVATE, file.as_raw_fd(), 0) };
        if at as isize == -1 {
            return Err(io::Error::last_os_error());
        }
        Ok(Mapped { at: NonNull::new(at.cast()), length })
    }
}

impl Deref for Mapped {
    type Target = [u8];

    fn deref(&self) -> &[u8] {
        // SAFETY: `length` bytes are mapped there until this is dropped, and nobody in this program can write there. That no other program writes to
        // the file is what its maker saw to.
        self.at.map_or(&[], |at| unsafe { slice::from_raw_parts(at.as_ptr(), self.length) })
    }
}

impl AsRef<[u8]> for Mapped {
    fn as_ref(&self) -> &[u8] {
        self
    }
}

impl fmt::Debug for Mapped {
    /// Leaves out the bytes, which may be many gigabytes.
    fn fmt(&self, f: &mut fmt::Formatter<'_>) -> fmt::Result {
        f.debug_struct("Mapped").field("length", &self.length).finish_non_exhaustive()
    }
}

impl Drop for Mapped {
    fn drop(&mut self) {
        if let Some(at) = self.at {
            // SAFETY: this map, whole, and nothing borrows from it any more.
            unsafe { munmap(at.as_ptr().cast(), self.length) };
        }
    }
}
