//! A file in memory: mapped, so that a disc of 25 GB opens at once and costs what is looked at; or made, of a given length, and mapped to be
//! written. With `records`, `signals` and `system` this is the only module of the command with `unsafe` in it.
//!
//! # What is relied on
//!
//! A `&[u8]` says to Rust that nobody writes to its bytes while it is borrowed. A mapped file can be written to by any process that may, and
//! a drive that reads a page again may give other bytes; the system doesn't keep either from a map. So `Map` is sound in Rust's terms only
//! if nobody writes to the image while the command runs. It is the user who knows: `--help` asks for it, and `--copy` is for where it isn't so.
//!
//! With `--wait` the file grows while the command runs. A map has the bytes that were there when it was made, and a copy that goes from the front
//! to the back writes none of these again.
//!
//! What still holds if someone does write: the Rust of this command looks at no byte of a map but for the few numbers of the volume's
//! descriptors that `stat` shows and `check` goes by, and the sectors of a call that was refused, which are copied to say why: each byte by a load
//! that isn't repeated. A file's bytes go from the map to where they are written by the system's own copy (`runs`), and `compare` holds those of two maps to
//! each other, and nothing more. It hands the slice to the archive's calls,
//! as a pointer and a length, and these stay inside what they are lent whatever the image holds from one look to the next (docs/PROMISES.md,
//! "What is assumed", says how far that is proved and how far it is tried). The answer may then be that of no image: a mixture of before and
//! after, with bytes in it that were never written. A file that is cut short meanwhile ends the command with a sentence.
//!
//! A file that is written, `MapMut`, is one that this command has made just before under a name of its own, so that nobody else has a reason to
//! write to it; its blocks are there before the first byte is put, and a disk that is full says so then.
#![allow(unsafe_code)]

use crate::failure::NO_IMAGE;
use crate::signals;
use std::ffi::{c_int, c_void};
use std::fs::File;
use std::io;
use std::ops::{Deref, DerefMut};
use std::os::fd::AsRawFd;
use std::ptr;
use strandlodge::Mapped;

const PROT_READ: c_int = 1;
const PROT_WRITE: c_int = 2;
const MAP_SHARED: c_int = 1;
const SIGBUS: c_int = 7;

unsafe extern "C" {
    fn mmap(at: *mut c_void, length: usize, protection: c_int, flags: c_int, file: c_int, offset: i64) -> *mut c_void;
    fn munmap(at: *mut c_void, length: usize) -> c_int;
    fn posix_fallocate(file: c_int, offset: i64, length: i64) -> c_int;
    fn write(file: c_int, bytes: *const u8, length: usize) -> isize;
    fn _exit(status: c_int) -> !;
}

/// A mapped file, or device.
pub struct Map(Mapped);

impl Map {
    /// A map of a file's first `length` bytes. A byte that the file doesn't have ends the command when it is looked at.
    pub fn new(file: &File, length: usize) -> io::Result<Map> {
        signals::on(SIGBUS, gone);
        // SAFETY: that no other program writes to the file is relied on: the head of this module.
        unsafe { Mapped::front(file, length) }.map(Map)
    }
}

impl Deref for Map {
    type Target = [u8];

    fn deref(&self) -> &[u8] {
        &self.0
    }
}

/// A file that is made, mapped to be written: what is put here stands in the file.
pub struct MapMut {
    at: *mut c_void,
    length: usize,
}

impl MapMut {
    /// A map of a new file, which is given `length` bytes, all zero. Its blocks are taken at once.
    pub fn new(file: &File, length: usize) -> io::Result<MapMut> {
        let size = i64::try_from(length).map_err(|_| io::ErrorKind::FileTooLarge)?;
        if length == 0 {
            // An empty map is refused by the system.
            return Ok(MapMut { at: ptr::null_mut(), length });
        }
        // SAFETY: a call on an open file; no memory of this program is touched.
        match unsafe { posix_fallocate(file.as_raw_fd(), 0, size) } {
            0 => {}
            error => return Err(io::Error::from_raw_os_error(error)),
        }
        // SAFETY: a new map where the system puts it; no memory of this program is touched.
        let at = unsafe { mmap(ptr::null_mut(), length, PROT_READ | PROT_WRITE, MAP_SHARED, file.as_raw_fd(), 0) };
        if at as isize == -1 {
            return Err(io::Error::last_os_error());
        }
        signals::on(SIGBUS, gone);
        Ok(MapMut { at, length })
    }
}

impl Deref for MapMut {
    type Target = [u8];

    fn deref(&self) -> &[u8] {
        if self.length == 0 {
            return &[];
        }
        // SAFETY: `length` bytes are mapped from `at` on until this is dropped. That no other program writes to the file is relied on: the head of
        // this module.
        unsafe { std::slice::from_raw_parts(self.at.cast(), self.length) }
    }
}

impl DerefMut for MapMut {
    fn deref_mut(&mut self) -> &mut [u8] {
        if self.length == 0 {
            return &mut [];
        }
        // SAFETY: `length` bytes are mapped from `at` on to be written until this is dropped, and this borrow is the only one. That no other
        // program writes to the file is relied on: the head of this module.
        unsafe { std::slice::from_raw_parts_mut(self.at.cast(), self.length) }
    }
}

impl Drop for MapMut {
    fn drop(&mut self) {
        if self.length > 0 {
            // SAFETY: this map, whole, and nothing borrows from it any more.
            unsafe { munmap(self.at, self.length) };
        }
    }
}

/// Bytes of a map in memory of this program's own, each looked at once.
pub fn copied(bytes: &[u8]) -> Vec<u8> {
    // SAFETY: each is a byte of the slice.
    bytes.iter().map(|byte| unsafe { ptr::from_ref(byte).read_volatile() }).collect()
}

/// A mapped sector that can't be had: the drive can't read it, or the file was cut short after it was mapped.
extern "C" fn gone(_: c_int) {
    signals::take_away();
    let says = b"vault: can't read the image any more: the drive returned no data, or the file was cut short\n";
    // SAFETY: both may be called from a handler, and the bytes are there for good.
    unsafe {
        write(2, says.as_ptr(), says.len());
        _exit(NO_IMAGE.into());
    }
}

#[cfg(test)]
mod tests {
    use super::*;
    use std::process::Command;

    const CUT: &str = "VAULT_TEST_CUT";

    /// The test's program runs itself, since the process that looks behind the end is ended.
    #[test]
    fn a_file_that_is_cut_short_ends_in_a_sentence() {
        if let Some(name) = std::env::var_os(CUT) {
            let image = Map::new(&File::open(&name).unwrap(), 8192).unwrap();
            File::options().write(true).open(&name).and_then(|file| file.set_len(0)).unwrap();
            std::process::exit(std::hint::black_box(image[4096]).into());
        }
        let name = std::env::temp_dir().join(format!("vault-cut-{}", std::process::id()));
        std::fs::write(&name, [0; 8192]).unwrap();
        let this = "map::tests::a_file_that_is_cut_short_ends_in_a_sentence";
        let said = Command::new(std::env::current_exe().unwrap()).args([this, "--exact", "--nocapture"]).env(CUT, &name).output();
        std::fs::remove_file(&name).unwrap();
        let said = said.unwrap();
        assert_eq!(said.status.code(), Some(NO_IMAGE.into()));
        assert!(String::from_utf8_lossy(&said.stderr).contains("vault: can't read the image any more"));
    }
}
