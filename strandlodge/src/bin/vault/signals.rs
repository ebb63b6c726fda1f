//! What a signal that ends the command leaves behind: nothing. A file that isn't whole yet stands under a temporary name, which is taken away first.
//!
//! Why it is sound: a handler makes calls alone that may be made from one (`unlink`, `signal`, `raise`), and reads pointers, each of which is null or a
//! name that nobody frees while it stands there. The command has one thread, and the handler doesn't come back, so that a name which it has read stays.
#![allow(unsafe_code)]

use std::ffi::{CString, c_char, c_int};
use std::os::unix::ffi::OsStrExt;
use std::path::{Path, PathBuf};
use std::sync::Once;
use std::sync::atomic::{AtomicPtr, Ordering};
use std::{fs, io, ptr};

/// Hang-up, interrupt, quit, the two of a user's own, alarm, termination, too much time, too long a file.
const ENDING: [c_int; 9] = [1, 2, 3, 10, 12, 14, 15, 24, 25];

const DEFAULT: usize = 0;
const IGNORED: usize = 1;

unsafe extern "C" {
    fn signal(number: c_int, handler: usize) -> usize;
    fn raise(number: c_int) -> c_int;
    fn unlink(name: *const c_char) -> c_int;
}

/// So many files may be unfinished at once.
pub const MOST: usize = 1024;

/// The names of the files that aren't whole yet, or don't have their own name yet.
static UNFINISHED: [AtomicPtr<c_char>; MOST] = [const { AtomicPtr::new(ptr::null_mut()) }; MOST];

/// Has a signal handled. One that was ignored when the command was started, as by nohup, stays ignored.
pub fn on(number: c_int, handler: extern "C" fn(c_int)) {
    // SAFETY: the handler is of the form that the system calls; that it does nothing which a handler may not is for who wrote it.
    unsafe {
        if signal(number, handler as *const () as usize) == IGNORED {
            signal(number, IGNORED);
        }
    }
}

/// Takes the files away that aren't whole yet. May be called from a handler.
pub fn take_away() {
    for place in &UNFINISHED {
        let name = place.load(Ordering::SeqCst);
        if !name.is_null() {
            // SAFETY: a name that ends in a zero byte, and stays: the head of this module.
            unsafe { unlink(name) };
        }
    }
}

/// Ends the command as the signal would have, without the file.
extern "C" fn end(number: c_int) {
    take_away();
    // SAFETY: both may be called from a handler.
    unsafe {
        signal(number, DEFAULT);
        raise(number);
    }
}

/// A temporary name, of which nothing is left where this is dropped or a signal ends the command.
pub struct Unfinished {
    path: PathBuf,
    /// Where its name stands for the handler.
    at: &'static AtomicPtr<c_char>,
    is_named: bool,
}

impl Unfinished {
    /// Before the file is made: a name that nobody else has.
    pub fn at(path: PathBuf) -> io::Result<Unfinished> {
        static HANDLED: Once = Once::new();
        HANDLED.call_once(|| ENDING.into_iter().for_each(|number| on(number, end)));
        let name = CString::new(path.as_os_str().as_bytes())?.into_raw();
        let is_free =
            |place: &&AtomicPtr<c_char>| place.compare_exchange(ptr::null_mut(), name, Ordering::SeqCst, Ordering::SeqCst).is_ok();
        let Some(at) = UNFINISHED.iter().find(is_free) else {
            release(name);
            return Err(io::Error::other("too many unfinished files"));
        };
        Ok(Unfinished { path, at, is_named: false })
    }

    pub fn path(&self) -> &Path {
        &self.path
    }

    /// The file has its own name now, and stays.
    pub fn named(mut self) {
        self.is_named = true;
    }
}

impl Drop for Unfinished {
    fn drop(&mut self) {
        if !self.is_named {
            // What can't be taken away either is told of by the first error.
            let _ = fs::remove_file(&self.path);
        }
        release(self.at.swap(ptr::null_mut(), Ordering::SeqCst));
    }
}

fn release(name: *mut c_char) {
    if !name.is_null() {
        // SAFETY: it came from `into_raw`, and stands in no other place any more.
        drop(unsafe { CString::from_raw(name) });
    }
}

#[cfg(test)]
mod tests {
    use super::*;
    use std::os::unix::process::ExitStatusExt;
    use std::process::{Command, Stdio};
    use std::time::{Duration, Instant};

    const AT: &str = "VAULT_TEST_UNFINISHED";

    /// Whether a signal is ignored here, as `nohup` has it, and so by a program that is started here.
    fn is_ignored(number: i32) -> bool {
        let status = fs::read_to_string("/proc/self/status").unwrap();
        let mask = status.lines().find_map(|line| line.strip_prefix("SigIgn:")).unwrap();
        u64::from_str_radix(mask.trim(), 16).unwrap() >> (number - 1) & 1 == 1
    }

    /// The test's program runs itself, since the process is ended.
    #[test]
    fn a_signal_leaves_no_file() {
        if let Some(name) = std::env::var_os(AT) {
            let unfinished = Unfinished::at(PathBuf::from(name)).unwrap();
            fs::write(unfinished.path(), b"half").unwrap();
            std::thread::sleep(Duration::from_secs(60));
            return;
        }
        for number in [1, 2, 10, 14, 15].into_iter().filter(|number| !is_ignored(*number)) {
            let name = std::env::temp_dir().join(format!("vault-unfinished-{}-{number}", std::process::id()));
            let this = "signals::tests::a_signal_leaves_no_file";
            let mut child = Command::new(std::env::current_exe().unwrap());
            let mut child = child.args([this, "--exact"]).env(AT, &name).stdout(Stdio::null()).spawn().unwrap();
            let since = Instant::now();
            while !name.exists() && since.elapsed() < Duration::from_secs(50) {
                std::thread::sleep(Duration::from_millis(5));
            }
            assert!(name.exists());
            let kill = Command::new("kill").args([format!("-{number}"), child.id().to_string()]).status().unwrap();
            assert!(kill.success());
            assert_eq!(child.wait().unwrap().signal(), Some(number));
            assert!(!name.exists());
        }
    }

    #[test]
    fn what_is_dropped_is_taken_away() {
        let name = std::env::temp_dir().join(format!("vault-dropped-{}", std::process::id()));
        let unfinished = Unfinished::at(name.clone()).unwrap();
        fs::write(&name, b"half").unwrap();
        drop(unfinished);
        assert!(!name.exists());
        let (one, other) = (Unfinished::at(name.clone()).unwrap(), Unfinished::at(name.with_extension("2")).unwrap());
        fs::write(one.path(), b"whole").unwrap();
        fs::write(other.path(), b"half").unwrap();
        one.named();
        drop(other);
        assert!(name.exists() && !name.with_extension("2").exists());
        fs::remove_file(&name).unwrap();
    }
}
