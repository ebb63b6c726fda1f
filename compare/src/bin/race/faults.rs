//! What is under way, for a handler that is called when a call touches what it must not, or doesn't come back.

use std::ffi::{c_int, c_uint, c_void};
use std::sync::OnceLock;
use std::sync::atomic::Ordering::Relaxed;
use std::sync::atomic::{AtomicPtr, AtomicUsize};
use std::time::Instant;

const SIGBUS: c_int = 7;
const SIGSEGV: c_int = 11;
const SIGALRM: c_int = 14;
const SA_SIGINFO: c_int = 4;

/// glibc's, on x86-64.
#[repr(C)]
struct Action {
    handler: extern "C" fn(c_int, *const Info, *const c_void),
    mask: [u64; 16],
    flags: c_int,
    restorer: usize,
}

/// The front of a `siginfo_t`.
#[repr(C)]
struct Info {
    numbers: [c_int; 4],
    address: usize,
}

unsafe extern "C" {
    fn sigaction(number: c_int, action: *const Action, before: *mut c_void) -> c_int;
    fn alarm(seconds: c_uint) -> c_uint;
    fn write(file: c_int, bytes: *const u8, length: usize) -> isize;
    fn _exit(status: c_int) -> !;
}

/// The pieces that a call may be lent.
const NAMES: [&str; 9] = ["image", "path", "output", "work space", "lengths", "answers", "place", "names", "staging area"];

/// The words for what is asked, and the pieces that are lent for it: start and length of each.
static ABOUT: (AtomicPtr<u8>, AtomicUsize) = (AtomicPtr::new(std::ptr::dangling_mut()), AtomicUsize::new(0));
static PIECES: [(AtomicUsize, AtomicUsize); NAMES.len()] = [const { (AtomicUsize::new(0), AtomicUsize::new(0)) }; NAMES.len()];

/// When the race began, and how many calls were begun since.
static BEGAN: OnceLock<Instant> = OnceLock::new();
static CALLS: AtomicUsize = AtomicUsize::new(0);

/// Catches faults, and the call that is under way after so many seconds.
pub fn watch(seconds: u32) {
    for number in [SIGSEGV, SIGBUS, SIGALRM] {
        let action = Action { handler: fault, mask: [0; 16], flags: SA_SIGINFO, restorer: 0 };
        // SAFETY: the handler is of the form that the system calls, and does nothing that a handler may not.
        let done = unsafe { sigaction(number, &action, std::ptr::null_mut()) };
        assert_eq!(done, 0);
    }
    // SAFETY: the system's own call.
    unsafe { alarm(seconds) };
}

/// The race begins: what was asked before was asked of images that stand still.
pub fn begin() {
    BEGAN.get_or_init(Instant::now);
}

/// Says what is asked from now on.
pub fn about(words: &'static str) {
    ABOUT.1.store(0, Relaxed);
    ABOUT.0.store(words.as_ptr().cast_mut(), Relaxed);
    ABOUT.1.store(words.len(), Relaxed);
    CALLS.fetch_add(1, Relaxed);
}

/// Says what is lent from now on: names of pieces, with start and length of each.
pub fn lend(pieces: &[(&str, usize, usize)]) {
    for (to, name) in PIECES.iter().zip(NAMES) {
        let (_, at, length) = pieces.iter().find(|piece| piece.0 == name).copied().unwrap_or_default();
        to.0.store(at, Relaxed);
        to.1.store(length, Relaxed);
    }
}

/// Ends the program with what was seen of the call that is under way.
pub fn fail(seen: &str) -> ! {
    let mut line = Line::begun();
    line.put(seen.as_bytes());
    line.end()
}

/// The handler: what it calls may be called from one, and it takes no memory but the stack's.
extern "C" fn fault(number: c_int, info: *const Info, _: *const c_void) {
    let mut line = Line::begun();
    if number == SIGALRM {
        line.put(b"it doesn't come back");
    } else {
        line.put(b"a fault, ");
        // SAFETY: the system's record is there as long as the handler runs.
        place(&mut line, unsafe { (*info).address });
    }
    line.end()
}

/// Where an address is: so far from the nearest piece.
fn place(line: &mut Line, address: usize) {
    let mut nearest = (usize::MAX, 0, false);
    for (i, (at, length)) in PIECES.iter().enumerate() {
        let (at, end) = (at.load(Relaxed), at.load(Relaxed) + length.load(Relaxed));
        if at == 0 {
            continue;
        }
        let (far, behind) = if address < at { (at - address, false) } else { (address.saturating_sub(end), true) };
        if far < nearest.0 {
            nearest = (far, i, behind);
        }
    }
    line.number(nearest.0);
    line.put(if nearest.2 { b" bytes behind the " } else { b" bytes in front of the " });
    line.put(NAMES[nearest.1].as_bytes());
}

/// A line in the making.
struct Line {
    bytes: [u8; 512],
    length: usize,
}

impl Line {
    /// When, and what is under way.
    fn begun() -> Line {
        let mut line = Line { bytes: [0; 512], length: 0 };
        line.put(b"race: after ");
        line.number(CALLS.load(Relaxed));
        line.put(b" calls and ");
        line.number(BEGAN.get().map_or(0, |began| began.elapsed().as_millis() as usize));
        line.put(b" ms: ");
        // SAFETY: the words stay for good, and are as long as said.
        let words = unsafe { std::slice::from_raw_parts(ABOUT.0.load(Relaxed), ABOUT.1.load(Relaxed)) };
        line.put(words);
        line.put(if words.is_empty() { b"" } else { b": " });
        line
    }

    fn put(&mut self, text: &[u8]) {
        for byte in text {
            if self.length < self.bytes.len() {
                self.bytes[self.length] = *byte;
                self.length += 1;
            }
        }
    }

    fn number(&mut self, n: usize) {
        if n > 9 {
            self.number(n / 10);
        }
        self.put(&[b'0' + (n % 10) as u8]);
    }

    fn end(mut self) -> ! {
        self.put(b"\n");
        // SAFETY: both are the system's own calls, and the bytes are this line's.
        unsafe {
            write(2, self.bytes.as_ptr(), self.length);
            _exit(1);
        }
    }
}
