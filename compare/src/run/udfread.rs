//! libudfread, where it is installed: a reader of the same discs in C, for the benchmark. It reads the root directory when a disc is
//! opened and keeps every directory that it has seen, so what it is timed at is opening the disc with the call behind it; a read is timed
//! on a disc that is open, with the file's opening.

use super::calls::{Call, Icb, Query};
use super::disc::Disc;
use std::ffi::{CStr, CString, c_char, c_int, c_void};
use std::hint::black_box;
use std::time::Instant;

type Handle = *mut c_void;

/// Its block input, with the image behind it.
#[repr(C)]
struct Input {
    close: Option<extern "C" fn(*mut Input) -> c_int>,
    read: extern "C" fn(*mut Input, u32, *mut u8, u32, c_int) -> c_int,
    size: Option<extern "C" fn(*mut Input) -> u32>,
    image: *const u8,
    blocks: u32,
}

#[repr(C)]
struct Entry {
    kind: u32,
    name: *const c_char,
}

unsafe extern "C" {
    fn udfread_init() -> Handle;
    fn udfread_open_input(udf: Handle, input: *mut Input) -> c_int;
    fn udfread_close(udf: Handle);
    fn udfread_opendir(udf: Handle, path: *const c_char) -> Handle;
    fn udfread_readdir(dir: Handle, entry: *mut Entry) -> *mut Entry;
    fn udfread_closedir(dir: Handle);
    fn udfread_file_open(udf: Handle, path: *const c_char) -> Handle;
    fn udfread_file_read(file: Handle, out: *mut u8, n: usize) -> isize;
    fn udfread_file_close(file: Handle);
}

extern "C" fn blocks(input: *mut Input, at: u32, out: *mut u8, n: u32, _: c_int) -> c_int {
    // libudfread gives back the input that it was opened with, and room for n blocks.
    unsafe {
        let n = n.min((*input).blocks.saturating_sub(at));
        std::ptr::copy_nonoverlapping((*input).image.add(at as usize * 2048), out, n as usize * 2048);
        n as c_int
    }
}

/// What libudfread asks of a disc and neither of the readers that are compared looks at: the domain and the partition map of the logical
/// volume, and each entry's strategy and file type.
pub fn dress(disc: &mut Disc, directories: &[Icb]) {
    let block_at = |tag: usize| (tag / 2048) as u64 - disc.volume.start as u64;
    for tag in disc.tags.clone() {
        let sector = &mut disc.image[tag..tag + 2048];
        match u16::from_le_bytes([sector[0], sector[1]]) {
            6 => {
                sector[217..236].copy_from_slice(b"*OSTA UDF Compliant");
                sector[240..242].copy_from_slice(&0x0102u16.to_le_bytes());
                sector[264..268].copy_from_slice(&6u32.to_le_bytes());
                sector[268..272].copy_from_slice(&1u32.to_le_bytes());
                sector[440..444].copy_from_slice(&[1, 6, 1, 0]);
                sector[444..446].copy_from_slice(&disc.volume.partition.to_le_bytes());
            }
            261 => {
                let directory = directories.iter().any(|d| d.block as u64 == block_at(tag));
                sector[20..22].copy_from_slice(&4u16.to_le_bytes());
                sector[27] = if directory { 4 } else { 5 };
            }
            _ => {}
        }
    }
}

struct Opened {
    udf: Handle,
    // Kept where libudfread knows it, until the disc is closed.
    _input: Box<Input>,
}

impl Opened {
    fn new(image: &[u8]) -> Opened {
        let mut input =
            Box::new(Input { close: None, read: blocks, size: None, image: image.as_ptr(), blocks: (image.len() / 2048) as u32 });
        let udf = unsafe { udfread_init() };
        let answer = unsafe { udfread_open_input(udf, &mut *input) };
        assert!(answer == 0, "libudfread doesn't open the disc");
        Opened { udf, _input: input }
    }

    fn entries(&self) -> usize {
        let mut entry = Entry { kind: 0, name: std::ptr::null() };
        // The directory is open while it is walked, and closed once.
        unsafe {
            let dir = udfread_opendir(self.udf, c"/".as_ptr());
            assert!(!dir.is_null(), "libudfread doesn't open the root");
            let n = std::iter::from_fn(|| (!udfread_readdir(dir, &mut entry).is_null()).then(|| black_box(entry.name))).count();
            udfread_closedir(dir);
            n
        }
    }

    /// The names of the root's entries but for the folders, of which it gives `.` and `..` too.
    fn names(&self) -> Vec<Vec<u8>> {
        let mut entry = Entry { kind: 0, name: std::ptr::null() };
        let mut names = Vec::new();
        // The directory is open while it is walked, and closed once; a name stands until the next is asked for.
        unsafe {
            let dir = udfread_opendir(self.udf, c"/".as_ptr());
            assert!(!dir.is_null(), "libudfread doesn't open the root");
            while !udfread_readdir(dir, &mut entry).is_null() {
                let name = CStr::from_ptr(entry.name).to_bytes();
                if name != b"." && name != b".." {
                    names.push(name.to_vec());
                }
            }
            udfread_closedir(dir);
        }
        names
    }

    fn file(&self, path: &[u8]) -> Handle {
        let path = CString::new(path).unwrap();
        let file = unsafe { udfread_file_open(self.udf, path.as_ptr()) };
        assert!(!file.is_null(), "libudfread doesn't find the file");
        file
    }
}

impl Drop for Opened {
    fn drop(&mut self) {
        unsafe { udfread_close(self.udf) }
    }
}

/// What it doesn't read of a vault as it was written: the names in their order, and the bytes of each.
pub fn unread(image: &[u8], files: &[(String, Vec<u8>)]) -> Option<String> {
    let opened = Opened::new(image);
    if opened.names() != files.iter().map(|(name, _)| name.as_bytes()).collect::<Vec<_>>() {
        return Some("libudfread lists something else".to_string());
    }
    for (name, bytes) in files {
        // A byte more, which a file that is too long has.
        let mut out = vec![0; bytes.len() + 1];
        let file = opened.file(format!("/{name}").as_bytes());
        let mut n = 0;
        // The room that is left is lent, and the file is closed once.
        unsafe {
            while let more @ 1.. = udfread_file_read(file, out[n..].as_mut_ptr(), out.len() - n) {
                n += more as usize;
            }
            udfread_file_close(file);
        }
        if out[..n] != bytes[..] {
            return Some(format!("libudfread reads something else of {name}"));
        }
    }
    None
}

/// So many reads; nothing where they don't give the bytes that the original gave.
fn read(image: &[u8], q: &Query, bytes: &[u8], times: u32) -> Option<u64> {
    let opened = Opened::new(image);
    let mut out = vec![0; bytes.len()];
    let mut once = || {
        let file = opened.file(&q.path);
        unsafe {
            let n = udfread_file_read(file, out.as_mut_ptr(), out.len());
            udfread_file_close(file);
            n
        }
    };
    // With memory that is warm, as ours is timed.
    once();
    let began = Instant::now();
    for _ in 0..times {
        black_box(once());
    }
    let nanoseconds = began.elapsed().as_nanos() as u64;
    (out == bytes).then_some(nanoseconds)
}

/// The nanoseconds of a query, so many times over.
pub fn time(image: &[u8], q: &Query, bytes: &[u8], times: u32) -> Option<u64> {
    if q.call == Call::Read {
        return read(image, q, bytes, times);
    }
    let began = Instant::now();
    for _ in 0..times {
        let opened = Opened::new(image);
        match q.call {
            Call::List => drop(black_box(opened.entries())),
            Call::Lookup => unsafe { udfread_file_close(opened.file(&q.path)) },
            _ => {}
        }
    }
    Some(began.elapsed().as_nanos() as u64)
}
