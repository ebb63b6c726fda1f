//! The writer, while its names or its lengths change, and what has to hold of its answer all the same.

use crate::faults;
use crate::flips::{Flip, Of};
use crate::memory::{Piece, Side, Store};
use strandlodge_sys::vault::{BAD_FILES, BAD_NAME, NO_ROOM, WriteReply, vault_write, vault_write_total};

const SECTOR: usize = 2048;

/// Names and lengths, one place in either that is flipped, and the sizes of the slices for the image, by turns.
pub struct Written {
    pub flip: Flip,
    pub name: &'static str,
    names: Vec<u8>,
    lengths: Vec<u64>,
    staging: usize,
    rooms: Vec<Room>,
    next: usize,
}

/// So many bytes for the image, what writing to them is called if it goes wrong, and what both states answer then while they stand still.
struct Room {
    bytes: usize,
    words: &'static str,
    still: [(u64, u64); 2],
}

/// The memory that is lent for writing.
#[derive(Default)]
pub struct Writer {
    pub names: Store,
    pub lengths: Store,
    pub staging: Store,
    pub image: Store,
}

/// What the writer finds.
pub struct Lent<'s> {
    names: Piece<'s>,
    lengths: Piece<'s>,
    staging: Piece<'s>,
}

/// Where it is, and how long: in bytes, but for the lengths.
#[derive(Clone, Copy)]
pub struct Found {
    names: (*const u8, usize),
    lengths: (*const u64, usize),
    staging: (*const u8, usize),
}

fn side(sides: u64, bit: u32) -> Side {
    if sides >> bit & 1 == 0 { Side::Left } else { Side::Right }
}

fn row(lengths: &[u64]) -> Vec<u8> {
    lengths.iter().flat_map(|n| n.to_le_bytes()).collect()
}

impl Lent<'_> {
    pub fn found(&mut self) -> Found {
        Found {
            names: (self.names.at(), self.names.length),
            lengths: (self.lengths.at().cast(), self.lengths.length / 8),
            staging: (self.staging.at(), self.staging.length),
        }
    }

    /// Where the piece starts that is flipped.
    pub fn flipped(&mut self, of: Of) -> *mut u8 {
        if of == Of::Lengths { self.lengths.at() } else { self.names.at() }
    }

    /// All of it is as it came.
    pub fn hand_back(mut self, w: &Written) -> Result<(), String> {
        let (names, lengths) = (self.names.length, self.lengths.length);
        let are_kept = self.names.bytes() == w.names && self.lengths.bytes() == row(&w.lengths);
        if !are_kept || self.names.touched(names).is_some() || self.lengths.touched(lengths).is_some() || self.staging.touched(0).is_some()
        {
            return Err("the names, the lengths or the staging area were written to, in this call or one before it".to_string());
        }
        self.names.restore(names);
        self.lengths.restore(lengths);
        Ok(())
    }
}

/// The total and the image of what is found. A refusal writes nothing, and nothing is written behind the image's sectors.
fn write(found: Found, image: &mut Piece) -> Result<(u64, u64), String> {
    let Found { names: (names, n), lengths: (lengths, l), staging: (staging, s) } = found;
    faults::lend(&[
        ("names", names.addr(), n),
        ("lengths", lengths.addr(), 8 * l),
        ("staging area", staging.addr(), s),
        ("image", image.at().addr(), image.length),
    ]);
    // SAFETY: the pieces are of four stores: none overlap, and each is as long as said.
    let (total, reply) =
        unsafe { (vault_write_total(names, n, lengths, l), vault_write(names, n, lengths, l, staging, s, image.at(), image.length)) };
    in_range("the total", &total, &[0, BAD_NAME, BAD_FILES])?;
    in_range("the image", &reply, &[0, BAD_NAME, BAD_FILES, NO_ROOM])?;
    if reply.sectors > (image.length / SECTOR) as u64 {
        return Err(format!("done with {} sectors, and room for {} bytes", reply.sectors, image.length));
    }
    let front = reply.sectors as usize * SECTOR;
    if let Some(at) = image.touched(front) {
        return Err(format!("answer {}, {} sectors: byte {at} of the image was written to", reply.answer, reply.sectors));
    }
    image.restore(front);
    Ok((reply.answer, reply.sectors))
}

fn in_range(what: &str, reply: &WriteReply, answers: &[u64]) -> Result<(), String> {
    if !answers.contains(&reply.answer) || (reply.answer == 0) != (reply.sectors != 0) {
        return Err(format!("{what} has answer {} and {} sectors", reply.answer, reply.sectors));
    }
    Ok(())
}

impl Written {
    fn new(name: &'static str, names: Vec<u8>, lengths: Vec<u64>, staging: usize, flip: Flip) -> Written {
        Written { flip, name, names, lengths, staging, rooms: Vec::new(), next: 0 }
    }

    pub fn lend<'s>(&self, names: &'s mut Store, lengths: &'s mut Store, staging: &'s mut Store, sides: u64) -> Lent<'s> {
        let mut lent = Lent {
            names: names.piece(self.names.len(), side(sides, 0)),
            lengths: lengths.piece(8 * self.lengths.len(), side(sides, 1)),
            staging: staging.piece(self.staging, side(sides, 2)),
        };
        lent.names.bytes().copy_from_slice(&self.names);
        lent.lengths.bytes().copy_from_slice(&row(&self.lengths));
        lent
    }

    /// Writes with the next room. Says whether the answer is that of one of the two states.
    pub fn write(&mut self, found: Found, images: &mut Store, sides: u64) -> Result<bool, String> {
        let room = &self.rooms[self.next];
        self.next = (self.next + 1) % self.rooms.len();
        faults::about(room.words);
        let seen = write(found, &mut images.piece(room.bytes, side(sides, 0)))?;
        Ok(room.still.contains(&seen))
    }

    /// The same in the flip's other state, which stands still.
    fn other(&self) -> Written {
        let (mut names, mut lengths) = (self.names.clone(), self.lengths.clone());
        match self.flip.of {
            Of::Lengths => lengths[self.flip.at / 8] = self.flip.values[1],
            _ => self.flip.put(&mut names, 1),
        }
        Written::new(self.name, names, lengths, self.staging, self.flip)
    }

    /// What both states answer with so much room.
    fn still(&self, writer: &mut Writer, bytes: usize) -> Result<[(u64, u64); 2], String> {
        let Writer { names, lengths, staging, image } = writer;
        let mut answer = |w: &Written| {
            let mut lent = w.lend(names, lengths, staging, 0);
            let seen = write(lent.found(), &mut image.piece(bytes, Side::Left))?;
            lent.hand_back(w).map(|()| seen)
        };
        Ok([answer(self)?, answer(&self.other())?])
    }

    /// Room that is exactly enough for either state, a byte less, and more.
    pub fn with_rooms(mut self, writer: &mut Writer) -> Result<Written, String> {
        let plenty = self.still(writer, 2_000 * SECTOR)?.map(|(_, sectors)| sectors as usize * SECTOR);
        let mut sizes: Vec<usize> = plenty.iter().filter(|n| **n != 0).flat_map(|n| [*n, n - 1, n + 3 * SECTOR + 100]).collect();
        sizes.sort();
        sizes.dedup();
        for bytes in sizes {
            let words = format!("write, room {bytes}, on the flip \"{}\"", self.name).leak();
            self.rooms.push(Room { bytes, words, still: self.still(writer, bytes)? });
        }
        Ok(self)
    }
}

/// All that is raced, with no room yet.
pub fn all() -> Vec<Written> {
    names().into_iter().chain(lengths()).collect()
}

fn many_names(n: usize, letters: usize) -> Vec<u8> {
    (0..n).flat_map(|i| format!("{i:c>0$}\0", letters).into_bytes()).collect()
}

/// A byte of the names, or eight: 24 of eight letters, and 64 that are as long as a name may be.
fn names() -> Vec<Written> {
    let letters = u64::from_le_bytes([b'x'; 8]);
    let short = [
        ("a letter of the last name, or a slash", (209, 1, b'/'.into())),
        ("a letter of the first name, or that of the second", (7, 1, b'1'.into())),
        ("a letter of a name, or a zero", (4, 1, 0)),
        ("the zero behind a name, or a letter", (8, 1, b'x'.into())),
        ("the zero behind the last name, or a letter", (215, 1, b'x'.into())),
        ("eight bytes of the names, or zeros", (200, 8, 0)),
        ("eight bytes of the names, or letters", (8, 8, letters)),
    ]
    .map(|(name, flip)| (name, 24, 8, flip));
    let long = [
        ("the zero behind the first long name, or a letter", (127, 1, b'x'.into())),
        ("the zero behind the 63rd long name, or a letter", (63 * 128 - 1, 1, b'x'.into())),
        ("the zero behind the last long name, or a letter", (64 * 128 - 1, 1, b'x'.into())),
        ("eight letters of the first long name, or zeros", (0, 8, 0)),
        ("eight letters of the last long name, or zeros", (63 * 128, 8, 0)),
    ]
    .map(|(name, flip)| (name, 64, 127, flip));
    let make = |(name, n, letters, (at, width, other))| {
        let names = many_names(n, letters);
        let flip = Flip::new(Of::Path, &names, at, width, other);
        Written::new(name, names, vec![100; n], 100 * n, flip)
    };
    short.into_iter().chain(long).map(make).collect()
}

/// One length of 24. In the last two both states are good, and need images of other sizes.
fn lengths() -> Vec<Written> {
    [
        ("a file's length, 100 or 0", 3, 100, 0),
        ("the last file's length, 100 or beyond the staging area", 23, 100, 600_000),
        ("a file's length, 100 or 2^64 - 1", 5, 100, u64::MAX),
        ("a file's length, 100 or more than a file may have", 5, 100, 1_073_739_777),
        ("the first file's length, 0 or 400,000", 0, 0, 400_000),
        ("the last file's length, 0 or 400,000", 23, 0, 400_000),
    ]
    .map(|(name, i, length, other)| {
        let mut lengths = vec![100; 24];
        lengths[i] = length;
        let flip = Flip::of_length(&lengths, i, other);
        Written::new(name, many_names(24, 8), lengths, 402_400, flip)
    })
    .into()
}
