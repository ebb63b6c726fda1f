//! An image in the making: descriptors and files put onto a disc, with a note of where each tag stands, for those who damage it, and of the
//! bytes at hand behind it, for those who sum them.

use crate::calls::{Icb, Volume};
use crate::random::Random;
use crate::records::*;
use std::ops::Range;
use std::rc::Rc;

#[derive(Clone)]
pub struct Disc {
    pub image: Vec<u8>,
    /// Where each tag stands in the image.
    pub tags: Vec<usize>,
    /// Each descriptor with its bytes at hand, those that stand inside another behind it.
    pub noted: Vec<Noted>,
    pub volume: Volume,
    /// What may be asked of it: paths, and ICBs.
    pub paths: Vec<Vec<u8>>,
    pub icbs: Vec<Icb>,
    next: u32,
    taken: Vec<Range<u64>>,
    /// Where the partitions start, by reference, where there is more than one to put things into; and by what they are chosen.
    pub partitions: Vec<u32>,
    pub wandering: Option<Random>,
}

pub const ANCHOR: u64 = 256;

/// A piece of a file, and where in the image it went.
pub struct Piece {
    pub from: usize,
    pub length: usize,
    pub at: usize,
}

/// A descriptor that was put onto a disc: the bytes at hand are those of the pieces, from its own first one on, up to an end.
#[derive(Clone)]
pub struct Noted {
    pieces: Rc<[Piece]>,
    from: usize,
    end: usize,
}

impl Noted {
    /// Where in the image the first so many of them stand.
    pub fn runs(&self, n: usize) -> impl Iterator<Item = Range<usize>> {
        let (from, end) = (self.from, self.end.min(self.from + n));
        self.pieces.iter().filter_map(move |piece| {
            let (here, until) = (from.max(piece.from), end.min(piece.from + piece.length));
            (here < until).then(|| piece.at + here - piece.from..piece.at + until - piece.from)
        })
    }
}

/// How a file is laid out.
#[derive(Clone)]
pub struct Layout {
    /// 0 short, 1 long, 2 ext, 3 embedded.
    pub kind: u8,
    pub extended: bool,
    pub attributes: usize,
    /// The bytes of each extent but the last.
    pub cuts: Vec<usize>,
    /// How many descriptors an area holds before it goes on elsewhere.
    pub per_area: usize,
    /// The length of each continuation is this much longer than it must be.
    pub slack: u32,
    /// Descriptors behind those of the file's own bytes.
    pub behind: Vec<Vec<u8>>,
    /// The information length, where it isn't the number of bytes.
    pub information: Option<u64>,
}

impl Layout {
    pub fn of(kind: u8) -> Layout {
        Layout {
            kind,
            extended: false,
            attributes: 0,
            cuts: Vec::new(),
            per_area: usize::MAX,
            slack: 0,
            behind: Vec::new(),
            information: None,
        }
    }
}

impl Disc {
    /// A disc with nothing on it whose partition starts at `start`. The first sectors and the anchor's are kept free of files.
    pub fn new(start: u32, number: u16) -> Disc {
        let volume = Volume { start, partition: number, ..Volume::default() };
        Disc {
            image: vec![0; (ANCHOR as usize + 1) * 2048],
            tags: Vec::new(),
            noted: Vec::new(),
            volume,
            paths: Vec::new(),
            icbs: Vec::new(),
            next: 0,
            taken: vec![16..40, ANCHOR..ANCHOR + 1],
            partitions: Vec::new(),
            wandering: None,
        }
    }

    /// Goes on in another partition, with sectors that nobody has: whatever is put onto the disc stands there, under this reference.
    pub fn stand_in(&mut self, start: u32, reference: u16) {
        let sector = self.sector_of(self.next).max(start.into());
        (self.volume.start, self.volume.partition) = (start, reference);
        self.next = (sector - u64::from(start)) as u32;
    }

    /// Now and then goes on in another partition, on a disc that has several.
    fn wander(&mut self) {
        if let Some(random) = self.wandering.as_mut()
            && random.once_in(3)
        {
            let reference = random.below(self.partitions.len());
            self.stand_in(self.partitions[reference], reference as u16);
        }
    }

    fn sector_of(&self, block: u32) -> u64 {
        self.volume.start as u64 + block as u64
    }

    /// So many blocks in a row that nobody has.
    pub fn take(&mut self, n: u32) -> u32 {
        loop {
            let from = self.sector_of(self.next);
            let Some(hit) = self.taken.iter().find(|t| t.start < from + n as u64 && from < t.end) else {
                let block = self.next;
                self.next += n.max(1);
                return block;
            };
            self.next = (hit.end - self.volume.start as u64) as u32;
        }
    }

    /// Writes bytes from the start of a sector on, and makes the image as long as that takes.
    pub fn put(&mut self, sector: u64, bytes: &[u8]) {
        let at = sector as usize * 2048;
        let end = (at + bytes.len()).div_ceil(2048) * 2048;
        if self.image.len() < end {
            self.image.resize(end, 0);
        }
        self.image[at..at + bytes.len()].copy_from_slice(bytes);
    }

    /// A descriptor, whose tag is noted.
    pub fn put_descriptor(&mut self, sector: u64, bytes: &[u8]) {
        self.put_noted(sector, bytes, bytes.len());
    }

    /// The same, where as many sectors are at hand as hold so many bytes.
    fn put_noted(&mut self, sector: u64, bytes: &[u8], hand: usize) {
        self.put(sector, bytes);
        let (at, end) = (sector as usize * 2048, hand.div_ceil(2048) * 2048);
        self.tags.push(at);
        self.noted.push(Noted { pieces: Rc::new([Piece { from: 0, length: end, at }]), from: 0, end });
    }

    pub fn put_block(&mut self, block: u32, bytes: &[u8]) {
        self.put_descriptor(self.sector_of(block), bytes);
    }

    /// The bytes of a file in extents: the descriptors, and where each extent's bytes went.
    fn extents(&mut self, bytes: &[u8], layout: &Layout) -> (Vec<Vec<u8>>, Vec<Piece>) {
        let (mut descriptors, mut places, mut from) = (Vec::new(), Vec::new(), 0);
        let cuts = layout.cuts.iter().copied().chain([usize::MAX]);
        for cut in cuts {
            let n = cut.min(bytes.len() - from);
            if n == 0 {
                continue;
            }
            if layout.kind != 0 {
                self.wander();
            }
            let block = self.take(n.div_ceil(2048) as u32);
            let sector = self.sector_of(block);
            self.put(sector, &bytes[from..from + n]);
            descriptors.push(descriptor(layout.kind, n as u32, 0, block, self.volume.partition));
            places.push(Piece { from, length: n, at: sector as usize * 2048 });
            from += n;
        }
        (descriptors, places)
    }

    /// The area of an entry for these descriptors: those that it may not hold go into a chain of allocation extents.
    fn chain(&mut self, descriptors: &[Vec<u8>], layout: &Layout, first_room: usize) -> Vec<u8> {
        let size = descriptor_size(layout.kind);
        let mut groups: Vec<&[Vec<u8>]> = Vec::new();
        let mut left = descriptors;
        let mut room = first_room;
        // Each area but the last keeps a place for the descriptor that leads on.
        while left.len() > layout.per_area.min(room / size) {
            let n = layout.per_area.min(room / size - 1).max(1);
            let (here, more) = left.split_at(n);
            groups.push(here);
            left = more;
            room = 2048 - 24;
        }
        let mut area = left.concat();
        for group in groups.into_iter().rev() {
            let bytes = allocation_extent(&area);
            let length = bytes.len() as u32 + layout.slack;
            if layout.kind != 0 {
                self.wander();
            }
            let block = self.take(length.div_ceil(2048));
            self.put_noted(self.sector_of(block), &bytes, length as usize);
            area = group.concat();
            area.extend(descriptor(layout.kind, length, 3, block, self.volume.partition));
        }
        area
    }

    /// Puts a file onto the disc: its ICB, and where its bytes went.
    pub fn store(&mut self, bytes: &[u8], layout: &Layout) -> (Icb, Vec<Piece>) {
        let prefix = Entry::prefix(layout.extended) + layout.attributes;
        let mut layout = layout.clone();
        if layout.kind == 3 && prefix + bytes.len() > 2048 {
            layout.kind = 0;
        }
        self.wander();
        let block = self.take(1);
        let (start, reference) = (self.volume.start, self.volume.partition);
        let (area, places) = if layout.kind == 3 {
            (bytes.to_vec(), vec![Piece { from: 0, length: bytes.len(), at: self.sector_of(block) as usize * 2048 + prefix }])
        } else {
            let (mut descriptors, places) = self.extents(bytes, &layout);
            descriptors.extend(layout.behind.iter().cloned());
            (self.chain(&descriptors, &layout, 2048 - prefix), places)
        };
        let entry = Entry {
            extended: layout.extended,
            flags: layout.kind as u16,
            information: layout.information.unwrap_or(bytes.len() as u64),
            attributes: layout.attributes,
            area: &area,
        };
        self.stand_in(start, reference);
        self.put_block(block, &entry.bytes());
        let icb = Icb::at(block, reference);
        self.icbs.push(icb);
        (icb, places)
    }

    /// A directory of these items, with bytes behind the last; the tags of its entries are noted.
    pub fn store_directory(&mut self, items: &[Item], tail: &[u8], layout: &Layout) -> Icb {
        let mut bytes = Vec::new();
        let mut starts = Vec::new();
        for item in items {
            starts.push(bytes.len());
            bytes.extend(item.bytes());
        }
        bytes.extend(tail);
        let (icb, places) = self.store(&bytes, layout);
        for p in &places {
            let here = starts.iter().filter(|s| **s >= p.from && **s + 38 <= p.from + p.length);
            self.tags.extend(here.map(|s| p.at + s - p.from));
        }
        let end = layout.information.map_or(bytes.len(), |n| bytes.len().min(n as usize));
        let pieces: Rc<[Piece]> = places.into();
        self.noted.extend(starts.iter().filter(|s| **s < end).map(|s| Noted { pieces: pieces.clone(), from: *s, end }));
        icb
    }

    /// The recognition sequence, the anchor and a main sequence of the usual descriptors around a root directory.
    pub fn finish(&mut self, root: Icb, label: &[u8]) {
        self.recognise(&[b"BEA01", b"NSR03", b"TEA01"]);
        let file_set = self.put_file_set(root);
        let sequence = [
            primary(&field(label, 32)),
            logical(&field(&name8(b"volume"), 128), 2048, file_set),
            partition(self.volume.partition, self.volume.start, 1000),
            tagged(8, 512),
        ];
        self.sequence(32, &sequence, 0);
    }

    pub fn recognise(&mut self, ids: &[&[u8; 5]]) {
        for (i, id) in ids.iter().enumerate() {
            self.put(16 + i as u64, &recognition(id));
        }
    }

    pub fn put_file_set(&mut self, root: Icb) -> Icb {
        self.volume.root = root;
        let block = self.take(1);
        self.put_block(block, &file_set(root));
        Icb::at(block, self.volume.partition)
    }

    /// The anchor, and a main sequence from a sector on, said to be `more` bytes longer than it is.
    pub fn sequence(&mut self, at: u64, descriptors: &[Vec<u8>], more: u32) {
        let length = descriptors.len() as u32 * 2048 + more;
        self.put_descriptor(ANCHOR, &anchor((length, at as u32), (length, at as u32)));
        for (i, d) in descriptors.iter().enumerate() {
            match d.len() {
                0..16 => self.put(at + i as u64, d),
                _ => self.put_descriptor(at + i as u64, d),
            }
        }
    }

    /// A path that may be asked for.
    pub fn path(&mut self, path: &[u8]) {
        self.paths.push(path.to_vec());
    }
}

/// A disc with one directory, the root, and what `make` puts into it.
pub fn with_root(make: impl FnOnce(&mut Disc) -> (Vec<Item>, Vec<u8>)) -> Disc {
    let mut disc = Disc::new(40, 0);
    let (items, tail) = make(&mut disc);
    for item in &items {
        disc.path(spoken(&item.recorded).as_bytes());
    }
    let root = disc.store_directory(&items, &tail, &Layout::of(0));
    disc.finish(root, &name8(b"DISC"));
    disc
}

/// Bytes of a file that tell where they stand. Thrifty ones are mostly zero, for images that are kept.
pub fn contents(random: &mut Random, n: usize, thrifty: bool) -> Vec<u8> {
    if !thrifty {
        return random.bytes(n);
    }
    let mut b = vec![0; n];
    for at in (0..n).step_by(2048) {
        let mark = random.next().to_le_bytes();
        let m = mark.len().min(n - at);
        b[at..at + m].copy_from_slice(&mark[..m]);
    }
    if let Some(last) = b.last_mut() {
        *last = random.next() as u8 | 1;
    }
    b
}
