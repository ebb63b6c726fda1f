//! Where many files go: each whole, none over another of the same run, and all of them synced together.
//!
//! An old file is replaced where a folder had its very name before the run. Any other name must be free: where it is there by now it is another file's,
//! as on a stick that doesn't tell case apart, and a number is put behind it. What replaces an old file waits under a temporary name until it is on the
//! disk, with others, so that a power cut or a pulled stick leaves the old file or the new one.

use crate::failure::{Failure, NO_OUTPUT, USAGE};
use crate::file::{Target, created, identity, keep_at, temporary};
use crate::safe::{folded, free};
use crate::signals::{MOST, Unfinished};
use crate::system;
use std::cell::LazyCell;
use std::collections::{HashMap, HashSet};
use std::ffi::{OsStr, OsString};
use std::fs::{self, File, Metadata};
use std::io;
use std::os::unix::fs::MetadataExt;
use std::path::{Path, PathBuf};

/// So many files wait at most, and about so many bytes: there must be room for them beside the old ones.
const WAITING: usize = MOST - 24;
const BYTES: u64 = 256 << 20;

/// The folded paths of all that a run will write, which no made-up name may be. Few runs make one up.
type Planned<'p> = LazyCell<HashSet<String>, Box<dyn FnOnce() -> HashSet<String> + 'p>>;

/// The folders that are written to.
pub struct Store<'p> {
    /// The names that a folder had before the run. One that the run has made isn't here, and had none.
    before: HashMap<PathBuf, HashSet<OsString>>,
    /// Where folders are that have another name than was planned.
    moved: HashMap<PathBuf, PathBuf>,
    planned: Planned<'p>,
    /// The number that the next made-up name for a path begins with.
    next: HashMap<String, u64>,
    /// Where old files are links, and these are followed, the places that were written.
    follows: bool,
    written: HashSet<PathBuf>,
    image: Option<(u64, u64)>,
    /// A folder of each file system.
    synced: HashMap<u64, PathBuf>,
    /// Whether a name can be taken by one call.
    can_rename: bool,
    /// Whether a file may have no name until it is whole, as far as was seen.
    can_link: bool,
    waiting: (usize, u64),
}

/// A file that was written, and where it is.
pub struct Put {
    pub at: PathBuf,
    pub length: u64,
    /// Where it replaces an old one, what does that.
    pub waits: Option<Waiting>,
}

/// A whole file that replaces another.
pub struct Waiting {
    unfinished: Unfinished,
    place: PathBuf,
}

impl Waiting {
    /// It takes the name.
    pub fn end(self) -> Result<(), Failure> {
        fs::rename(self.unfinished.path(), &self.place).map_err(|error| unwritten(&self.place, error))?;
        self.unfinished.named();
        Ok(())
    }
}

fn unwritten(to: &Path, error: io::Error) -> Failure {
    Failure::file(NO_OUTPUT, to.as_os_str(), format!("can't write this file: {error}{}", cure(&error)))
}

fn unmade(to: &Path, error: io::Error) -> Failure {
    Failure::file(NO_OUTPUT, to.as_os_str(), format!("can't create this folder: {error}{}", cure(&error)))
}

/// What to try where a file system doesn't take a name. exFAT in user space says of such a name that it isn't there.
fn cure(error: &io::Error) -> &'static str {
    if matches!(error.kind(), io::ErrorKind::InvalidInput | io::ErrorKind::InvalidFilename | io::ErrorKind::NotFound) {
        "; try get -r --portable, which writes names that every file system accepts"
    } else {
        ""
    }
}

impl<'p> Store<'p> {
    /// Of what goes to a folder, and below it. `planned` is all that will be written there.
    pub fn new(folder: &Path, image: &OsStr, follows: bool, planned: impl Iterator<Item = &'p Path> + 'p) -> Result<Store<'p>, Failure> {
        let image = fs::metadata(image).ok().map(|about| identity(&about));
        let folds = move || planned.map(|path| folded(&path.to_string_lossy())).collect();
        let planned: Planned = LazyCell::new(Box::new(folds));
        let (before, moved, next, written, synced) = Default::default();
        let mut store = Store {
            before,
            moved,
            planned,
            next,
            follows,
            written,
            image,
            synced,
            can_rename: true,
            can_link: system::can_link(),
            waiting: (0, 0),
        };
        store.open(folder).map_err(|error| Failure::file(NO_OUTPUT, folder.as_os_str(), format!("can't read this folder: {error}")))?;
        Ok(store)
    }

    /// Looks at what a folder has before anything is written there.
    fn open(&mut self, folder: &Path) -> io::Result<()> {
        self.synced.entry(fs::metadata(folder)?.dev()).or_insert_with(|| folder.to_path_buf());
        let names = fs::read_dir(folder)?.map(|entry| entry.map(|entry| entry.file_name())).collect::<io::Result<_>>()?;
        self.before.insert(folder.to_path_buf(), names);
        Ok(())
    }

    /// Whether a path was there before the run, by its very name.
    fn was(&self, path: &Path) -> bool {
        let names = path.parent().and_then(|folder| self.before.get(folder));
        names.is_some_and(|names| path.file_name().is_some_and(|name| names.contains(name)))
    }

    /// From now on it is the run's.
    fn taken(&mut self, path: &Path) {
        if let (Some(names), Some(name)) = (path.parent().and_then(|folder| self.before.get_mut(folder)), path.file_name()) {
            names.remove(name);
        }
    }

    /// Where a path is that was planned: its folder may have another name.
    fn actual(&self, planned: &Path) -> PathBuf {
        match (planned.parent().and_then(|folder| self.moved.get(folder)), planned.file_name()) {
            (Some(folder), Some(name)) => folder.join(name),
            _ => planned.to_path_buf(),
        }
    }

    /// The same with a number behind it, so that it is no other path that was planned.
    fn other(&mut self, planned: &Path) -> PathBuf {
        let (all, text) = (&self.planned, planned.to_string_lossy());
        let own = free(&text, &mut self.next, |own| !all.contains(&folded(own)));
        // The number alone: the path need not be text.
        let mut other = self.actual(planned).into_os_string();
        other.push(&own[text.len()..]);
        PathBuf::from(other)
    }

    /// Makes a folder, or takes the one that was there, and gives where it is. A link to one isn't followed.
    pub fn folder(&mut self, planned: &Path) -> Result<PathBuf, Failure> {
        let first = self.actual(planned);
        let mut at = first.clone();
        loop {
            if self.was(&at) {
                if fs::symlink_metadata(&at).is_ok_and(|there| there.is_dir()) {
                    self.open(&at).map_err(|error| unmade(&at, error))?;
                    self.taken(&at);
                    break;
                }
                if at == first {
                    return Err(Failure::file(NO_OUTPUT, at.as_os_str(), "this exists and is not a folder"));
                }
            }
            match fs::create_dir(&at) {
                Ok(()) => break,
                Err(error) if error.kind() == io::ErrorKind::AlreadyExists => at = self.other(planned),
                Err(error) => return Err(unmade(&at, error)),
            }
        }
        if at != planned {
            self.moved.insert(planned.to_path_buf(), at.clone());
        }
        Ok(at)
    }

    /// Writes a file, and gives where it is. One that replaces another waits.
    pub fn file(&mut self, planned: &Path, write: impl FnOnce(&mut File) -> Result<u64, Failure>) -> Result<Put, Failure> {
        let to = self.actual(planned);
        let old = if self.was(&to) { Some(self.old(&to)?) } else { None };
        if old.is_none()
            && let Some(file) = self.unnamed(&to)
        {
            return self.linked(file, planned, to, write);
        }
        let place = old.as_ref().map_or(&to, |(place, _)| place);
        let made = created(place, "new", old.as_ref().map(|(_, about)| about));
        let (unfinished, mut file) = made.map_err(|error| unwritten(&to, error))?;
        let length = write(&mut file)?;
        system::closed(file).map_err(|error| unwritten(&to, error))?;
        match old {
            Some((place, about)) => self.replaced(unfinished, to, place, &about, length),
            None => self.named(unfinished, planned, to, length),
        }
    }

    /// A new file with no name, where there are such.
    fn unnamed(&mut self, to: &Path) -> Option<File> {
        let file = self.can_link.then(|| system::unnamed(to.parent()?).ok()).flatten();
        self.can_link = file.is_some();
        file
    }

    /// Writes a new file, and then gives it its name. Where that is taken it goes on as a file with a temporary one.
    fn linked(
        &mut self,
        mut file: File,
        planned: &Path,
        to: PathBuf,
        write: impl FnOnce(&mut File) -> Result<u64, Failure>,
    ) -> Result<Put, Failure> {
        let length = write(&mut file)?;
        let named = match system::link_new(&file, &to) {
            Err(error) if error.kind() == io::ErrorKind::AlreadyExists => {
                temporary(&to, "new").and_then(|unfinished| system::link_new(&file, unfinished.path()).map(|()| Some(unfinished)))
            }
            done => done.map(|()| None),
        };
        let unfinished = named.map_err(|error| unwritten(&to, error))?;
        system::closed(file).map_err(|error| unwritten(&to, error))?;
        if let Some(unfinished) = unfinished {
            return self.named(unfinished, planned, to, length);
        }
        self.note(&to);
        Ok(Put { at: to, length, waits: None })
    }

    /// Gives a new file its name, or the first with a number behind it that is free or was there before the run.
    fn named(&mut self, unfinished: Unfinished, planned: &Path, mut at: PathBuf, length: u64) -> Result<Put, Failure> {
        loop {
            match self.take(unfinished.path(), &at) {
                Ok(()) => break,
                Err(error) if error.kind() == io::ErrorKind::AlreadyExists => at = self.other(planned),
                Err(error) => return Err(unwritten(&at, error)),
            }
            if self.was(&at)
                && let Ok((place, about)) = self.old(&at)
            {
                return self.replaced(unfinished, at, place, &about, length);
            }
        }
        unfinished.named();
        self.note(&at);
        Ok(Put { at, length, waits: None })
    }

    /// Gives a file a name that must be free.
    fn take(&mut self, from: &Path, to: &Path) -> io::Result<()> {
        if self.can_rename {
            match system::rename_new(from, to) {
                Err(error) if system::is_unknown(&error) => self.can_rename = false,
                done => return done,
            }
        }
        // An empty file takes the name first, and is replaced.
        File::options().write(true).create_new(true).open(to)?;
        let reserved = Unfinished::at(to.to_path_buf())?;
        fs::rename(from, to)?;
        reserved.named();
        Ok(())
    }

    /// A file that replaces an old one, with its mode, and its owner where that may be.
    fn replaced(&mut self, unfinished: Unfinished, at: PathBuf, place: PathBuf, old: &Metadata, length: u64) -> Result<Put, Failure> {
        keep_at(unfinished.path(), old).map_err(|error| unwritten(&at, error))?;
        self.taken(&at);
        self.note(&at);
        self.waiting = (self.waiting.0 + 1, self.waiting.1.saturating_add(length));
        Ok(Put { at, length, waits: Some(Waiting { unfinished, place }) })
    }

    /// The old file of a name, and where it stands.
    fn old(&self, to: &Path) -> Result<(PathBuf, Metadata), Failure> {
        let target = if self.follows { Target::at(to.as_os_str())? } else { Target::inside(to.as_os_str())? };
        let place = target.place().ok_or_else(|| Failure::file(NO_OUTPUT, to.as_os_str(), "not a regular file"))?;
        let about = fs::symlink_metadata(place).map_err(|error| unwritten(to, error))?;
        if self.image == Some(identity(&about)) {
            return Err(Failure::file(USAGE, to.as_os_str(), "this is the image itself: choose another file"));
        }
        if self.follows && self.written.contains(place) {
            return Err(Failure::file(USAGE, to.as_os_str(), "this is the same file as one already written"));
        }
        Ok((place.to_path_buf(), about))
    }

    fn note(&mut self, at: &Path) {
        if self.follows {
            self.written.extend(fs::canonicalize(at));
        }
    }

    /// Whether so many files wait that they should take their names.
    pub fn is_full(&self) -> bool {
        self.waiting.0 >= WAITING || self.waiting.1 >= BYTES
    }

    /// Has all written to the disk. Then those that wait may take their names.
    pub fn sync(&mut self) -> Result<(), Failure> {
        self.waiting = (0, 0);
        for folder in self.synced.values() {
            system::sync(folder).map_err(|error| {
                Failure::file(NO_OUTPUT, folder.as_os_str(), format!("can't sync what was written here to disk: {error}"))
            })?;
        }
        Ok(())
    }
}

#[cfg(test)]
mod tests {
    use super::*;
    use std::io::Write;

    fn run(folder: &Path, names: &[&str]) -> Vec<String> {
        let planned: Vec<PathBuf> = names.iter().map(|name| folder.join(name)).collect();
        let mut store = Store::new(folder, OsStr::new("none"), false, planned.iter().map(|path| &**path)).unwrap();
        let mut put = |to: &PathBuf| {
            let put = store.file(to, |file| file.write_all(b"new").map(|()| 3).map_err(|error| unwritten(to, error))).unwrap();
            let name = put.at.file_name().unwrap().to_string_lossy().into_owned();
            put.waits.map_or(Ok(()), Waiting::end).unwrap();
            name
        };
        planned.iter().map(&mut put).collect()
    }

    /// A folder where one name is there in spite of what it had before the run is what a folder that folds case looks like. Each call that takes a name
    /// is tried: that of the system, and where there is none the file that holds the name.
    #[test]
    fn a_name_that_is_there_by_now_is_another_s() {
        let folder = std::env::temp_dir().join(format!("vault-store-{}", std::process::id()));
        fs::create_dir(&folder).unwrap();
        assert_eq!(run(&folder, &["a", "b", "a", "a~2", "a"]), ["a", "b", "a~3", "a~2", "a~4"]);
        fs::write(folder.join("b"), b"old").unwrap();
        // What was there before is replaced, once.
        assert_eq!(run(&folder, &["b", "b"]), ["b", "b~2"]);
        for can_rename in [true, false] {
            let mut store = Store::new(&folder, OsStr::new("none"), false, std::iter::empty()).unwrap();
            store.can_rename = can_rename;
            let (from, to) = (folder.join("from"), folder.join(format!("to {can_rename}")));
            fs::write(&from, b"1").unwrap();
            store.take(&from, &to).unwrap();
            fs::write(&from, b"2").unwrap();
            assert_eq!(store.take(&from, &to).unwrap_err().kind(), io::ErrorKind::AlreadyExists);
            assert_eq!((fs::read(&to).unwrap(), fs::read(&from).unwrap()), (b"1".to_vec(), b"2".to_vec()));
        }
        fs::remove_dir_all(&folder).unwrap();
    }

    #[test]
    fn a_folder_that_is_there_by_now_is_another_s() {
        let folder = std::env::temp_dir().join(format!("vault-folders-{}", std::process::id()));
        fs::create_dir_all(folder.join("old")).unwrap();
        let mut store = Store::new(&folder, OsStr::new("none"), false, std::iter::empty()).unwrap();
        assert_eq!(store.folder(&folder.join("old")).unwrap(), folder.join("old"));
        // Made by the run, as by another spelling.
        fs::create_dir(folder.join("new")).unwrap();
        assert_eq!(store.folder(&folder.join("new")).unwrap(), folder.join("new~2"));
        assert_eq!(store.actual(&folder.join("new/cue")), folder.join("new~2/cue"));
        fs::remove_dir_all(&folder).unwrap();
    }
}
