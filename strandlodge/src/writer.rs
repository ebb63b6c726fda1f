//! Writes a complete image from names and files.

use crate::answer::Refusal;
use crate::calls;
use crate::counted::SECTOR_SIZE;

/// The bytes of a complete image of these files, in order. docs/LAYOUT.md describes every byte. Equal files give equal
/// images.
///
/// A name has 1 to 127 bytes from 21 to 7E, without the slash, and no two may be equal with ASCII case ignored;
/// otherwise the call is refused with 13. There may be up to 64 files of up to 1,073,739,776 bytes each; otherwise it
/// is refused with 14. It is refused with 5 if there is no memory for the image, or for a copy of the files one after
/// another, from which it is written. If your files already are one after another in memory, use [`write_staged`].
///
/// ```no_run
/// # fn main() -> std::result::Result<(), Box<dyn std::error::Error>> {
/// let image = strandlodge::write(&[("9", &b"cue 9"[..]), ("10.1A", b"cue 10.1A")])?;
/// let disc = strandlodge::Disc::open(&image)?;
/// assert_eq!(disc.read_path("10.1A")?, b"cue 10.1A");
/// # Ok(())
/// # }
/// ```
///
/// # Errors
///
/// Refusal 13 for a name, 14 for the files, 5 if there is no memory for the image.
pub fn write(files: &[(impl AsRef<[u8]>, impl AsRef<[u8]>)]) -> Result<Vec<u8>, Refusal> {
    let names = ended(files.iter().map(|(name, _)| name.as_ref()))?;
    let lengths: Vec<u64> = files.iter().map(|(_, bytes)| bytes.as_ref().len() as u64).collect();
    let mut image = room(calls::write_total(&names, &lengths)?.saturating_mul(SECTOR_SIZE))?;
    let mut staging = room(lengths.iter().sum())?;
    files.iter().for_each(|(_, bytes)| staging.extend_from_slice(bytes.as_ref()));
    calls::write_into(&names, &lengths, &staging, &mut image)?;
    Ok(image)
}

/// The same for files that are one after another in `staging`, from its front. The image goes to the front of `image`,
/// and the rest of it is unchanged. Returns the number of sectors of 2,048 bytes. It is refused with 5 if `image` has
/// fewer whole sectors. A refusal writes nothing.
///
/// ```
/// # fn main() -> Result<(), strandlodge::Refusal> {
/// let (names, lengths) = (["9", "11"], [5, 6]);
/// let mut image = vec![0; strandlodge::write_total(&names, &lengths)? as usize * 2048];
/// let sectors = strandlodge::write_staged(&names, &lengths, b"cue 9cue 11", &mut image)?;
/// assert_eq!(sectors as usize * 2048, image.len());
/// # Ok(())
/// # }
/// ```
///
/// # Errors
///
/// Refusal 13 for a name, 14 for the files or the staging area, 5 if `image` is too short.
pub fn write_staged(names: &[impl AsRef<[u8]>], lengths: &[u64], staging: &[u8], image: &mut [u8]) -> Result<u64, Refusal> {
    calls::write(&ended(names.iter().map(AsRef::as_ref))?, lengths, staging, image)
}

/// The number of sectors of the image of files with these names and lengths, or why it can't be written: what
/// [`write_staged`] returns, given enough memory.
///
/// ```
/// assert_eq!(strandlodge::write_total(&["9", "11"], &[5, 6]), Ok(384));
/// assert_eq!(strandlodge::write_total(&["a/b"], &[5]), Err(strandlodge::Refusal::BadName));
/// ```
///
/// # Errors
///
/// Refusal 13 for a name, 14 for the files.
pub fn write_total(names: &[impl AsRef<[u8]>], lengths: &[u64]) -> Result<u64, Refusal> {
    calls::write_total(&ended(names.iter().map(AsRef::as_ref))?, lengths)
}

/// The names, each followed by a zero byte. A name that contains a zero byte would be two, so it is refused.
fn ended<'a>(names: impl Iterator<Item = &'a [u8]>) -> Result<Vec<u8>, Refusal> {
    let mut all = Vec::new();
    for name in names {
        if name.contains(&0) {
            return Err(Refusal::BadName);
        }
        all.try_reserve(name.len() + 1).map_err(|_| Refusal::NoRoom)?;
        all.extend_from_slice(name);
        all.push(0);
    }
    Ok(all)
}

fn room(bytes: u64) -> Result<Vec<u8>, Refusal> {
    let mut room = Vec::new();
    room.try_reserve_exact(usize::try_from(bytes).map_err(|_| Refusal::NoRoom)?).map_err(|_| Refusal::NoRoom)?;
    Ok(room)
}
