//! What the programs share: the calls, the archive linked in, and a builder of images that shares nothing with the reader.

pub mod bodies;
pub mod calls;
pub mod disc;
#[cfg(linked)]
pub mod linked;
pub mod random;
pub mod records;
