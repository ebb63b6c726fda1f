//! The C interface of the proved archives, declared for Rust: include/vault.h in [`vault`], include/records.h in
//! [`records`]. tools/faces.py makes the headers and these modules from the proved sources. A struct has its C name
//! without the prefix: `vault_long_ad` is [`vault::LongAd`]. Size, alignment and the offset of each field are asserted
//! at compile time.
//!
//! The archives are x86-64 code for Linux, and are linked only there. Most programs use the crate `strandlodge`, which
//! wraps these calls.
//!
//! [`icbs`] converts an ICB from and to its recorded form. [`sparse`], [`asked`], [`said`] and [`replay`] are for the
//! programs and tests of the repository: its images are stored sparse, and the queries on them are stored with their
//! expected results.

#[macro_use]
mod layout;

pub mod asked;
pub mod icbs;
pub mod records;
pub mod replay;
pub mod said;
pub mod sparse;
pub mod vault;
