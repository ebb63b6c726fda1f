//! Holds the archives of vault_c, drives_c, surveys_c and records_c to the original that they were made from.
//!
//!     compare [--seconds N] [--seed S] [--first] [--port | --port=PROGRAM]
//!     compare --bench [--port]        how long the calls take; --rows WORDS: only those with these words in their names
//!     compare --list FOLDER           data/replayed, a list of queries for crates/asker
//!     compare --stored FOLDER         the stored output of asker or survey_cases, held to the original
//!     compare --image FILE            an image that is given, held to the original: all that it lists
//!
//! Ends with 0 if all was the same, 1 at a mismatch, 2 if it was called wrongly, 3 where the original isn't there.

#[cfg(original)]
include!(concat!(env!("OUT_DIR"), "/original.rs"));

#[cfg(original)]
mod run;

#[cfg(original)]
fn main() {
    run::main();
}

#[cfg(not(original))]
fn main() {
    eprintln!("compare: the original is not in {} (UDF_ORIGINAL names its folder)", env!("ORIGINAL_FOLDER"));
    std::process::exit(3);
}
