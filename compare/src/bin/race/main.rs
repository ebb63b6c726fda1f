//! Calls the archive while another thread writes to the image, or to what else the call finds: a list of paths, a path, a shelf's lengths, the
//! writer's names and lengths.
//!
//!     race [--seconds N] [--seed S] [--flip WORDS]
//!
//! The proofs take the image as standing still. Where it doesn't, an answer may be that of no image; what has to hold all the same is that a
//! call answers with a number of the table, writes nothing but the answered front of its output, leaves its work space all zero, and
//! touches no memory that it wasn't lent. Ends with 0 and a line of figures; with 1 at the first violation, and what was seen; with 2 if it was
//! called wrongly. With --flip only the flips are made that have these words in their names.

#[cfg(linked)]
mod asks;
#[cfg(linked)]
mod faults;
#[cfg(linked)]
mod flips;
#[cfg(linked)]
mod images;
#[cfg(linked)]
mod lists;
#[cfg(linked)]
mod memory;
#[cfg(linked)]
mod rounds;
#[cfg(linked)]
mod stage;
#[cfg(linked)]
mod writes;

#[cfg(linked)]
fn main() {
    rounds::main();
}

#[cfg(not(linked))]
fn main() {
    eprintln!("race: the archive is x86-64 code, and this machine is another");
    std::process::exit(3);
}
