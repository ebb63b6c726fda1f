//! A disc of 2 GiB: nothing is read but what is looked at.

mod common;

use common::command::Folder;
use common::show;
use std::io::Write;
use std::time::{Duration, Instant};

/// The most memory that a run so far had, in KiB: the system's count for the ended children of this test (`getrusage`), whose program has
/// no other test in it.
#[allow(unsafe_code)]
fn most_memory() -> i64 {
    const CHILDREN: i32 = -1;
    unsafe extern "C" {
        fn getrusage(who: i32, usage: *mut [i64; 18]) -> i32;
    }
    let mut usage = [0; 18];
    // SAFETY: the record has 18 numbers of 64 bits on this system, of which the fifth is the memory.
    let answer = unsafe { getrusage(CHILDREN, &mut usage) };
    assert_eq!(answer, 0);
    usage[4]
}

#[test]
fn a_large_disc_costs_little() {
    let folder = Folder::new();
    let mut disc = std::fs::File::create(folder.at("disc.img")).unwrap();
    disc.write_all(&show()).unwrap();
    disc.set_len(2 << 30).unwrap();
    let asked = [
        (&["ls", "disc.img", "SHOW"][..], "9\n10.1A\n10.1a\n11\n"),
        (&["stat", "disc.img", "SHOW/11"], "path     SHOW/11\n"),
        (&["cat", "disc.img", "SHOW/11"], "cue 11\nblackout\n"),
    ];
    for (words, front) in asked {
        let began = Instant::now();
        let said = folder.vault(words);
        let took = began.elapsed();
        assert!(said.status == 0 && said.out.starts_with(front), "{words:?} {said:?}");
        assert!(took < Duration::from_secs(1), "{words:?} took {took:?}");
        let most = most_memory();
        assert!(most > 0 && most < 50 << 10, "{words:?}: {most} KiB");
        println!("{words:?}: {took:?}, at most {most} KiB");
    }
}
