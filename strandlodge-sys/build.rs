//! Finds the archives of the proved crates and links them.
//!
//! They are libvault_c.a, libdrives_c.a, libsurveys_c.a and librecords_c.a. The folder is `VAULT_ARCHIVE` if that is set. Otherwise it is target/staticlib of the
//! repository, which holds only proved archives, or target/unproved, for archives whose proofs were not checked on this machine; there no archive may be older than a
//! source.
//!
//! librecords_c.a is linked only if it exists: you need it only to call include/records.h. The archives are x86-64 code for Linux. On any other target nothing is
//! linked: the declarations are of no use there, but the rest of the crate is.
//!
//! A dependent's build script gets the folder (`DEP_STRANDLODGE_FOLDER`) and whether the proofs of its archives were checked (`DEP_STRANDLODGE_PROOFS`): `checked`,
//! `unchecked`, or `unknown` for a folder from `VAULT_ARCHIVE`.

use std::path::{Path, PathBuf};
use std::time::SystemTime;
use std::{env, fs};

/// The crates whose archives are linked, and whether each is required.
const CRATES: [(&str, bool); 4] = [("vault_c", true), ("drives_c", true), ("surveys_c", true), ("records_c", false)];

/// The folders of a crate that its archive is made of.
const PARTS: [&str; 3] = ["src", "specs", "proofs"];

fn main() {
    println!("cargo::rerun-if-env-changed=VAULT_ARCHIVE");
    let (folder, proofs) =
        env::var_os("VAULT_ARCHIVE").filter(|given| !given.is_empty()).map_or_else(beside, |given| (given.into(), "unknown"));
    println!("cargo::metadata=folder={}", folder.display());
    println!("cargo::metadata=proofs={proofs}");
    let target = |what: &str| env::var(format!("CARGO_CFG_TARGET_{what}")).unwrap_or_default();
    if (target("ARCH").as_str(), target("OS").as_str()) != ("x86_64", "linux") {
        return;
    }
    println!("cargo::rustc-link-search=native={}", folder.display());
    for (name, needed) in CRATES {
        let archive = archive(&folder, name);
        println!("cargo::rerun-if-changed={}", archive.display());
        if archive.exists() {
            println!("cargo::rustc-link-lib=static={name}");
        } else if needed {
            println!(
                "cargo::error={} is missing, or older than a source: run ./vault --build, or ./vault --prove for a proved one",
                archive.display()
            );
        }
    }
}

fn archive(folder: &Path, name: &str) -> PathBuf {
    folder.join(format!("lib{name}.a"))
}

/// The archives of the repository, whose root is the folder above this crate: the proved ones if there are any.
fn beside() -> (PathBuf, &'static str) {
    let root = PathBuf::from(env::var_os("CARGO_MANIFEST_DIR").unwrap_or_default()).join("..");
    // Behind crates/NAME/out stands what rt makes of the sources.
    let newest = entries(&root.join("crates"))
        .flat_map(|crate_at| PARTS.map(|part| crate_at.join(part)))
        .filter(|part| part.is_dir())
        .inspect(|part| println!("cargo::rerun-if-changed={}", part.display()))
        .filter_map(|part| newest(&part))
        .max();
    println!("cargo::rerun-if-changed={}", root.join("crates.txt").display());
    let proved = root.join("target/staticlib");
    println!("cargo::rerun-if-changed={}", proved.display());
    let unproved = root.join("target/unproved");
    match (is_fresh(&proved, newest), is_fresh(&unproved, newest)) {
        (true, _) => (proved, "checked"),
        (false, true) => (unproved, "unchecked"),
        // Without archives, main reports them as missing from this folder.
        (false, false) => (root.join("target/none"), "unknown"),
    }
}

/// Whether a folder has the required archives, none older than this.
fn is_fresh(folder: &Path, newest: Option<SystemTime>) -> bool {
    CRATES.iter().all(|(name, needed)| changed(&archive(folder, name)).map_or(!needed, |made| Some(made) >= newest))
}

fn entries(at: &Path) -> impl Iterator<Item = PathBuf> {
    fs::read_dir(at).into_iter().flatten().flatten().map(|entry| entry.path())
}

fn changed(file: &Path) -> Option<SystemTime> {
    fs::metadata(file).ok()?.modified().ok()
}

/// When the newest source in a folder was changed.
fn newest(folder: &Path) -> Option<SystemTime> {
    let times = entries(folder).filter_map(|path| match path.extension().and_then(|end| end.to_str()) {
        Some("rt" | "antt") => changed(&path),
        _ if path.is_dir() => newest(&path),
        _ => None,
    });
    times.max()
}
