//! Checks that the archive of `records_c` exists: `strandlodge-sys` links it only if it does, and this crate can't be linked without it. It also tells the
//! command whether the archives' proofs were checked (`VAULT_PROOFS`).

use std::env;
use std::path::PathBuf;

fn main() {
    println!("cargo::rerun-if-env-changed=DEP_STRANDLODGE_FOLDER");
    println!("cargo::rerun-if-env-changed=DEP_STRANDLODGE_PROOFS");
    println!("cargo::rustc-env=VAULT_PROOFS={}", env::var("DEP_STRANDLODGE_PROOFS").unwrap_or_default());
    let archive = PathBuf::from(env::var_os("DEP_STRANDLODGE_FOLDER").unwrap_or_default()).join("librecords_c.a");
    println!("cargo::rerun-if-changed={}", archive.display());
    let target = |what: &str| env::var(format!("CARGO_CFG_TARGET_{what}")).unwrap_or_default();
    if (target("ARCH").as_str(), target("OS").as_str()) == ("x86_64", "linux") && !archive.exists() {
        println!(
            "cargo::error={} is missing: run `./vault --build` in the root of the repository",
            archive.display()
        );
    }
}
