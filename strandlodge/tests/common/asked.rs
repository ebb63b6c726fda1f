//! The stored queries of the program `asker`, and what it says to them.

use strandlodge_sys::asked::{self, Image};

fn path(file: &str) -> String {
    format!("{}/../crates/asker/{file}", env!("CARGO_MANIFEST_DIR"))
}

/// A file of queries.
pub fn file(name: &str) -> Vec<u8> {
    std::fs::read(path(&format!("data/{name}"))).unwrap()
}

/// Its images.
pub fn images(name: &str) -> Vec<Image> {
    asked::images(&file(name)).map(|image| image.unwrap_or_else(|wrong| panic!("{name}: {wrong}"))).collect()
}

/// What is stored of all of them.
pub fn output() -> String {
    std::fs::read_to_string(path("stdout")).unwrap()
}
