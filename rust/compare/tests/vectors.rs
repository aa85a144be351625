//! The stored tables of the program `vectors`, and what it has to print, are
//! those that are written here.

use std::fs;

use jogipahn_compare::vectors;

fn stored(file: &str) -> String {
    let path = format!("{}/../../crates/vectors/{file}", env!("CARGO_MANIFEST_DIR"));
    fs::read_to_string(path).unwrap()
}

#[test]
fn stored_files_are_those_that_are_written() {
    let cases = vectors::cases();
    let hint = "cargo run --release --bin vectors writes it anew";
    assert!(stored("src/tables.rt") == vectors::source(&cases), "{hint}");
    assert!(stored("stdout") == vectors::printed(&cases), "{hint}");
}
