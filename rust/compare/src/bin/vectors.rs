//! Writes the tables of the program `vectors` and what it has to print.

use std::fs;

use jogipahn_compare::vectors;

fn main() -> std::io::Result<()> {
    let folder = concat!(env!("CARGO_MANIFEST_DIR"), "/../../crates/vectors");
    let cases = vectors::cases();
    fs::write(format!("{folder}/src/tables.rt"), vectors::source(&cases))?;
    fs::write(format!("{folder}/stdout"), vectors::printed(&cases))
}
