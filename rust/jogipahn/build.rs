//! Finds the archive `libjogipahn.a`: in the folder that `JOGIPAHN_LIB_DIR` names; else in the repository that this
//! crate is a part of; else where pkg-config says.

use std::env;
use std::path::{Path, PathBuf};
use std::process::{exit, Command};

const ARCHIVE: &str = "libjogipahn.a";

const ADVICE: &str = "\
Build the archive with `sh scripts/build archive` in the repository that this crate is a part of; or name the folder that
holds libjogipahn.a in JOGIPAHN_LIB_DIR; or install it with `make install` and have pkg-config find jogipahn.pc.";

fn main() {
    println!("cargo:rerun-if-changed=build.rs");
    for name in ["JOGIPAHN_LIB_DIR", "PKG_CONFIG", "PKG_CONFIG_PATH"] {
        println!("cargo:rerun-if-env-changed={name}");
    }
    let found = match env::var_os("JOGIPAHN_LIB_DIR") {
        Some(folder) => holding(PathBuf::from(folder)),
        None => repository().map_or_else(installed, Ok),
    };
    match found {
        Ok(folder) => link(&folder),
        Err(reason) => {
            eprintln!("{reason}\n{ADVICE}");
            exit(1);
        }
    }
}

/// The folder, where it holds the archive.
fn holding(folder: PathBuf) -> Result<PathBuf, String> {
    if folder.join(ARCHIVE).is_file() {
        return Ok(folder);
    }
    Err(format!("{} holds no {ARCHIVE}.", folder.display()))
}

/// The repository's own archive; the header shows that this is the repository.
fn repository() -> Option<PathBuf> {
    let root = PathBuf::from(env::var_os("CARGO_MANIFEST_DIR")?).join("../..");
    if !root.join("include/jogipahn.h").is_file() {
        return None;
    }
    holding(root.join("target/staticlib")).ok()
}

/// The archive that pkg-config knows, of this version or a later one with the same major number.
fn installed() -> Result<PathBuf, String> {
    let major: u64 = env!("CARGO_PKG_VERSION_MAJOR").parse().unwrap_or(0);
    let least = concat!("jogipahn >= ", env!("CARGO_PKG_VERSION"));
    let versions = format!("{least}, jogipahn < {}", major + 1);
    pkg_config(&["--print-errors", "--exists", &versions])?;
    pkg_config(&["--variable=libdir", "jogipahn"]).and_then(|folder| holding(PathBuf::from(folder)))
}

/// What pkg-config prints, or why it fails.
fn pkg_config(arguments: &[&str]) -> Result<String, String> {
    let program = env::var_os("PKG_CONFIG").unwrap_or_else(|| "pkg-config".into());
    let output = Command::new(program)
        .args(arguments)
        .output()
        .map_err(|error| format!("pkg-config can't be run: {error}."))?;
    let text = |bytes: Vec<u8>| String::from_utf8_lossy(&bytes).trim().to_owned();
    match output.status.success() {
        true => Ok(text(output.stdout)),
        false => Err(text(output.stderr)),
    }
}

fn link(folder: &Path) {
    println!("cargo:rerun-if-changed={}", folder.join(ARCHIVE).display());
    println!("cargo:rustc-link-search=native={}", folder.display());
    println!("cargo:rustc-link-lib=static=jogipahn");
}
