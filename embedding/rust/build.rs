//! Says where the static library is: in NEKHVOZU_LIBRARY, or where `rt lib` leaves it in this repository.
use std::{env, path::PathBuf};

fn main() {
    println!("cargo::rerun-if-env-changed=NEKHVOZU_LIBRARY");
    let folder = match env::var_os("NEKHVOZU_LIBRARY") {
        Some(folder) => PathBuf::from(folder),
        None => PathBuf::from(env!("CARGO_MANIFEST_DIR")).join("../../crates/nekhvozu/out"),
    };
    println!("cargo::rustc-link-search=native={}", folder.display());
    println!("cargo::rerun-if-changed={}", folder.join("libnekhvozu.a").display());
}
