//! Links the proved archive that `tools/archive` leaves in the project's target folder.
use std::path::Path;

fn main() {
    let folder = Path::new(env!("CARGO_MANIFEST_DIR")).join("../target/staticlib");
    let archive = folder.join("libportal.a");
    assert!(
        archive.exists(),
        "no {}: run `tools/archive` in the project's root first",
        archive.display()
    );
    println!("cargo::rustc-link-search=native={}", folder.display());
    println!("cargo::rustc-link-lib=static=portal");
    println!("cargo::rerun-if-changed={}", archive.display());
}
