//! The kept case files are those that the timed sheets make.
use std::collections::BTreeMap;
use std::fs;
use std::path::{Path, PathBuf};
use std::process::Command;

/// The files of a folder by name.
fn files(folder: &Path) -> BTreeMap<String, Vec<u8>> {
    let name = |path: &PathBuf| path.file_name().unwrap().to_str().unwrap().to_string();
    let paths = fs::read_dir(folder)
        .expect("a folder")
        .map(|entry| entry.unwrap().path());
    paths
        .map(|path| (name(&path), fs::read(&path).expect("a file")))
        .collect()
}

#[test]
fn kept_cases_are_those_of_the_sheets() {
    let made = Path::new(env!("CARGO_TARGET_TMPDIR")).join("cases");
    let _ = fs::remove_dir_all(&made);
    let bench = Command::new(env!("CARGO_BIN_EXE_bench"))
        .arg("--cases")
        .arg(&made)
        .status();
    assert!(bench.expect("bench starts").success());
    let (made, kept) = (
        files(&made),
        files(&Path::new(env!("CARGO_MANIFEST_DIR")).join("count/cases")),
    );
    assert!(
        made.keys().eq(kept.keys()),
        "made {:?}, kept {:?}",
        made.keys(),
        kept.keys()
    );
    for (name, file) in &made {
        assert!(
            *file == kept[name],
            "{name} differs: write it anew with `bench --cases`"
        );
    }
    assert!(!made.is_empty());
}
