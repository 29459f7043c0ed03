//! The sheets in the folder sheets/: each has the report that stands beside it.

use reference::report::printed;
use reference::sheet::{bytes, read, Room};
use std::fs;
use std::path::{Path, PathBuf};

fn sheets() -> Vec<PathBuf> {
    let folder = Path::new(env!("CARGO_MANIFEST_DIR")).join("../sheets");
    let paths = fs::read_dir(folder).unwrap().map(|entry| entry.unwrap().path());
    paths.filter(|path| path.extension().is_some_and(|e| e == "sheet")).collect()
}

#[test]
fn each_sheet_has_its_report() {
    let sheets = sheets();
    assert!(sheets.len() >= 30);
    for path in sheets {
        let report = fs::read(path.with_extension("report")).unwrap();
        assert_eq!(printed(&fs::read(&path).unwrap()), report, "{}", path.display());
    }
}

#[test]
fn what_is_read_writes_back() {
    for path in sheets() {
        let sheet = fs::read(&path).unwrap();
        match read(&sheet, Room::AMPLE) {
            Ok(held) => assert_eq!(bytes(&held), sheet, "{}", path.display()),
            Err(_) => assert!(path.file_name().unwrap().to_str().unwrap().starts_with("refused-")),
        }
    }
}

#[test]
fn the_longest_sheets() {
    let folder = Path::new(env!("CARGO_MANIFEST_DIR")).join("../sheets");
    assert_eq!(fs::read(folder.join("full.sheet")).unwrap().len(), 8192);
    assert_eq!(fs::read(folder.join("refused-long.sheet")).unwrap().len(), 8193);
}
