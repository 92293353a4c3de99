//! The archive that the build looks for, and what it says where there is none or one of another interface.
#[path = "../build/archive.rs"]
mod archive;

use std::fs;
use std::path::{Path, PathBuf};

// An empty folder of this test's own.
fn folder(name: &str) -> PathBuf {
    let path = Path::new(env!("CARGO_TARGET_TMPDIR")).join(name);
    let _ = fs::remove_dir_all(&path);
    fs::create_dir_all(&path).unwrap();
    path
}

#[test]
fn chosen_folder() {
    let (with, without) = (folder("with"), folder("without"));
    fs::write(with.join("libnigvalds.a"), "").unwrap();
    assert_eq!(archive::find(Some(&with), &without), Ok(with.join("libnigvalds.a")));
    let why = archive::find(Some(&without), &with).unwrap_err();
    assert!(why.starts_with(&format!("{} is missing: NIGVALDS_LIB_DIR must name", without.join("libnigvalds.a").display())), "{why}");
}

#[test]
fn repository() {
    let repository = folder("repository");
    let why = archive::find(None, &repository).unwrap_err();
    assert!(why.contains("target/staticlib/libnigvalds.a is missing: run `make archive`") && why.contains("NIGVALDS_LIB_DIR"), "{why}");
    fs::create_dir_all(repository.join("target/staticlib")).unwrap();
    fs::write(repository.join("target/staticlib/libnigvalds.a"), "").unwrap();
    assert_eq!(archive::find(None, &repository), Ok(repository.join("target/staticlib/libnigvalds.a")));
}

// An archive of before the names carried the interface, one of another interface, and the one that this test is linked with.
#[test]
fn interface() {
    let others = folder("others");
    for names in ["nigvalds_open\0", "nigvalds_open_0_6\0", &format!("nigvalds_open{}0\0", archive::INTERFACE)] {
        let other = others.join("libnigvalds.a");
        fs::write(&other, names).unwrap();
        let why = archive::fits(&other).unwrap_err();
        assert!(why.starts_with(&other.display().to_string()) && why.contains("is not of the interface 0."), "{why}");
    }
    let chosen = std::env::var_os("NIGVALDS_LIB_DIR");
    let repository = Path::new(env!("CARGO_MANIFEST_DIR")).parent().unwrap();
    assert_eq!(archive::fits(&archive::find(chosen.as_deref().map(Path::new), repository).unwrap()), Ok(()));
}
