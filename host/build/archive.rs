// Where the archive is, or what to do about a missing one.
use std::path::{Path, PathBuf};

const ARCHIVE: &str = "libnigvalds.a";

// The interface that the package is written for: the archive's names end so, as in include/nigvalds.h.
pub const INTERFACE: &str = "_0_7";

// The archive in the chosen folder, otherwise in the repository's target/staticlib.
pub fn find(chosen: Option<&Path>, repository: &Path) -> Result<PathBuf, String> {
    let built = repository.join("target/staticlib");
    let archive = chosen.unwrap_or(&built).join(ARCHIVE);
    if archive.is_file() {
        return Ok(archive);
    }
    let missing = format!("{} is missing", archive.display());
    Err(match chosen {
        Some(_) => format!("{missing}: NIGVALDS_LIB_DIR must name the folder that holds {ARCHIVE}, as PREFIX/lib after `make install PREFIX=..`"),
        None => format!(
            "{missing}: run `make archive` in the repository (it needs the Rattle toolchain, `rt`), or set NIGVALDS_LIB_DIR to the folder that holds {ARCHIVE}"
        ),
    })
}

// Whether an archive has this interface: its names end in zeros there. One that has another does not link; this says why.
pub fn fits(archive: &Path) -> Result<(), String> {
    let bytes = std::fs::read(archive).map_err(|why| format!("{}: {why}", archive.display()))?;
    let name = format!("nigvalds_open{INTERFACE}\0");
    if bytes.windows(name.len()).any(|place| place == name.as_bytes()) {
        return Ok(());
    }
    Err(format!(
        "{} is not of the interface {} that this package is written for: run `make archive` in the repository, or take package and archive of one version",
        archive.display(),
        INTERFACE.trim_start_matches('_').replace('_', ".")
    ))
}
