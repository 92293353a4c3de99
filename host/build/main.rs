// Links the archive of the proved library: that of NIGVALDS_LIB_DIR, otherwise target/staticlib/libnigvalds.a of the repository. Where the latter is missing,
// `tools/archive nigvalds` proves the library and writes it.
mod archive;

use std::path::Path;
use std::process::Command;

fn main() {
    let package = std::env::var("CARGO_MANIFEST_DIR").expect("cargo names the package's folder");
    let repository = Path::new(&package).parent().expect("the package stands in a folder");
    let chosen = std::env::var_os("NIGVALDS_LIB_DIR");
    println!("cargo:rerun-if-env-changed=NIGVALDS_LIB_DIR");
    println!("cargo:rerun-if-changed=build");
    let folder = chosen.as_deref().map(Path::new);
    if folder.is_none() && archive::find(None, repository).is_err() {
        // Without the toolchain nothing is written, and the message below says so.
        let _ = Command::new(repository.join("tools/archive")).arg("nigvalds").status();
    }
    println!("cargo:rustc-env=NIGVALDS_INTERFACE={}", archive::INTERFACE);
    match archive::find(folder, repository).and_then(|found| archive::fits(&found).map(|()| found)) {
        Ok(found) => {
            println!("cargo:rerun-if-changed={}", found.display());
            println!("cargo:rustc-link-search=native={}", found.parent().expect("a file has a folder").display());
            println!("cargo:rustc-link-lib=static=nigvalds");
        }
        Err(why) => {
            eprintln!("{why}");
            std::process::exit(1)
        }
    }
}
