//! Finds and links libzaqulle.a: in the folder that `ZAQULLE_LIB_DIR` names, in this crate's
//! repository, or where `scripts/install` put it, by `pkg-config` or in a usual folder.

use std::env;
use std::path::{Path, PathBuf};
use std::process::Command;

/// The file that is linked.
const ARCHIVE: &str = "libzaqulle.a";

/// The folders that are searched last.
const USUAL: [&str; 2] = ["/usr/local/lib", "/usr/lib"];

fn main() {
    for name in [
        "ZAQULLE_LIB_DIR",
        "PKG_CONFIG",
        "PKG_CONFIG_PATH",
        "PKG_CONFIG_LIBDIR",
        "PKG_CONFIG_SYSROOT_DIR",
    ] {
        println!("cargo::rerun-if-env-changed={name}");
    }
    let folder = named_folder()
        .or_else(built_folder)
        .or_else(installed_folder)
        .or_else(usual_folder);
    let Some(folder) = folder else {
        println!(
            "cargo::error={ARCHIVE} is nowhere: build it by scripts/build-c-library, install it by scripts/install, \
             or name its folder by ZAQULLE_LIB_DIR"
        );
        return;
    };
    println!("cargo::rerun-if-changed={}", folder.join(ARCHIVE).display());
    println!("cargo::rustc-link-search=native={}", folder.display());
    println!("cargo::rustc-link-lib=static=zaqulle");
}

/// Returns the folder if it has the library.
fn with_library(folder: PathBuf) -> Option<PathBuf> {
    folder.join(ARCHIVE).is_file().then_some(folder)
}

/// The folder that the environment names. Fails the build if that isn't the absolute path of a
/// folder with the library: no other folder is searched then.
fn named_folder() -> Option<PathBuf> {
    let folder = PathBuf::from(env::var_os("ZAQULLE_LIB_DIR")?);
    if folder.is_relative() || !folder.join(ARCHIVE).is_file() {
        println!(
            "cargo::error=ZAQULLE_LIB_DIR must be the whole path of a folder with {ARCHIVE}: {}",
            folder.display()
        );
    }
    Some(folder)
}

/// The folder of the repository's own build.
fn built_folder() -> Option<PathBuf> {
    let crate_folder = PathBuf::from(env::var_os("CARGO_MANIFEST_DIR")?);
    let archive = crate_folder
        .join("../../crates/qcow2_ffi/out")
        .join(ARCHIVE);
    println!("cargo::rerun-if-changed={}", archive.display());
    with_library(archive.parent()?.to_path_buf())
}

/// The folder that `pkg-config` names, if this command exists.
fn installed_folder() -> Option<PathBuf> {
    let command = env::var_os("PKG_CONFIG").unwrap_or_else(|| "pkg-config".into());
    let output = Command::new(command)
        .args(["--variable=libdir", "zaqulle"])
        .output()
        .ok()?;
    let text = String::from_utf8(output.stdout).ok()?;
    let folder = PathBuf::from(text.trim_end_matches('\n'));
    let is_found = output.status.success() && folder.is_absolute();
    is_found.then_some(folder).and_then(with_library)
}

/// The first usual folder that has the library.
fn usual_folder() -> Option<PathBuf> {
    USUAL
        .iter()
        .map(Path::new)
        .map(Path::to_path_buf)
        .find_map(with_library)
}
