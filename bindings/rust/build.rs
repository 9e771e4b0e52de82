//! Finds Pulevago's archive and has it linked: in the folder that PULEVAGO_LIB_DIR names, else in crates/pulevago/out below the
//! repository's root. A folder that is not absolute begins at this package.

use std::env;
use std::path::{Path, PathBuf};
use std::process::exit;

const ARCHIVE: &str = "libpulevago.a";
const FOLDER_VARIABLE: &str = "PULEVAGO_LIB_DIR";
const USUAL_FOLDER: &str = "../../crates/pulevago/out";

fn main() {
    refuse_other_targets();
    let folder = folder();
    let archive = folder.join(ARCHIVE);
    println!("cargo:rerun-if-env-changed={FOLDER_VARIABLE}");
    println!("cargo:rerun-if-changed={}", archive.display());
    if !archive.is_file() {
        stop(&format!(
            "there is no {}: build it with `rt lib` in crates/pulevago, or name the folder that holds {ARCHIVE} in {FOLDER_VARIABLE}",
            archive.display()
        ));
    }
    println!("cargo:rustc-link-search=native={}", folder.display());
    println!("cargo:rustc-link-lib=static=pulevago");
}

/// The archive is x86-64 code with System V calls and 64-bit pointers: linked into anything else it would fail late, or not work.
fn refuse_other_targets() {
    let fits = setting("CARGO_CFG_TARGET_ARCH") == "x86_64"
        && setting("CARGO_CFG_TARGET_POINTER_WIDTH") == "64"
        && setting("CARGO_CFG_TARGET_OS") != "windows";
    if !fits {
        let target = setting("TARGET");
        stop(&format!(
            "the archive is for x86_64 with System V calls, and the target is {target}"
        ));
    }
}

fn folder() -> PathBuf {
    let package = PathBuf::from(setting("CARGO_MANIFEST_DIR"));
    match env::var_os(FOLDER_VARIABLE) {
        Some(named) => package.join(named),
        None => simplest(&package.join(USUAL_FOLDER)),
    }
}

/// The folder without `..`, where it is there, so that messages are easy to read.
fn simplest(folder: &Path) -> PathBuf {
    folder
        .canonicalize()
        .unwrap_or_else(|_| folder.to_path_buf())
}

/// A variable that cargo sets for every build script.
fn setting(name: &str) -> String {
    env::var(name).unwrap_or_else(|_| stop(&format!("cargo did not set {name}")))
}

fn stop(why: &str) -> ! {
    eprintln!("pulevago: {why}");
    exit(1)
}
