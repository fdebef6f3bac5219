//! Links libvl53l0x.a from the folder that VL53L0X_LIB_DIR names, or else from crates/vl53l0x/out of the repository.

use std::env;
use std::path::PathBuf;

const FOLDER: &str = "VL53L0X_LIB_DIR";

fn main() {
    println!("cargo:rerun-if-env-changed={FOLDER}");
    let (folder, hint) = match env::var_os(FOLDER).filter(|folder| !folder.is_empty()) {
        Some(folder) => (absolute(folder.into()), format!("{FOLDER} names that folder; an absolute path is safest")),
        None => {
            let folder = PathBuf::from(env!("CARGO_MANIFEST_DIR")).join("../../crates/vl53l0x/out");
            (folder, format!("run `rt lib` in crates/vl53l0x, or set {FOLDER}"))
        }
    };
    let archive = folder.join("libvl53l0x.a");
    println!("cargo:rerun-if-changed={}", archive.display());
    if !archive.is_file() {
        panic!("there is no {}: {hint}", archive.display());
    }
    println!("cargo:rustc-link-search=native={}", folder.display());
    println!("cargo:rustc-link-lib=static=vl53l0x");
}

/// A relative path starts where cargo was started. Cargo runs this program in the folder of the package, but leaves it
/// the variable in which a shell keeps its own folder.
fn absolute(folder: PathBuf) -> PathBuf {
    if folder.is_absolute() {
        return folder;
    }
    println!("cargo:rerun-if-env-changed=PWD");
    match env::var_os("PWD").map(PathBuf::from) {
        Some(started) if started.is_absolute() => started.join(folder),
        _ => panic!("{FOLDER} is {}, and has to be an absolute path where PWD is not set", folder.display()),
    }
}
