//! Writes vl53l0x.rs for src/lib.rs: oracle/vendor/lib.rs of the repository and, after its last line,
//! oracle/src/later.rs, oracle/src/inner.rs and a function of lib.rs's loop over the detector map. A file that is included
//! cannot have attributes of a crate, so those of lib.rs stand in src/lib.rs. Their lines stay here as empty ones: a panic
//! is known by its line.

use std::path::{Path, PathBuf};
use std::{env, fs};

fn text(file: &Path) -> String {
    println!("cargo:rerun-if-changed={}", file.display());
    fs::read_to_string(file).unwrap_or_else(|error| panic!("{}: {error}", file.display()))
}

/// lib.rs's lines from the first detector to be enabled up to the write of the new map. They stand inside
/// `init_hardware`, where nothing can be measured of them alone.
fn selection(lib: &str) -> &str {
    let (from, to) = ("        // 12 is the first aperture spad\n", "        self.write_6bytes(\n");
    assert!(lib.matches(from).count() == 1 && lib.matches(to).count() == 1, "lib.rs has other lines");
    let start = lib.find(from).expect("counted");
    &lib[start..start + lib[start..].find(to).expect("it comes after")]
}

fn main() {
    let oracle = Path::new(env!("CARGO_MANIFEST_DIR")).join("../../../oracle");
    let lib = text(&oracle.join("vendor/lib.rs"));
    let mut code = String::new();
    for line in lib.lines() {
        let of_the_crate = line.starts_with("#![") || line.starts_with("//!");
        code += if of_the_crate { "" } else { line };
        code += "\n";
    }
    code += &text(&oracle.join("src/later.rs"));
    code += &text(&oracle.join("src/inner.rs"));
    code += "\n/// lib.rs's loop over the detector map.\n";
    code += "pub fn select_spads(mut ref_spad_map: [u8; 6], spad_count: u8, spad_type_is_aperture: u8) -> [u8; 6] {\n";
    code += selection(&lib);
    code += "        ref_spad_map\n}\n";
    let out = PathBuf::from(env::var_os("OUT_DIR").expect("cargo names a folder"));
    fs::write(out.join("vl53l0x.rs"), code).expect("the file is written");
}
