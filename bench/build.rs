//! Hands the linker the archives that tools/levels makes, and what bench/run compiles of plain C, and
//! cargo their names.

use std::env;
use std::path::Path;

const LEVELS: [&str; 3] = ["x86-64", "x86-64-v3", "x86-64-v4"];
const ARCHIVES: [&str; 5] = [
    "libbench_cipher.a",
    "libbench_check.a",
    "libc_door.a",
    "libc_lock.a",
    "plain.o",
];

fn main() {
    let bench = env::var("CARGO_MANIFEST_DIR").expect("cargo sets CARGO_MANIFEST_DIR");
    for level in LEVELS {
        let folder = Path::new(&bench).join("../target/levels").join(level);
        for archive in ARCHIVES.map(|name| folder.join(name)) {
            // By its path: an archive has the same name at every level.
            println!("cargo:rustc-link-arg={}", archive.display());
            // Cargo does not look into archives: without this line a new one would not be linked.
            println!("cargo:rerun-if-changed={}", archive.display());
        }
    }
}
