//! Links the archive `libframes_c.a` from the directory in FRAMES_LIB (an absolute path), or from target/staticlib of the
//! repository.

use std::env;
use std::path::PathBuf;

fn main() {
    println!("cargo:rerun-if-env-changed=FRAMES_LIB");
    let folder = match env::var_os("FRAMES_LIB") {
        Some(folder) => PathBuf::from(folder),
        None => PathBuf::from(env::var_os("CARGO_MANIFEST_DIR").expect("cargo sets it"))
            .join("../../target/staticlib"),
    };
    let archive = folder.join("libframes_c.a");
    println!("cargo:rerun-if-changed={}", archive.display());
    if !archive.is_file() {
        eprintln!("{} is missing.", archive.display());
        eprintln!("Build it with `./archive` in the root of the repository,");
        eprintln!("or set FRAMES_LIB to the directory that holds it.");
        std::process::exit(1);
    }
    println!("cargo:rustc-link-search=native={}", folder.display());
    println!("cargo:rustc-link-lib=static=frames_c");
}
