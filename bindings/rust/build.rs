//! Links the checker, a static library: from the folder that `LAGUIPY_LIB_DIR`
//! names, or from where `make` puts it in this repository.

use std::env;
use std::path::{Path, PathBuf};
use std::process::ExitCode;

/// The names that the library may have, without `lib` and `.a`: as `rt` writes it,
/// and as it is installed.
const NAMES: [&str; 2] = ["laguipy_c", "laguipy"];

fn file(dir: &Path, name: &str) -> PathBuf {
    dir.join(format!("lib{name}.a"))
}

/// The folder to look in. One that is not a full path counts from the crate's own.
fn library_dir() -> PathBuf {
    let of_crate = PathBuf::from(env::var_os("CARGO_MANIFEST_DIR").unwrap_or_default());
    match env::var_os("LAGUIPY_LIB_DIR") {
        Some(dir) if !dir.is_empty() => of_crate.join(dir),
        _ => of_crate.ancestors().nth(2).unwrap_or(&of_crate).join("build/lib"),
    }
}

fn say_missing(dir: &Path) {
    eprintln!("laguipy: no liblaguipy_c.a or liblaguipy.a in {}", dir.display());
    eprintln!("This crate links the checker, a static library. Do one of the two, then build again:");
    eprintln!("- in Laguipy's repository run: make");
    eprintln!("- set LAGUIPY_LIB_DIR to the full path of the folder that holds one of these files;");
    eprintln!("  an installed laguipy has liblaguipy.a");
}

fn main() -> ExitCode {
    println!("cargo:rerun-if-env-changed=LAGUIPY_LIB_DIR");
    let dir = library_dir();
    let Some(name) = NAMES.into_iter().find(|name| file(&dir, name).is_file()) else {
        say_missing(&dir);
        return ExitCode::FAILURE;
    };
    println!("cargo:rerun-if-changed={}", file(&dir, name).display());
    println!("cargo:rustc-link-search=native={}", dir.display());
    println!("cargo:rustc-link-lib=static={name}");
    ExitCode::SUCCESS
}
