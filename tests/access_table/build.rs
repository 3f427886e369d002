//! Links `libcapi.a`, which `tests/build capi` writes.

use std::path::{Path, PathBuf};
use std::process::ExitCode;
use std::{env, fs};

/// Names the folder of the archive, if it is not `target/staticlib` of the repository.
const FOLDER: &str = "ACCESS_TABLE_LIB";

fn main() -> ExitCode {
    println!("cargo:rerun-if-env-changed={FOLDER}");
    let archive = folder().join("libcapi.a");
    println!("cargo:rerun-if-changed={}", archive.display());
    if let Err(message) = fits(&archive) {
        eprintln!("{message}");
        return ExitCode::FAILURE;
    }
    println!("cargo:rustc-link-search=native={}", folder().display());
    println!("cargo:rustc-link-lib=static=capi");
    ExitCode::SUCCESS
}

fn folder() -> PathBuf {
    match env::var_os(FOLDER) {
        Some(folder) => folder.into(),
        None => {
            let package = env::var_os("CARGO_MANIFEST_DIR").unwrap_or_default();
            Path::new(&package).join("../../target/staticlib")
        }
    }
}

/// Whether the archive is there, and for the processor that this build is for.
fn fits(archive: &Path) -> Result<(), String> {
    let shown = archive.display();
    let bytes = fs::read(archive).map_err(|error| {
        format!("{shown}: {error}\nrun `bash tests/build capi` in the repository: it proves the library and writes the archive")
    })?;
    let wanted = env::var("CARGO_CFG_TARGET_ARCH").unwrap_or_default();
    match processor(&bytes) {
        Some(found) if found != wanted => Err(format!(
            "{shown} is code for {found}, and this build is for {wanted}\nthe README of this package says how the tests run on such a machine"
        )),
        _ => Ok(()),
    }
}

/// The processor that the first object of an archive is for, by its ELF head.
fn processor(archive: &[u8]) -> Option<&'static str> {
    let elf = archive.windows(4).position(|four| four == b"\x7fELF")?;
    match archive.get(elf + 18..elf + 20)? {
        [62, 0] => Some("x86_64"),
        [183, 0] => Some("aarch64"),
        _ => None,
    }
}
