//! Finds the static library, or has the Rattle kit build it: TERBAGYL_LIB names a folder with libentity_manifest.a; otherwise it is the
//! repository's target/staticlib, and `tools/staticlib` writes it there where it is missing. One that is there is taken as it is,
//! so run that command again where the Rattle source changed.

use std::path::{Path, PathBuf};
use std::process::{self, Command, Stdio};
use std::{env, io};

const ARCHIVE: &str = "libentity_manifest.a";

fn main() {
    println!("cargo:rerun-if-changed=build.rs");
    println!("cargo:rerun-if-env-changed=TERBAGYL_LIB");
    let processor = env::var("CARGO_CFG_TARGET_ARCH").unwrap_or_default();
    if processor != "x86_64" {
        stop(&format!("the library is compiled for x86-64 alone, and this build is for {processor}"));
    }
    let folder = match env::var_os("TERBAGYL_LIB") {
        Some(named) => found(PathBuf::from(named), "TERBAGYL_LIB names this folder; `tools/staticlib` makes the file"),
        None => of_repository(),
    };
    println!("cargo:rerun-if-changed={}", folder.join(ARCHIVE).display());
    println!("cargo:rustc-link-search=native={}", folder.display());
    println!("cargo:rustc-link-lib=static=entity_manifest");
}

/// The repository's target/staticlib, built where the archive is not there.
fn of_repository() -> PathBuf {
    let repository = PathBuf::from(env::var_os("CARGO_MANIFEST_DIR").unwrap()).join("../..");
    let folder = repository.join("target/staticlib");
    if !folder.join(ARCHIVE).is_file() {
        build(&repository);
    }
    found(folder, "`tools/staticlib` was to make it")
}

/// Runs the kit in the repository. It proves the library first, so this takes some minutes from nothing.
fn build(repository: &Path) {
    // what the kit prints is no instruction to cargo
    let ran = Command::new(repository.join("tools/staticlib")).stdout(Stdio::null()).status();
    match ran {
        Ok(status) if status.success() => {}
        // what the shell answers where a command is not there
        Ok(status) if status.code() == Some(127) => stop(&format!(
            "there is no {ARCHIVE}: set TERBAGYL_LIB to a folder that has it, or put the Rattle kit (rt) on the PATH to build it"
        )),
        Ok(status) => stop(&format!("`tools/staticlib` failed: {status}")),
        Err(why) if why.kind() == io::ErrorKind::NotFound => stop(&format!(
            "there is no {ARCHIVE}: set TERBAGYL_LIB to a folder that has it, or put the Rattle kit (rt) on the PATH to build it"
        )),
        Err(why) => stop(&format!("`tools/staticlib` could not be run: {why}")),
    }
}

fn found(folder: PathBuf, otherwise: &str) -> PathBuf {
    if !folder.join(ARCHIVE).is_file() {
        stop(&format!("there is no file {}; {otherwise}", folder.join(ARCHIVE).display()));
    }
    folder.canonicalize().unwrap_or(folder)
}

fn stop(why: &str) -> ! {
    println!("cargo:warning=terbagyl: {why}");
    eprintln!("terbagyl: {why}");
    process::exit(1);
}
