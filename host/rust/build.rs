//! Links libentry.a from the folder that TLILCUEYOH_LIB names.
//!
//! The archive may bring parts of a Rust library with it that the host's own Rust
//! library has under the same names. So the host links one object made of it, in
//! which every name but the entry's is local.

use std::env::var_os;
use std::path::{Path, PathBuf};
use std::process::{exit, Command};

const ENTRY: &str = "tlilcueyoh_block";

/// What the names of the tools for x86-64 begin with on the machine that builds.
const BINUTILS: &str = if cfg!(target_arch = "x86_64") {
    ""
} else {
    "x86_64-linux-gnu-"
};

fn main() {
    println!("cargo:rerun-if-env-changed=TLILCUEYOH_LIB");
    let archive = archive();
    println!("cargo:rerun-if-changed={}", archive.display());
    let object = PathBuf::from(var_os("OUT_DIR").unwrap()).join("entry.o");
    take_entry(&archive, &object);
    println!("cargo:rustc-link-arg-bins={}", object.display());
}

fn archive() -> PathBuf {
    let folder = match var_os("TLILCUEYOH_LIB") {
        Some(folder) => PathBuf::from(folder),
        None => refuse("TLILCUEYOH_LIB isn't set; it names the folder that holds libentry.a"),
    };
    let archive = folder.join("libentry.a");
    if !(folder.is_absolute() && archive.is_file()) {
        refuse("TLILCUEYOH_LIB isn't the absolute path of a folder that holds libentry.a");
    }
    archive
}

/// Writes `object`: the entry of `archive` and what it needs there, under local names.
/// Bitcode sections, which don't bear being joined, stay behind.
fn take_entry(archive: &Path, object: &Path) {
    run(Command::new(format!("{BINUTILS}ld"))
        .args(["-r", "--force-group-allocation", "-u", ENTRY, "-o"])
        .args([object, archive]));
    run(Command::new(format!("{BINUTILS}objcopy"))
        .args(["--strip-debug", "-R", ".llvmbc", "-R", ".llvmcmd"])
        .arg(format!("--keep-global-symbol={ENTRY}"))
        .arg(object));
}

fn run(command: &mut Command) {
    match command.status() {
        Ok(status) if status.success() => {}
        Ok(status) => refuse(&format!("{command:?}: {status}")),
        Err(error) => refuse(&format!("{command:?}: {error}")),
    }
}

fn refuse(sentence: &str) -> ! {
    eprintln!("{sentence}");
    exit(1);
}
