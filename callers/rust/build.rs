//! Links libwiltoresh.a and libwiltoresh_records.a: of the folder that WILTORESH_ARCHIVE_DIR names, or of this repository's
//! target/staticlib.

use std::env;
use std::path::{Path, PathBuf};
use std::process;

/// The archives by the names that the linker knows them by, which are those of their crates too.
const ARCHIVES: [&str; 2] = ["wiltoresh", "wiltoresh_records"];

fn main() {
    println!("cargo:rerun-if-env-changed=WILTORESH_ARCHIVE_DIR");
    expect_target("CARGO_CFG_TARGET_ARCH", "x86_64");
    expect_target("CARGO_CFG_TARGET_OS", "linux");
    let folder = archive_folder();
    println!("cargo:rustc-link-search=native={}", folder.display());
    for name in ARCHIVES {
        let archive = folder.join(format!("lib{}.a", name));
        println!("cargo:rerun-if-changed={}", archive.display());
        if !archive.is_file() {
            fail(&format!(
                "{} is missing: write it with `callers/archives`, or name the folder of both archives in WILTORESH_ARCHIVE_DIR",
                archive.display()
            ));
        }
        println!("cargo:rustc-link-lib=static={}", name);
    }
}

fn archive_folder() -> PathBuf {
    match env::var_os("WILTORESH_ARCHIVE_DIR") {
        Some(folder) => PathBuf::from(folder),
        None => Path::new(env!("CARGO_MANIFEST_DIR")).join("../../target/staticlib"),
    }
}

/// The archives' code is for one kind of machine.
fn expect_target(variable: &str, wanted: &str) {
    let found = env::var(variable).unwrap_or_default();
    if found != wanted {
        fail(&format!(
            "the archives are for x86_64 linux, and {} is {}",
            variable, found
        ));
    }
}

fn fail(message: &str) -> ! {
    eprintln!("wiltoresh: {}", message);
    process::exit(1)
}
