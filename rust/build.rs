//! Links the proved archive `libteurlaks_c.a`, and the three functions through which it asks for
//! memory: those of `c/pages.c`, by which pages that are given back leave the process. Where the
//! archive's folder has a `liblibc_c.a`, its three are taken.
//!
//! With the feature `bitcode` that is `libteurlaks_c_bitcode.a`, which stands beside it. A linker
//! that reads LLVM's bitcode, as `-C linker-plugin-lto` asks of rustc, inlines its calls on one
//! object.
//!
//! `TEURLAKS_ARCHIVE` names the folder where the archive lies. If it is not set, that is `lib/` of
//! a release, beside the crate's folder; or else `crates/teurlaks_c/out` of the repository, if
//! `./check --archive` has proved and made the archive of the sources as they stand. Nothing is
//! proved here: that takes up to an hour, of which cargo shows nothing. A release's
//! `libteurlaks.a` has the three functions in it, so that no C compiler is needed.

use std::env;
use std::path::{Path, PathBuf};
use std::process::{exit, Command};

fn main() {
    println!("cargo:rerun-if-env-changed=TEURLAKS_ARCHIVE");
    let archive = match env::var_os("TEURLAKS_ARCHIVE") {
        Some(folder) => PathBuf::from(folder),
        None => of_release().unwrap_or_else(of_repository),
    };
    let is_bitcode = env::var_os("CARGO_FEATURE_BITCODE").is_some();
    if is_release(&archive) {
        link(
            &archive,
            if is_bitcode {
                "teurlaks_bitcode"
            } else {
                "teurlaks"
            },
        );
        return;
    }
    link(
        &archive,
        if is_bitcode {
            "teurlaks_c_bitcode"
        } else {
            "teurlaks_c"
        },
    );
    if archive.join("liblibc_c.a").exists() {
        link(&archive, "libc_c");
    } else {
        link(&source_of_pages(), "teurlaks_pages");
    }
}

/// The libraries of the release that the crate came with, if it came with one.
fn of_release() -> Option<PathBuf> {
    let folder = Path::new(env!("CARGO_MANIFEST_DIR")).join("../lib");
    is_release(&folder).then_some(folder)
}

fn is_release(folder: &Path) -> bool {
    folder.join("libteurlaks.a").exists()
}

/// Compiles the source of pages, and gives the folder of its archive.
fn source_of_pages() -> PathBuf {
    let source = Path::new(env!("CARGO_MANIFEST_DIR")).join("../c/pages.c");
    let folder = PathBuf::from(env::var_os("OUT_DIR").expect("cargo sets OUT_DIR"));
    println!("cargo:rerun-if-changed={}", source.display());
    println!("cargo:rerun-if-env-changed=CC");
    let object = folder.join("pages.o");
    let words = ["-std=c11", "-O2", "-fPIC", "-pthread", "-c"];
    run(tool("CC", "cc")
        .args(words)
        .arg(&source)
        .arg("-o")
        .arg(&object));
    run(tool("AR", "ar")
        .arg("rcs")
        .arg(folder.join("libteurlaks_pages.a"))
        .arg(&object));
    folder
}

fn tool(variable: &str, default: &str) -> Command {
    Command::new(env::var_os(variable).unwrap_or_else(|| default.into()))
}

fn run(command: &mut Command) {
    let done = command.status();
    assert!(
        done.is_ok_and(|status| status.success()),
        "{command:?} failed"
    );
}

fn link(folder: &Path, name: &str) {
    let archive = folder.join(format!("lib{name}.a"));
    assert!(archive.exists(), "there is no {}", archive.display());
    println!("cargo:rerun-if-changed={}", archive.display());
    println!("cargo:rustc-link-search=native={}", folder.display());
    println!("cargo:rustc-link-lib=static={name}");
}

/// The folder of the repository's archive, if that was proved of the sources as they stand. If not,
/// this says how it is made, and ends.
fn of_repository() -> PathBuf {
    let top = Path::new(env!("CARGO_MANIFEST_DIR")).join("..");
    println!("cargo:rerun-if-changed={}", top.join("crates").display());
    let is_current = Command::new("bash")
        .args(["-c", ". tools/lib.sh && archive_is_current"])
        .current_dir(&top)
        .status();
    if !is_current.is_ok_and(|status| status.success()) {
        eprintln!("{HOW_TO_MAKE_IT}");
        exit(1);
    }
    top.join("crates/teurlaks_c/out")
}

const HOW_TO_MAKE_IT: &str = "\
There is no archive that was proved of these sources. At the top of the repository
    ./check --archive                     proves and makes it: up to an hour at first
    tools/unproved out/libteurlaks_c.a    makes one in minutes, of which nothing is proved
Set TEURLAKS_ARCHIVE to the folder of an archive that is elsewhere, as the second one is.";
