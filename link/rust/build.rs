//! Finds the proved library's archive, or has it made, and says how it is linked. In this order: the file that SOODHIQUNE_ARCHIVE names;
//! crates/boundary/out/libboundary.a of the repository that this package stands in; the same file, made by `rt lib` in crates/boundary.

use std::env;
use std::fs;
use std::path::{Path, PathBuf};
use std::process::{exit, Command};
use std::time::SystemTime;

const VARIABLE: &str = "SOODHIQUNE_ARCHIVE";
const CRATE: &str = "boundary";

/// What `rt` makes of a crate lies in a folder of this name beside its sources.
const MADE: &str = "out";

fn give_up(what: &str) -> ! {
    eprintln!("soodhiqune: {what}");
    exit(1)
}

fn variable(name: &str) -> PathBuf {
    env::var_os(name)
        .unwrap_or_else(|| give_up(&format!("cargo sets {name} for a build script, and it is not set")))
        .into()
}

fn make(repository: &Path, archive: &Path) {
    let folder = repository.join("crates").join(CRATE);
    let ended = Command::new("rt").arg("lib").current_dir(&folder).status();
    match ended {
        Ok(status) if status.success() && archive.is_file() => {}
        Ok(status) => give_up(&format!("`rt lib` in {} gave no archive: {status}", folder.display())),
        Err(error) => give_up(&format!(
            "there is no {}, and rt, Rattle's kit, which makes it, cannot be run ({error}); put rt on the path, or let {VARIABLE} name \
             an archive that was made elsewhere",
            archive.display()
        )),
    }
}

/// A file below this folder that was changed later than that, and is not made by `rt`.
fn newer(folder: &Path, than: SystemTime) -> Option<PathBuf> {
    for entry in fs::read_dir(folder).ok()?.flatten() {
        let path = entry.path();
        let found = if path.is_dir() {
            if path.ends_with(MADE) {
                continue;
            }
            newer(&path, than)
        } else {
            entry.metadata().ok()?.modified().ok().filter(|changed| *changed > than).map(|_| path)
        };
        if found.is_some() {
            return found;
        }
    }
    None
}

/// A build starts no proof of some minutes unasked, so an archive that is older than its sources is linked, and said.
fn tell_if_older(archive: &Path, sources: &Path) {
    let made = fs::metadata(archive).and_then(|file| file.modified());
    if let Some(path) = made.ok().and_then(|made| newer(sources, made)) {
        println!(
            "cargo:warning=the archive {} is older than {}; `rt lib` in crates/{CRATE} makes it anew",
            archive.display(),
            path.display()
        );
    }
}

/// The build is done again once a source changes: each crate's folders, but for what `rt` makes there.
fn watch(sources: &Path) {
    for folder in fs::read_dir(sources).into_iter().flatten().flatten() {
        for entry in fs::read_dir(folder.path()).into_iter().flatten().flatten() {
            if !entry.path().ends_with(MADE) {
                println!("cargo:rerun-if-changed={}", entry.path().display());
            }
        }
    }
}

fn archive_of_the_repository() -> PathBuf {
    let repository = variable("CARGO_MANIFEST_DIR").join("../..");
    let archive = repository.join("crates").join(CRATE).join(MADE).join(format!("lib{CRATE}.a"));
    if !archive.is_file() {
        if !repository.join("crates").join(CRATE).is_dir() {
            give_up(&format!(
                "the proved sources do not stand beside this package; let {VARIABLE} name an archive made from them"
            ));
        }
        make(&repository, &archive);
    }
    let sources = repository.join("crates");
    watch(&sources);
    tell_if_older(&archive, &sources);
    archive
}

fn main() {
    println!("cargo:rerun-if-env-changed={VARIABLE}");
    if env::var("CARGO_CFG_TARGET_ARCH").as_deref() != Ok("x86_64")
        || env::var("CARGO_CFG_TARGET_OS").as_deref() != Ok("linux")
    {
        give_up("the archive is made for x86-64 Linux, and the target is another one");
    }
    let archive = match env::var_os(VARIABLE) {
        Some(named) => PathBuf::from(named),
        None => archive_of_the_repository(),
    };
    println!("cargo:rerun-if-changed={}", archive.display());
    // under a name of its own, whatever the file is called
    let out = variable("OUT_DIR");
    if let Err(error) = fs::copy(&archive, out.join("libsoodhiqune.a")) {
        give_up(&format!("the archive {} cannot be read: {error}", archive.display()));
    }
    println!("cargo:rustc-link-search=native={}", out.display());
    println!("cargo:rustc-link-lib=static=soodhiqune");
}
