//! Links the proved archive, libsignon.a: from the folder that SIGNON_ARCHIVE_DIR names, or else as `rt lib` builds it in crates/signon.
use std::path::{Path, PathBuf};
use std::process::{exit, Command};
use std::{env, fs};

const ARCHIVE: &str = "libsignon.a";
const FOLDER: &str = "SIGNON_ARCHIVE_DIR";

fn fail(message: String) -> ! {
    eprintln!("signon: {message}");
    exit(1)
}

/// Answers what the archive is built from: crates.txt, and of each crate all but what `rt` makes itself, in out/.
fn sources(root: &Path) -> Vec<PathBuf> {
    let crates = fs::read_dir(root.join("crates")).into_iter().flatten().flatten();
    let parts = crates.flat_map(|each| ["src", "specs", "proofs"].map(|part| each.path().join(part)));
    parts.filter(|part| part.is_dir()).chain([root.join("crates.txt")]).collect()
}

/// Has the prover check the crate `signon` and compile it, and answers the folder of the archive.
fn built() -> PathBuf {
    let root = Path::new(env!("CARGO_MANIFEST_DIR")).join("../..");
    for source in sources(&root) {
        println!("cargo:rerun-if-changed={}", source.display());
    }
    let signon = root.join("crates/signon");
    let ended = Command::new("rt").arg("lib").current_dir(&signon).status();
    match ended {
        Ok(status) if status.success() => signon.join("out"),
        Ok(status) => fail(format!("`rt lib` failed ({status}): run it in crates/signon to see why")),
        Err(error) => fail(format!("`rt`, the Rattle kit, does not run ({error}): put it on PATH, or have {FOLDER} name a folder with {ARCHIVE}")),
    }
}

/// Answers the folder named, which has the archive.
fn given(folder: PathBuf) -> PathBuf {
    let archive = folder.join(ARCHIVE);
    if !archive.is_file() {
        fail(format!("there is no {ARCHIVE} in {}, which {FOLDER} names", folder.display()));
    }
    println!("cargo:rerun-if-changed={}", archive.display());
    folder
}

fn main() {
    println!("cargo:rerun-if-env-changed={FOLDER}");
    let folder = env::var_os(FOLDER).map_or_else(built, |folder| given(folder.into()));
    println!("cargo:rustc-link-search=native={}", folder.display());
    println!("cargo:rustc-link-lib=static=signon");
}
