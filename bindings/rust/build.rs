//! Links the static library `circle_c` and the kit's part of the C library that it needs.
//!
//! If the environment's `CIRCLE_LIBRARIES` names a folder, both come from there. Otherwise they
//! come from this package's folder `lib`, as in a bundle. A clone has none: there
//! `bindings/c/build` leaves both in `bindings/c/out`. Where the first is missing, or is built of
//! other sources, it proves and builds it, which takes tens of minutes from nothing.

use std::env;
use std::path::{Path, PathBuf};
use std::process::{Command, ExitCode};

const FOLDER: &str = "CIRCLE_LIBRARIES";
const LIBRARIES: [&str; 2] = ["circle_c", "libc_c"];
// The folders of a crate's sources.
const SOURCES: [&str; 3] = ["src", "specs", "proofs"];

fn main() -> ExitCode {
    println!("cargo:rerun-if-env-changed={FOLDER}");
    match folder() {
        Ok(folder) => {
            link(&folder);
            ExitCode::SUCCESS
        }
        Err(why) => {
            eprintln!("{why}");
            ExitCode::FAILURE
        }
    }
}

fn link(folder: &Path) {
    println!("cargo:rustc-link-search=native={}", folder.display());
    for name in LIBRARIES {
        watch(&archive(folder, name));
        println!("cargo:rustc-link-lib=static={name}");
    }
}

fn archive(folder: &Path, name: &str) -> PathBuf {
    folder.join(format!("lib{name}.a"))
}

// Has cargo run this script again where the file or folder has changed.
fn watch(path: &Path) {
    println!("cargo:rerun-if-changed={}", path.display());
}

// The folder that has the libraries.
fn folder() -> Result<PathBuf, String> {
    if let Some(named) = env::var_os(FOLDER) {
        return named_folder(Path::new(&named));
    }
    let package = PathBuf::from(env::var_os("CARGO_MANIFEST_DIR").ok_or("cargo runs this script")?);
    let own = package.join("lib");
    if own.is_dir() {
        return Ok(own);
    }
    built_folder(&package.join("../.."))
}

// The folder that the environment names, which has both libraries.
fn named_folder(named: &Path) -> Result<PathBuf, String> {
    if !named.is_absolute() {
        return Err(format!("{FOLDER} must be an absolute path: {named:?}"));
    }
    let missing = LIBRARIES
        .iter()
        .find(|name| !archive(named, name).is_file());
    match missing {
        Some(name) => Err(format!(
            "{FOLDER} names {named:?}, where there is no lib{name}.a"
        )),
        None => Ok(named.to_owned()),
    }
}

// The folder in which a clone's libraries are built, of the sources that are there.
fn built_folder(clone: &Path) -> Result<PathBuf, String> {
    let build = clone.join("bindings/c/build");
    if !build.is_file() {
        return Err(format!(
            "there are no libraries: this package has no folder lib, {} isn't there, and {FOLDER} \
             names no folder",
            build.display()
        ));
    }
    watch(&build);
    watch(&clone.join("crates.txt"));
    for name in crates(clone)?.lines() {
        let folder = clone.join("crates").join(name);
        let sources = SOURCES.map(|part| folder.join(part));
        sources
            .iter()
            .filter(|part| part.is_dir())
            .for_each(|part| watch(part));
    }
    run(&mut Command::new(build))?;
    Ok(clone.join("bindings/c/out"))
}

// The names of the crates that the library is built of, one a line.
fn crates(clone: &Path) -> Result<String, String> {
    let words = ["-B", "-m", "tools.workspace", "circle_c"];
    run(Command::new("python3").args(words).current_dir(clone))
}

// What a command writes, or what it wrote where it fails.
fn run(command: &mut Command) -> Result<String, String> {
    let told = command
        .output()
        .map_err(|error| format!("{command:?}: {error}"))?;
    let output = String::from_utf8_lossy(&told.stdout).into_owned();
    if told.status.success() {
        return Ok(output);
    }
    let errors = String::from_utf8_lossy(&told.stderr);
    Err(format!("{command:?}: {}\n{output}{errors}", told.status))
}
