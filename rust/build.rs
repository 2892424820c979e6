//! Links the proved static library `libisolated.a`: from the folder that `ISOLATED_LIB_DIR` names, else from
//! `target/lib` at the top of the repository, where `tools/library` writes it.
//!
//! A library in `target/lib` that is older than a Rattle source is turned down, since it was proved of other sources.
//! In a folder that `ISOLATED_LIB_DIR` names, the library only has to be there: who names it answers for its age.

use std::path::{Path, PathBuf};
use std::time::SystemTime;
use std::{env, fs, io, path};

const WHAT_TO_RUN: &str = "run tools/library at the top of the repository, which proves and writes it";

fn main() {
    println!("cargo::rerun-if-env-changed=ISOLATED_LIB_DIR");
    if let Err(message) = link() {
        println!("cargo::error={message}");
    }
}

/// Tells cargo what to link, or says why there is nothing to link and what to do about it.
fn link() -> Result<(), String> {
    let package = env::var_os("CARGO_MANIFEST_DIR").map(PathBuf::from).ok_or("cargo did not say where the crate is")?;
    let top = package.parent().ok_or("the crate has no folder above it")?;
    let given = env::var_os("ISOLATED_LIB_DIR").filter(|folder| !folder.is_empty());
    let folder = given.as_ref().map_or_else(|| top.join("target/lib"), PathBuf::from);
    let folder = path::absolute(&folder).map_err(|error| fault(&folder, &error))?;
    let archive = folder.join("libisolated.a");
    println!("cargo::rerun-if-changed={}", archive.display());
    if !archive.is_file() {
        let shown = folder.display();
        return Err(match given {
            Some(_) => format!("ISOLATED_LIB_DIR names {shown}, which holds no libisolated.a"),
            None => format!("there is no libisolated.a in {shown}: {WHAT_TO_RUN}"),
        });
    }
    if given.is_none() {
        if let Some(newer) = newer_source(top, changed(&archive)?)? {
            return Err(format!("{} is older than {}: {WHAT_TO_RUN} anew", archive.display(), newer.display()));
        }
    }
    println!("cargo::rustc-link-search=native={}", folder.display());
    println!("cargo::rustc-link-lib=static=isolated");
    Ok(())
}

/// A Rattle source, or the list of crates, that was changed after this; cargo comes back when one of them changes.
/// Where the crate stands by itself, without the sources, there is none.
fn newer_source(top: &Path, written: SystemTime) -> Result<Option<PathBuf>, String> {
    let list = top.join("crates.txt");
    if !list.is_file() {
        return Ok(None);
    }
    println!("cargo::rerun-if-changed={}", list.display());
    let mut sources = vec![list];
    for folder in entries(&top.join("crates"))? {
        let code = folder.join("src");
        if code.is_dir() {
            println!("cargo::rerun-if-changed={}", code.display());
            sources.extend(files_below(&code)?);
        }
    }
    for source in sources {
        if changed(&source)? > written {
            return Ok(Some(source));
        }
    }
    Ok(None)
}

/// The files in a folder and in the folders below it.
fn files_below(folder: &Path) -> Result<Vec<PathBuf>, String> {
    let mut files = Vec::new();
    for path in entries(folder)? {
        if path.is_dir() {
            files.extend(files_below(&path)?);
        } else {
            files.push(path);
        }
    }
    Ok(files)
}

/// What stands in a folder.
fn entries(folder: &Path) -> Result<Vec<PathBuf>, String> {
    let list = || fs::read_dir(folder)?.map(|entry| Ok(entry?.path())).collect::<io::Result<Vec<PathBuf>>>();
    list().map_err(|error| fault(folder, &error))
}

/// When a file was last changed.
fn changed(file: &Path) -> Result<SystemTime, String> {
    fs::metadata(file).and_then(|data| data.modified()).map_err(|error| fault(file, &error))
}

fn fault(path: &Path, error: &io::Error) -> String {
    format!("{}: {error}", path.display())
}
