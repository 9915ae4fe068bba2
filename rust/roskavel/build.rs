//! Finds the archive of the proved crate `exports` and links it. Where there is none, or one that is
//! older than a source, it warns: what does not link, as documentation, needs none, and the times of
//! files are no proof, since a checkout gives all sources new ones.

use std::path::{Path, PathBuf};
use std::time::SystemTime;
use std::{env, fs, io};

fn main() {
    let package = env::var_os("CARGO_MANIFEST_DIR").expect("cargo sets it");
    let tree = Path::new(&package).join("../..");
    let root = tree.canonicalize().unwrap_or(tree);
    let folder = root.join("crates/exports/out");
    let archive = folder.join("libexports.a");
    println!("cargo::rerun-if-changed={}", archive.display());
    println!("cargo::rustc-link-search=native={}", folder.display());
    println!("cargo::rustc-link-lib=static=exports");

    let remedy = format!("run `rt lib` in {}", root.join("crates/exports").display());
    let Ok(made) = time_of(&archive) else {
        println!("cargo::warning={} is missing: {remedy}", archive.display());
        // A file that is never there has cargo look again, whatever the time of the archive that
        // comes.
        println!("cargo::rerun-if-changed={}.none", archive.display());
        return;
    };
    let mut sources = Vec::new();
    // Without sources there is nothing to compare with.
    let _ = find_sources(&root.join("crates"), &mut sources);
    for source in &sources {
        println!("cargo::rerun-if-changed={}", source.display());
    }
    let newer = |source: &&PathBuf| time_of(source).is_ok_and(|changed| changed > made);
    if let Some(source) = sources.iter().find(newer) {
        let (archive, source) = (archive.display(), source.display());
        println!("cargo::warning={archive} is older than {source}: {remedy}");
    }
}

fn time_of(file: &Path) -> io::Result<SystemTime> {
    fs::metadata(file)?.modified()
}

/// Adds the sources in a folder and below it, without what the check made.
fn find_sources(folder: &Path, sources: &mut Vec<PathBuf>) -> io::Result<()> {
    for entry in fs::read_dir(folder)? {
        let entry = entry?;
        if entry.file_type()?.is_dir() {
            if entry.file_name() != "out" {
                find_sources(&entry.path(), sources)?;
            }
        } else if entry.path().extension().is_some_and(|kind| kind == "rt") {
            sources.push(entry.path());
        }
    }
    Ok(())
}
