//! Links the proved static library, which `rt lib` makes in crates/abi of the repository two folders
//! above.
//!
//! `target/conl` there keeps an archive, and the bytes of the sources that it was made of: where
//! these are not the sources as they stand, it is made anew. Builds side by side take turns there.
//! What is linked is a copy in the folder that cargo gives this script, so that no other tree's
//! archive can be, nor one that `rt` has made since.
//!
//! Whether this script is run at all, cargo decides by the sources' times. The kit is none of them:
//! after a new one, `cargo clean -p conl` and remove `target/conl`.

use std::collections::BTreeMap;
use std::fs::{self, File};
use std::io;
use std::path::{Path, PathBuf};
use std::process::{Command, ExitCode};
use std::{env, fmt};

/// The crate whose functions the archive has, and the folders that a crate is made of.
const CRATE: &str = "abi";
const FOLDERS: [&str; 3] = ["src", "specs", "proofs"];

fn main() -> ExitCode {
    // Seen from this crate, so that a copy of the tree looks at its own.
    println!("cargo::rerun-if-changed=../../crates.txt");
    println!("cargo::rerun-if-changed=../../crates");
    println!("cargo::rerun-if-changed=build.rs");
    match link() {
        Ok(()) => ExitCode::SUCCESS,
        Err(message) => {
            println!("cargo::error={message}");
            ExitCode::FAILURE
        }
    }
}

fn link() -> Result<(), String> {
    let here = folder("CARGO_MANIFEST_DIR")?;
    let out = folder("OUT_DIR")?;
    let root = here.join("../..");
    let root = root.canonicalize().map_err(|error| told(&root, error))?;
    if !root.join("crates.txt").is_file() {
        return Err(format!(
            "{} has no crates.txt: this crate, {}, is built where it stands in its repository, \
             two folders below that file",
            root.display(),
            here.display()
        ));
    }

    let archive = archive(&root)?;
    let new = out.join("libabi.a.new");
    fs::write(&new, archive).map_err(|error| told(&new, error))?;
    fs::rename(&new, out.join("libabi.a")).map_err(|error| told(&new, error))?;
    println!("cargo::rustc-link-search=native={}", out.display());
    println!("cargo::rustc-link-lib=static=abi");
    Ok(())
}

/// A folder that cargo names when it runs this script.
fn folder(variable: &str) -> Result<PathBuf, String> {
    let path = env::var_os(variable).map(PathBuf::from);
    path.ok_or_else(|| format!("{variable} is not set: cargo runs this script"))
}

fn told(path: &Path, error: impl fmt::Display) -> String {
    format!("{}: {error}", path.display())
}

/// The archive of the sources as they stand.
fn archive(root: &Path) -> Result<Vec<u8>, String> {
    let kept = root.join("target/conl");
    let (archive, of) = (kept.join("libabi.a"), kept.join("sources"));
    let unwritable = |error| {
        let kept = told(&kept, error);
        format!("the static library cannot be kept below the repository's target/: {kept}")
    };
    fs::create_dir_all(&kept).map_err(unwritable)?;
    let lock = File::create(kept.join("lock")).map_err(unwritable)?;
    lock.lock().map_err(unwritable)?;

    let sources = sources(root)?;
    if !(archive.is_file() && fs::read(&of).is_ok_and(|of| of == sources)) {
        make(root)?;
        if self::sources(root)? != sources {
            return Err("the sources were changed while rt read them: build again".into());
        }
        let made = root.join("crates").join(CRATE).join("out/libabi.a");
        // Of nothing, until it is whole.
        fs::write(&of, "").map_err(unwritable)?;
        fs::copy(&made, &archive).map_err(|error| told(&made, error))?;
        fs::write(&of, sources).map_err(unwritable)?;
    }
    fs::read(&archive).map_err(|error| told(&archive, error))
}

/// Has rt prove the library and write the archive; where that fails, cargo shows what rt printed.
fn make(root: &Path) -> Result<(), String> {
    let status = Command::new("rt")
        .arg("lib")
        .current_dir(root.join("crates").join(CRATE))
        .stdout(io::stderr())
        .status()
        .map_err(|error| {
            format!(
                "no static library of these sources is kept in {}, and rt of the Rattle kit, \
                 which makes it, cannot be run: {error} (rt must be on PATH)",
                root.join("target/conl").display()
            )
        })?;
    if status.success() {
        Ok(())
    } else {
        let root = root.display();
        Err(format!("`rt lib` in {root}/crates/{CRATE} failed: {status}"))
    }
}

/// The lines of crates.txt and the files, each with its path and length, that the archive is made of.
fn sources(root: &Path) -> Result<Vec<u8>, String> {
    let list = root.join("crates.txt");
    let list = fs::read_to_string(&list).map_err(|error| told(&list, error))?;
    let mut sources = Vec::new();
    for (name, deps) in reached(&list) {
        sources.extend(format!("{name}: {deps}\n").bytes());
        for folder in FOLDERS {
            let folder = root.join("crates").join(name).join(folder);
            if folder.exists() {
                read(root, &folder, &mut sources)?;
            }
        }
    }
    Ok(sources)
}

/// The crate and those that it depends on, each with its own dependencies. A line of crates.txt is
/// `NAME: DEP DEP ..`, or `NAME staticlib: DEP DEP ..`; behind `#` stands a comment. A library of the
/// kit has no line.
fn reached(list: &str) -> BTreeMap<&str, &str> {
    let lines = list.lines().filter_map(|line| {
        let (name, deps) = line.split('#').next()?.split_once(':')?;
        Some((name.split_whitespace().next()?, deps.trim()))
    });
    let listed: BTreeMap<_, _> = lines.collect();
    let mut reached = BTreeMap::new();
    let mut next = vec![CRATE];
    while let Some(name) = next.pop() {
        if let Some(&deps) = listed.get(name) {
            if reached.insert(name, deps).is_none() {
                next.extend(deps.split_whitespace());
            }
        }
    }
    reached
}

/// Adds a file to `sources`, or every file of a folder.
fn read(root: &Path, path: &Path, sources: &mut Vec<u8>) -> Result<(), String> {
    let failed = |error: io::Error| told(path, error);
    if !path.is_dir() {
        let bytes = fs::read(path).map_err(failed)?;
        let name = path.strip_prefix(root).unwrap_or(path).display();
        sources.extend(format!("{name} {}\n", bytes.len()).bytes());
        sources.extend(bytes);
        return Ok(());
    }
    let entries = fs::read_dir(path).map_err(failed)?;
    let paths: Result<Vec<_>, _> = entries.map(|entry| Ok(entry?.path())).collect();
    let mut paths = paths.map_err(failed)?;
    paths.sort();
    paths.iter().try_for_each(|path| read(root, path, sources))
}
