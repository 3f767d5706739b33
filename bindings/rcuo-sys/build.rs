//! Links `rcuo-runtime` and `rcuo`: the archives in the folder that `RCUO_LIB` names; else, where this crate stands in the repository
//! or in what `make dist` made of it, those in `out` or in `lib` there; else what `pkg-config` says of an installed library.

use std::env;
use std::mem;
use std::path::{Path, PathBuf};
use std::process::{self, Command};

const ARCHIVES: [&str; 2] = ["rcuo-runtime", "rcuo"];
/// What `pkg-config` knows both libraries by.
const PACKAGE: &str = "rcuo-runtime";

fn main() {
    for name in ["DOCS_RS", "RCUO_LIB", "PKG_CONFIG", "PKG_CONFIG_PATH", "PKG_CONFIG_LIBDIR", "PKG_CONFIG_SYSROOT_DIR"] {
        println!("cargo:rerun-if-env-changed={name}");
    }
    // (documents are made without a library)
    if env::var_os("DOCS_RS").is_some() {
        return;
    }
    if let Err(why) = link() {
        eprintln!("rcuo-sys: {why}");
        process::exit(1);
    }
}

fn link() -> Result<(), String> {
    if let Some(folder) = env::var_os("RCUO_LIB") {
        return link_archives(Path::new(&folder)).map_err(|why| format!("{why}, which RCUO_LIB names"));
    }
    match root() {
        Some(root) if root.join("lib/librcuo.a").exists() => link_archives(&root.join("lib")),
        Some(root) => link_archives(&root.join("out")).map_err(|why| format!("{why}: run `tools/build librcuo` and `make -C lib`")),
        None => link_installed(),
    }
}

/// The folder with the headers that this crate stands in, unless it was packaged.
fn root() -> Option<PathBuf> {
    let root = PathBuf::from(env::var_os("CARGO_MANIFEST_DIR")?).join("../..");
    root.join("include/rcuo/runtime.h").exists().then_some(root)
}

fn link_archives(folder: &Path) -> Result<(), String> {
    for name in ARCHIVES {
        let archive = folder.join(format!("lib{name}.a"));
        println!("cargo:rerun-if-changed={}", archive.display());
        if !archive.exists() {
            return Err(format!("lib{name}.a isn't in {}", folder.display()));
        }
    }
    println!("cargo:rustc-link-search=native={}", folder.display());
    ARCHIVES.iter().for_each(|name| println!("cargo:rustc-link-lib=static={name}"));
    Ok(())
}

fn link_installed() -> Result<(), String> {
    const WAYS: &str = "install librcuo, or name the folder of its archives by RCUO_LIB";
    let program = env::var_os("PKG_CONFIG").unwrap_or_else(|| "pkg-config".into());
    let said = Command::new(&program)
        .args(["--libs", PACKAGE])
        .output()
        .map_err(|why| format!("{} can't be run ({why}): {WAYS}", program.to_string_lossy()))?;
    if !said.status.success() {
        return Err(format!("{}: {WAYS}", String::from_utf8_lossy(&said.stderr).trim()));
    }
    for word in words(&String::from_utf8_lossy(&said.stdout)) {
        match word.split_at_checked(2) {
            Some(("-L", folder)) => println!("cargo:rustc-link-search=native={folder}"),
            Some(("-l", name)) => println!("cargo:rustc-link-lib={name}"),
            _ => (), // (-pthread, which std has)
        }
    }
    Ok(())
}

/// The words of a line of `pkg-config`, in which a space within a word has a `\` before it.
fn words(line: &str) -> Vec<String> {
    let mut words = Vec::new();
    let mut word = String::new();
    let mut letters = line.trim().chars();
    while let Some(letter) = letters.next() {
        match letter {
            ' ' => words.push(mem::take(&mut word)),
            '\\' => word.extend(letters.next()),
            other => word.push(other),
        }
    }
    words.push(word);
    words
}
