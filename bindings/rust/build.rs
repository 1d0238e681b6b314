//! Finds the library and tells cargo to link it. The first of these that holds:
//!
//! 1. `SPLICEBELL_ARCHIVE_DIR` names a folder with `libsplicebell.a`, or with `libabi.a`, made before.
//! 2. `SPLICEBELL_INSTALLED=1`, or the crate does not stand in its repository: the installed library, through
//!    `splicebell.pc`.
//! 3. In its repository: the library that `scripts/archive` makes there, for the processor that cargo builds for. An
//!    installed one, which may be older, is taken only where the kit is missing too, and a warning says so.
//!
//! An installed library of another interface is never linked: its structs have other sizes, and the linker does not see it.
#[path = "src/interface.rs"]
mod interface;

use interface::INTERFACE;
use std::path::{Path, PathBuf};
use std::process::Command;
use std::time::SystemTime;

const ARCHIVE_DIR: &str = "SPLICEBELL_ARCHIVE_DIR";
const INSTALLED: &str = "SPLICEBELL_INSTALLED";
const SEARCHED: &str = "PKG_CONFIG_PATH";

/// The names that an archive may have, without `lib` and `.a`.
const NAMES: [&str; 2] = ["splicebell", "abi"];

fn main() {
    for source in ["build.rs", "src/interface.rs"] {
        println!("cargo:rerun-if-changed={source}");
    }
    for variable in [ARCHIVE_DIR, INSTALLED, SEARCHED] {
        println!("cargo:rerun-if-env-changed={variable}");
    }
    let root = repository_root();
    let in_repository = root.join("scripts/archive").is_file();
    let folder = if let Some(folder) = std::env::var_os(ARCHIVE_DIR) {
        PathBuf::from(folder)
    } else if !in_repository || std::env::var_os(INSTALLED).is_some_and(|word| word == "1") {
        installed().unwrap_or_else(|| {
            stop(&format!(
                "no library is installed: {SEARCHED} may name the folder of its splicebell.pc"
            ))
        })
    } else {
        built_archive(&root)
    };
    link(&folder);
}

fn link(folder: &Path) {
    let archive = |name: &str| folder.join(format!("lib{name}.a"));
    let Some(name) = NAMES.into_iter().find(|name| archive(name).is_file()) else {
        stop(&format!("there is no {}", archive(NAMES[0]).display()))
    };
    println!("cargo:rerun-if-changed={}", archive(name).display());
    println!("cargo:rustc-link-search=native={}", folder.display());
    println!("cargo:rustc-link-lib=static={name}");
}

fn repository_root() -> PathBuf {
    let package = std::env::var_os("CARGO_MANIFEST_DIR").expect("cargo names the package's folder");
    let root = Path::new(&package).join("../..");
    root.canonicalize().unwrap_or(root)
}

/// The folder of the installed library.
fn installed() -> Option<PathBuf> {
    let (version, folder) = described()?;
    if version.split('.').next() != Some(&INTERFACE.to_string()) {
        stop(&format!(
            "version {version} of the library is installed: these bindings are written for interface {INTERFACE}, \
             the first number of a version"
        ));
    }
    Some(folder.into())
}

/// Version and folder of the installed library, as pkg-config says them; where there is no such command, as the file
/// does.
fn described() -> Option<(String, String)> {
    match (said("--modversion"), said("--variable=libdir")) {
        (Ok(version), Ok(folder)) => Some((version?, folder?)),
        _ => {
            let named = std::env::var_os(SEARCHED).unwrap_or_default();
            let usual = ["/usr/local/lib/pkgconfig", "/usr/lib/pkgconfig"].map(PathBuf::from);
            std::env::split_paths(&named)
                .chain(usual)
                .find_map(|f| described_in(&f.join("splicebell.pc")))
        }
    }
}

/// What pkg-config says; nothing where it finds no such library.
fn said(word: &str) -> std::io::Result<Option<String>> {
    let run = Command::new("pkg-config").args([word, "splicebell"]).output()?;
    let text = String::from_utf8(run.stdout).expect("a path in UTF-8");
    Ok(run.status.success().then(|| text.trim().into()))
}

fn described_in(file: &Path) -> Option<(String, String)> {
    let text = std::fs::read_to_string(file).ok()?;
    let value = |name: &str| text.lines().find_map(|line| line.strip_prefix(name));
    let folder = value("libdir=")?.replace("${prefix}", value("prefix=")?);
    Some((value("Version: ")?.into(), folder))
}

/// The folder of the archive. To make it takes long also where nothing has changed, so it is not made then.
fn built_archive(root: &Path) -> PathBuf {
    let code = std::env::var("CARGO_CFG_TARGET_ARCH").expect("cargo names the processor");
    let others = ["crates.txt", "scripts", "include"].map(|source| root.join(source));
    let sources: Vec<_> = others.into_iter().chain(sources_of_crates(root)).collect();
    for source in &sources {
        println!("cargo:rerun-if-changed={}", source.display());
    }
    let folder = root.join("target/library").join(&code);
    let built = changed(&folder.join("libsplicebell.a"));
    if built.is_some() && built > sources.iter().filter_map(|source| newest(source)).max() {
        return folder;
    }
    let kit_is_missing = Command::new("rt").arg("version").output().is_err();
    match kit_is_missing.then(installed).flatten() {
        Some(other) => {
            println!(
                "cargo:warning=splicebell: the Rattle kit is not here: the library in {} is linked",
                other.display()
            );
            other
        }
        None => {
            make_archive(root, &code);
            folder
        }
    }
}

/// The folders of the crates' sources. What the kit makes of them lies beside them, and is no source.
fn sources_of_crates(root: &Path) -> Vec<PathBuf> {
    let crates = std::fs::read_dir(root.join("crates")).into_iter().flatten().flatten();
    let folders = crates.flat_map(|each| ["src", "specs", "proofs"].map(|f| each.path().join(f)));
    folders.filter(|folder| folder.is_dir()).collect()
}

/// When the newest file of a folder, or a file itself, was changed.
fn newest(path: &Path) -> Option<SystemTime> {
    match std::fs::read_dir(path) {
        Ok(inside) => {
            inside.filter_map(|entry| newest(&entry.ok()?.path())).chain(changed(path)).max()
        }
        Err(_) => changed(path),
    }
}

fn changed(path: &Path) -> Option<SystemTime> {
    std::fs::metadata(path).ok()?.modified().ok()
}

fn make_archive(root: &Path, code: &str) {
    match Command::new("scripts/archive").args(["library", code]).current_dir(root).output() {
        Err(why) => stop(&format!("scripts/archive cannot be run: {why}")),
        Ok(run) if !run.status.success() => stop(&format!(
            "the library cannot be made. It needs the command `rt` of the Rattle kit; or install the library \
             (docs/ABI.md), or let {ARCHIVE_DIR} name a folder that holds it.\n{}",
            String::from_utf8_lossy(&run.stderr)
        )),
        Ok(_) => {}
    }
}

fn stop(why: &str) -> ! {
    eprintln!("splicebell: {why}");
    std::process::exit(1);
}
