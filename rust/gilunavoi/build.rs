//! Finds the library, and says what to do where there is none: the compiler's own words would not.

use std::env;
use std::path::{Path, PathBuf};
use std::process::Command;

const LIBRARY: &str = "libsharing.a";

fn main() {
    for name in ["SHARING_LIB_DIR", "PKG_CONFIG", "PKG_CONFIG_PATH", "PKG_CONFIG_LIBDIR"] {
        println!("cargo:rerun-if-env-changed={name}");
    }
    match target().and_then(|()| folder()) {
        Ok(folder) => {
            println!("cargo:rerun-if-changed={}", folder.join(LIBRARY).display());
            println!("cargo:rustc-link-search=native={}", folder.display());
            println!("cargo:rustc-link-lib=static=sharing");
        }
        Err(reason) => {
            eprintln!("{reason}");
            std::process::exit(1);
        }
    }
}

/// The library is proved for one kind of machine, and its numbers have the sizes that they have there. Cargo says what is built
/// for.
fn target() -> Result<(), String> {
    let wanted = [("CARGO_CFG_TARGET_ARCH", "x86_64"), ("CARGO_CFG_TARGET_OS", "linux")];
    let other = wanted.into_iter().find_map(|(name, wanted)| env::var(name).ok().filter(|told| told != wanted));
    other.map_or(Ok(()), |other| {
        Err(format!("the proved library is for x86-64 Linux alone, and this is built for {other}"))
    })
}

/// The folder that was named; else the repository's, if this package stands in it; else the one that was installed.
fn folder() -> Result<PathBuf, String> {
    if let Some(named) = env::var_os("SHARING_LIB_DIR").filter(|name| !name.is_empty()).map(PathBuf::from) {
        // Cargo starts this in the package's folder, and the compiler in another.
        if named.is_relative() {
            return Err(format!("SHARING_LIB_DIR is to be the whole path of a folder, and {} is not", named.display()));
        }
        if named.join(LIBRARY).exists() {
            return Ok(named);
        }
        return Err(format!("SHARING_LIB_DIR names {}, where no {LIBRARY} is", named.display()));
    }
    let root = Path::new(&env::var_os("CARGO_MANIFEST_DIR").expect("cargo names the package's folder")).join("../..");
    let built = root.join("target");
    if built.join(LIBRARY).exists() {
        return Ok(built);
    }
    if built.join("staticlib/libexports_c.a").exists() && built.join("staticlib/libarchive_exports.a").exists() {
        return Err(format!(
            "the proved libraries are built, but not {LIBRARY}: run `make` in the repository, or `tools/library`; or name \
             the folder of another one in SHARING_LIB_DIR"
        ));
    }
    if root.join("tools/library").exists() {
        // Once it is built it is to be taken, also where another one is installed.
        println!("cargo:rerun-if-changed={}", built.join(LIBRARY).display());
    }
    if let Some(installed) = installed().filter(|folder| folder.join(LIBRARY).exists()) {
        return same_version().map(|()| installed);
    }
    // Cargo's own copy of the repository, for a package that depends on it, looks like one in which somebody works.
    Err(format!(
        "{LIBRARY} was not found: run `make` in the repository, if you work there; else install the library with \
         `make install`, or name its folder in SHARING_LIB_DIR"
    ))
}

/// The folder that pkg-config knows. It is asked for that and not for flags, since it leaves out those of the usual folders.
fn installed() -> Option<PathBuf> {
    pkg_config("--variable=libdir").map(PathBuf::from)
}

/// Another version may have other calls, and other numbers for its refusals. The last of the three numbers changes neither.
fn same_version() -> Result<(), String> {
    // Cargo names it.
    let Ok(ours) = env::var("CARGO_PKG_VERSION") else { return Ok(()) };
    let theirs = pkg_config("--modversion").unwrap_or_default();
    let calls = |version: &str| version.split('.').take(2).map(str::to_string).collect::<Vec<_>>();
    if calls(&ours) == calls(&theirs) {
        return Ok(());
    }
    Err(format!(
        "the installed {LIBRARY} is of version {theirs}, and this package of {ours}: run `make` in the repository, if you \
         work there; else install the library of this version, or name its folder in SHARING_LIB_DIR"
    ))
}

/// What pkg-config says of the library, if it says something.
fn pkg_config(question: &str) -> Option<String> {
    let program = env::var_os("PKG_CONFIG").unwrap_or("pkg-config".into());
    let told = Command::new(program).args([question, "sharing"]).output().ok()?;
    let answer = String::from_utf8(told.stdout).ok()?.trim().to_string();
    (told.status.success() && !answer.is_empty()).then_some(answer)
}
