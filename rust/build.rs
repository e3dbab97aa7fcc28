//! Finds the C library, and has rustc link it.

use std::env;
use std::ffi::OsString;
use std::fs;
use std::io;
use std::path::{Path, PathBuf};
use std::process::Command;

/// The variables of the environment that this script and `pkg-config` read.
const VARIABLES: [&str; 5] = [
    "RANGE_SET_LIB_DIR",
    "RANGE_SET_LINK",
    "PKG_CONFIG",
    "PKG_CONFIG_PATH",
    "PKG_CONFIG_LIBDIR",
];

fn main() {
    println!("cargo:rerun-if-changed=build.rs");
    for name in VARIABLES {
        println!("cargo:rerun-if-env-changed={name}");
    }
    let Some(folder) = folder() else {
        return without_library();
    };
    let kind = kind(&folder);
    println!(
        "cargo:rerun-if-changed={}",
        folder.join(kind.file()).display()
    );
    match kind {
        Kind::Static => {
            println!("cargo:rustc-link-search=native={}", folder.display());
            println!("cargo:rustc-link-lib=static=range_set");
        }
        Kind::Shared => {
            let copy = copied(&folder).expect("the shared library cannot be copied to OUT_DIR");
            println!("cargo:rustc-link-search=native={}", copy.display());
            println!("cargo:rustc-link-lib=dylib=range_set");
        }
    }
}

/// Copies the shared library, under each of its names, to the folder of this build, and returns that
/// folder. `cargo run` and `cargo test` tell the loader of it, for this crate and for each crate
/// that depends on it.
fn copied(folder: &Path) -> io::Result<PathBuf> {
    let out = PathBuf::from(env::var_os("OUT_DIR").unwrap());
    for entry in fs::read_dir(folder)? {
        let entry = entry?;
        let name = entry.file_name();
        if name.to_string_lossy().starts_with(Kind::Shared.file()) {
            fs::copy(entry.path(), out.join(name))?;
        }
    }
    Ok(out)
}

/// The two forms of the library.
#[derive(Clone, Copy)]
enum Kind {
    Static,
    Shared,
}

impl Kind {
    fn file(self) -> &'static str {
        match self {
            Kind::Static => "librange_set.a",
            Kind::Shared => "librange_set.so",
        }
    }
}

/// Returns the folder of the library, or `None` if nothing names one.
fn folder() -> Option<PathBuf> {
    env::var_os("RANGE_SET_LIB_DIR")
        .map(PathBuf::from)
        .or_else(of_pkg_config)
        .or_else(of_repository)
}

/// Lets `cargo check` and editors work without the library. If a program is linked, the linker
/// looks in vain for a library whose name says what to do.
fn without_library() {
    println!(
        "cargo:warning=the C library range_set is missing: install it so that pkg-config finds \
         it, or set RANGE_SET_LIB_DIR to the folder that has librange_set.a or librange_set.so"
    );
    println!("cargo:rustc-link-lib=dylib=range_set_IS_MISSING__set_RANGE_SET_LIB_DIR");
    // This file is not there, so cargo runs the script again each time, until it finds the library.
    println!("cargo:rerun-if-changed=librange_set.so");
}

/// Returns the folder that `pkg-config` names. It does so only if the library's version suits this
/// crate, and if this crate is built for the machine that builds it.
fn of_pkg_config() -> Option<PathBuf> {
    if env::var_os("HOST") != env::var_os("TARGET") {
        return None;
    }
    let (least, below) = versions();
    pkg_config(&[
        "--exists",
        &format!("range_set >= {least} range_set < {below}"),
    ])?;
    let folder = pkg_config(&["--variable=libdir", "range_set"])?;
    (!folder.is_empty()).then(|| PathBuf::from(folder))
}

/// Returns what `pkg-config` prints, or `None` if it fails or is not there.
fn pkg_config(arguments: &[&str]) -> Option<String> {
    let command = env::var_os("PKG_CONFIG").unwrap_or(OsString::from("pkg-config"));
    let ran = Command::new(command).args(arguments).output().ok()?;
    let printed = String::from_utf8(ran.stdout).ok()?;
    ran.status.success().then(|| printed.trim().to_string())
}

/// Returns the version of this crate, and the next one with other calls: the next minor version
/// before 1.0.0, and the next major version after that.
fn versions() -> (String, String) {
    let part = |name| env::var(name).unwrap().parse::<u32>().unwrap();
    let (major, minor) = (
        part("CARGO_PKG_VERSION_MAJOR"),
        part("CARGO_PKG_VERSION_MINOR"),
    );
    let below = if major == 0 {
        format!("0.{}", minor + 1)
    } else {
        format!("{}", major + 1)
    };
    (env::var("CARGO_PKG_VERSION").unwrap(), below)
}

/// Returns the folder in which `tools/c/build` leaves the library, if it is there.
fn of_repository() -> Option<PathBuf> {
    let here = PathBuf::from(env::var_os("CARGO_MANIFEST_DIR").unwrap());
    // The second manifest is in a folder of the first one.
    let first = if here.ends_with("serde") {
        here.parent()?
    } else {
        &here
    };
    let folder = first.parent()?.join("out/lib");
    let has = |kind: Kind| folder.join(kind.file()).exists();
    (has(Kind::Static) || has(Kind::Shared)).then_some(folder)
}

/// Returns which form to link: what `RANGE_SET_LINK` says, and otherwise the static one if it is
/// there.
fn kind(folder: &Path) -> Kind {
    let wanted = match env::var("RANGE_SET_LINK").as_deref() {
        Ok("static") => vec![Kind::Static],
        Ok("shared") => vec![Kind::Shared],
        Ok(other) => panic!("RANGE_SET_LINK is {other:?}, and neither static nor shared"),
        Err(_) => vec![Kind::Static, Kind::Shared],
    };
    let found = wanted.iter().find(|kind| folder.join(kind.file()).exists());
    *found.unwrap_or_else(|| {
        panic!(
            "{} does not have {}: set RANGE_SET_LIB_DIR to its folder, or run tools/c/build",
            folder.display(),
            wanted[0].file()
        )
    })
}
