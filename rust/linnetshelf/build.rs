//! Links liblinnetshelf.a: of the folder `LINNETSHELF_LIB_DIR`, or else of the one that pkg-config knows.
use std::ffi::OsString;
use std::path::{self, PathBuf};
use std::{env, process::Command};

const LIBRARY: &str = "liblinnetshelf.a";
const HINT: &str =
    "set LINNETSHELF_LIB_DIR to the absolute path of its folder, or PKG_CONFIG_PATH to that of linnetshelf.pc";

fn main() {
    for name in ["LINNETSHELF_LIB_DIR", "PKG_CONFIG", "PKG_CONFIG_PATH"] {
        println!("cargo:rerun-if-env-changed={name}");
    }
    match find() {
        Ok(folder) => {
            let folder = folder.display();
            println!("cargo:rerun-if-changed={folder}/{LIBRARY}");
            println!("cargo:rustc-link-search=native={folder}");
            println!("cargo:rustc-link-lib=static=linnetshelf");
        }
        Err(why) => println!("cargo::error={why}: {HINT}"),
    }
}

/// Returns the folder of the library, or why it is not found.
fn find() -> Result<PathBuf, String> {
    let (folder, source) = match variable("LINNETSHELF_LIB_DIR") {
        Some(folder) => (PathBuf::from(folder), "LINNETSHELF_LIB_DIR is set, and pkg-config did not run"),
        None => (ask_pkg_config()?, "pkg-config ran"),
    };
    // A build script runs in the folder of its package, at which a relative path begins.
    let folder = path::absolute(&folder).unwrap_or(folder);
    let library = folder.join(LIBRARY);
    if library.is_file() { Ok(folder) } else { Err(format!("{} is not found ({source})", library.display())) }
}

/// Returns the folder of the library that is installed.
fn ask_pkg_config() -> Result<PathBuf, String> {
    let program = variable("PKG_CONFIG").unwrap_or_else(|| OsString::from("pkg-config"));
    let refused = |why: String| format!("{LIBRARY} is not found (LINNETSHELF_LIB_DIR is not set, and {why})");
    let asked = Command::new(&program).args(["--variable=libdir", "linnetshelf"]).output();
    let asked = asked.map_err(|error| refused(format!("{} did not run: {error}", program.display())))?;
    let folder = String::from_utf8_lossy(&asked.stdout);
    if asked.status.success() && !folder.trim().is_empty() {
        Ok(PathBuf::from(folder.trim()))
    } else {
        Err(refused(format!("{} ran and knows no linnetshelf", program.display())))
    }
}

/// Returns a variable of the environment. One that is empty is as one that is not set.
fn variable(name: &str) -> Option<OsString> {
    env::var_os(name).filter(|value| !value.is_empty())
}
