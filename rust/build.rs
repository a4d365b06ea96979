//! Links `libbrb.a` from the folder that the environment variable `BRB_ARCHIVE` names.

use std::env;
use std::path::{Path, PathBuf};
use std::process;

const VARIABLE: &str = "BRB_ARCHIVE";

fn main() {
    println!("cargo:rerun-if-env-changed={VARIABLE}");
    if let Err(what) = link() {
        eprintln!("brb: {what}");
        process::exit(1);
    }
}

fn link() -> Result<(), String> {
    supported()?;
    let folder = folder()?;
    let archive = folder.join("libbrb.a");
    println!("cargo:rerun-if-changed={}", archive.display());
    if !archive.is_file() {
        let archive = archive.display();
        return Err(format!(
            "{archive} is missing: `tools/build brb` in the model's repository writes target/staticlib/libbrb.a"
        ));
    }
    println!("cargo:rustc-link-search=native={}", folder.display());
    println!("cargo:rustc-link-lib=static=brb");
    Ok(())
}

/// The archive is machine code, so that a wrong machine is better said here than by the linker.
fn supported() -> Result<(), String> {
    let of_target = |name: &str| env::var(name).unwrap_or_default();
    match (of_target("CARGO_CFG_TARGET_ARCH").as_str(), of_target("CARGO_CFG_TARGET_OS").as_str()) {
        ("x86_64", "linux") => Ok(()),
        (arch, os) => Err(format!("the archive is for Linux on x86-64, and the target is {os} on {arch}")),
    }
}

/// The folder has to be absolute: a build script runs in its crate's folder, which is not where the variable was set.
fn folder() -> Result<PathBuf, String> {
    let Some(folder) = env::var_os(VARIABLE).filter(|folder| !folder.is_empty()) else {
        return Err(format!("set {VARIABLE} to the folder that holds libbrb.a, as an absolute path"));
    };
    if !Path::new(&folder).is_absolute() {
        return Err(format!("{VARIABLE} is {}, and has to be an absolute path", Path::new(&folder).display()));
    }
    Ok(PathBuf::from(folder))
}
