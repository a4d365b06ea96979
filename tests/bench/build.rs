//! Compiles `src/reader.c`, with the compiler that the environment variable `CC` names, or gcc.

use std::env;
use std::path::Path;
use std::process::{self, Command};

const SOURCE: &str = "src/reader.c";
const HEADERS: &str = "../../include";

fn main() {
    println!("cargo:rerun-if-changed={SOURCE}");
    println!("cargo:rerun-if-changed={HEADERS}");
    println!("cargo:rerun-if-env-changed=CC");
    if let Err(what) = compile() {
        eprintln!("bench: {SOURCE}: {what}");
        process::exit(1);
    }
}

/// An object file is handed to the linker as it is: there is no archive to make.
fn compile() -> Result<(), String> {
    let compiler = env::var("CC").unwrap_or("gcc".to_string());
    let folder = env::var("OUT_DIR").map_err(|error| error.to_string())?;
    let object = Path::new(&folder).join("reader.o");
    let mut command = Command::new(&compiler);
    command.args(["-std=c11", "-O3", "-fPIC", "-Wall", "-Wextra", "-Werror", "-I", HEADERS, "-c", SOURCE, "-o"]);
    let status = command.arg(&object).status().map_err(|error| format!("{compiler}: {error}"))?;
    if !status.success() {
        return Err(format!("{compiler} ended with {status}"));
    }
    println!("cargo:rustc-link-arg={}", object.display());
    Ok(())
}
