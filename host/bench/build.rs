//! Compiles the C peer (../peer/engine.c), its calls named peer_*, the second
//! writer in C (../peer/pairs.c) and the union-find (../peer/groups.c), and
//! links them.

use std::env;
use std::path::PathBuf;
use std::process::{exit, Command};

fn run(command: &mut Command) {
    let why = match command.status() {
        Ok(status) if status.success() => return,
        Ok(status) => status.to_string(),
        Err(error) => error.to_string(),
    };
    eprintln!("error: {command:?}: {why}");
    exit(1);
}

fn main() {
    let here = PathBuf::from(env::var_os("CARGO_MANIFEST_DIR").unwrap_or_default());
    let out = PathBuf::from(env::var_os("OUT_DIR").unwrap_or_default());
    let archive = out.join("libpeer.a");
    println!("cargo:rerun-if-changed=build.rs");
    let include = here.join("../../include");
    println!("cargo:rerun-if-changed={}", include.display());
    println!("cargo:rerun-if-env-changed=CC");
    let cc = env::var_os("CC").unwrap_or_else(|| "cc".into());
    let objects = ["engine", "pairs", "groups"].map(|name| {
        let source = here.join(format!("../peer/{name}.c"));
        let object = out.join(format!("{name}.o"));
        println!("cargo:rerun-if-changed={}", source.display());
        run(Command::new(&cc)
            .args(["-std=c99", "-O3", "-DENGINE_PREFIX=peer_", "-I"])
            .arg(&include)
            .arg("-c")
            .arg(&source)
            .arg("-o")
            .arg(&object));
        object
    });
    // ar adds to an archive that is there, and what it had would be linked first.
    let _ = std::fs::remove_file(&archive);
    run(Command::new("ar").arg("crs").arg(&archive).args(&objects));
    println!("cargo:rustc-link-search=native={}", out.display());
    println!("cargo:rustc-link-lib=static=peer");
}
