//! Links the archive named by LIB (default ../crates/engine/out/libengine.a).

use std::env;
use std::path::{Path, PathBuf};
use std::process::exit;

fn fail(message: String) -> ! {
    eprintln!("error: {message}");
    exit(1);
}

/// Links `lib<name>.a` in its folder.
fn link(archive: &Path) {
    let file = archive.file_name().and_then(|f| f.to_str()).unwrap_or("");
    let name = file.strip_prefix("lib").and_then(|f| f.strip_suffix(".a"));
    let Some(name) = name else {
        fail(format!("{file}: an archive is named lib<name>.a"));
    };
    let folder = archive.parent().unwrap_or(Path::new("."));
    println!("cargo:rustc-link-search=native={}", folder.display());
    println!("cargo:rustc-link-lib=static={name}");
    println!("cargo:rerun-if-changed={}", archive.display());
}

fn main() {
    println!("cargo:rerun-if-env-changed=LIB");
    println!("cargo:rerun-if-changed=build.rs");
    let here = PathBuf::from(env::var_os("CARGO_MANIFEST_DIR").unwrap_or_default());
    let lib = env::var_os("LIB")
        .map(PathBuf::from)
        .unwrap_or_else(|| PathBuf::from("../crates/engine/out/libengine.a"));
    let archive = here.join(lib);
    if !archive.is_file() {
        fail(format!(
            "{} is missing: run `rt lib` in crates/engine, or set LIB",
            archive.display()
        ));
    }
    link(&archive);
}
