//! Builds libengine.a from the Rattle sources WITHOUT their proofs, by way of
//! rustc: for planted faults only (mutants.sh), which a proof would refuse before
//! any test could find them. Rattle without its contracts is nearly Rust.
//!
//!   unproved REPOSITORY OUT    reads REPOSITORY/crates.txt and crates/, writes
//!                              OUT/libengine.a for Rust programs of this rustc
//!
//! The archive of a release is what `rt lib` makes in crates/engine, and never
//! this one.

use std::collections::BTreeMap;
use std::fs;
use std::path::Path;
use std::process::{exit, Command};

fn fail(message: String) -> ! {
    eprintln!("unproved: {message}");
    exit(1);
}

fn run(command: &mut Command) {
    match command.status() {
        Ok(status) if status.success() => {}
        other => fail(format!("{command:?}: {other:?}")),
    }
}

/// Where a contract's text ends, from behind its word on: a name or none, and
/// braces. None where no contract stands there.
fn contract(after: &str) -> Option<usize> {
    let is_name = |c: char| c.is_ascii_alphanumeric() || c == '_';
    let open = after.trim_start().trim_start_matches(is_name).trim_start();
    if !open.starts_with('{') || !after.starts_with(char::is_whitespace) {
        return None;
    }
    let mut depth = 0;
    for (i, c) in open.char_indices() {
        depth += i32::from(c == '{') - i32::from(c == '}');
        if depth == 0 {
            return Some(after.len() - open.len() + i + 1);
        }
    }
    fail("a contract has no end".to_string());
}

/// Rattle to Rust: comments, ghost imports and members, contracts and the lines
/// that ask for tactics go.
fn stripped(text: &str) -> String {
    let mut out = String::new();
    let mut lines = String::new();
    for line in text.lines() {
        let bare = line.trim_start();
        let skipped = ["//", "#![tactic(", "#[tactic("];
        if !skipped.iter().any(|start| bare.starts_with(start)) {
            lines.push_str(line);
            lines.push('\n');
        }
    }
    let mut rest = lines.as_str();
    'all: while !rest.is_empty() {
        let at_word = !out.ends_with(|c: char| c.is_alphanumeric() || c == '_');
        if at_word && rest.starts_with("ghost ") {
            let end = rest.find(";\n").map_or(rest.len(), |at| at + 1);
            rest = &rest[end..];
            continue;
        }
        for word in ["requires", "ensures"] {
            let after = rest.strip_prefix(word).filter(|_| at_word);
            if let Some(end) = after.and_then(contract) {
                rest = &rest[word.len() + end..];
                continue 'all;
            }
        }
        let c = rest.chars().next().unwrap_or(' ');
        out.push(c);
        rest = &rest[c.len_utf8()..];
    }
    out
}

/// A ghost field of a struct is a line of its own, and goes.
fn without_ghost_fields(text: &str) -> String {
    let is_field = |line: &str| line.trim_start().starts_with("ghost ") && line.ends_with("},");
    text.lines()
        .filter(|line| !is_field(line))
        .map(|line| format!("{line}\n"))
        .collect()
}

fn copy_stripped(from: &Path, to: &Path) {
    let entries = fs::read_dir(from).unwrap_or_else(|e| fail(format!("{}: {e}", from.display())));
    fs::create_dir_all(to).unwrap_or_else(|e| fail(format!("{}: {e}", to.display())));
    for entry in entries.flatten() {
        let (path, name) = (entry.path(), entry.file_name());
        if path.is_dir() {
            copy_stripped(&path, &to.join(name));
        } else if path.extension().is_some_and(|e| e == "rt") {
            let text = fs::read_to_string(&path).unwrap_or_default();
            let file = to.join(name).with_extension("rs");
            if let Err(error) = fs::write(&file, stripped(&without_ghost_fields(&text))) {
                fail(format!("{}: {error}", file.display()));
            }
        }
    }
}

fn main() {
    let arguments: Vec<String> = std::env::args().skip(1).collect();
    let [repository, out] = &arguments[..] else {
        fail("use: unproved REPOSITORY OUT".to_string());
    };
    let (repository, out) = (Path::new(repository), Path::new(out));
    let listed = fs::read_to_string(repository.join("crates.txt"))
        .unwrap_or_else(|e| fail(format!("crates.txt: {e}")));
    let mut needs: BTreeMap<String, Vec<String>> = BTreeMap::new();
    for line in listed.lines() {
        let line = line.split('#').next().unwrap_or("");
        // NAME: DEPS, of a static library NAME staticlib: DEPS
        if let Some((head, deps)) = line.split_once(':') {
            let name = head.split_whitespace().next().unwrap_or("");
            let deps = deps.split_whitespace().map(str::to_string).collect();
            needs.insert(name.to_string(), deps);
        }
    }
    // Lower crates first.
    let mut order: Vec<String> = Vec::new();
    let mut wanted = vec!["engine".to_string()];
    while let Some(name) = wanted.last().cloned() {
        let Some(deps) = needs.get(&name) else {
            fail(format!("crates.txt has no crate {name}"));
        };
        let open: Vec<String> = deps
            .iter()
            .filter(|dep| needs.contains_key(*dep) && !order.contains(dep))
            .cloned()
            .collect();
        if open.is_empty() {
            wanted.pop();
            if !order.contains(&name) {
                order.push(name);
            }
        } else {
            wanted.extend(open);
        }
    }
    let mut objects = Vec::new();
    for name in &order {
        let source = out.join(name);
        copy_stripped(&repository.join("crates").join(name).join("src"), &source);
        let object = out.join(format!("{name}.o"));
        let mut rustc = Command::new("rustc");
        rustc
            .args([
                "--edition",
                "2021",
                "-O",
                "-A",
                "warnings",
                "--cap-lints",
                "allow",
            ])
            .args(["--crate-type", "rlib", "-C", "codegen-units=1"])
            .args(["-C", "embed-bitcode=no"])
            .arg(format!("--crate-name={name}"))
            .arg(format!(
                "--emit=link={0}/lib{name}.rlib,obj={1}",
                out.display(),
                object.display()
            ))
            .arg("-L")
            .arg(out)
            .arg(source.join("lib.rs"));
        for dep in order.iter().take_while(|dep| *dep != name) {
            rustc.arg(format!("--extern={dep}={}/lib{dep}.rlib", out.display()));
        }
        run(&mut rustc);
        objects.push(object);
    }
    let archive = out.join("libengine.a");
    let _ = fs::remove_file(&archive);
    run(Command::new("ar").arg("crs").arg(archive).args(objects));
}
