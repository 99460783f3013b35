//! Writes the crates' source as Rust: those whose functions are run, and each crate that they stand on, become a module, its files the
//! module's files.

mod in_rust;

use in_rust::in_rust;
use std::collections::BTreeMap;
use std::path::{Path, PathBuf};
use std::{env, fs};

/// The crates whose public functions are run; all others are found from their lines in crates.txt.
const TOPS: &[&str] = &["desk", "writing", "exercise", "assignment"];

fn main() {
    let variable = |name| PathBuf::from(env::var(name).expect("cargo sets it"));
    let root = variable("CARGO_MANIFEST_DIR").join("../..");
    let out = variable("OUT_DIR");
    let list = root.join("crates.txt");
    println!("cargo:rerun-if-changed={}", list.display());
    let lines = dependencies(&text_of(&list));
    let mut modules = String::new();
    for name in closure(&lines, TOPS) {
        let source = root.join("crates").join(&name).join("src");
        println!("cargo:rerun-if-changed={}", source.display());
        let module = out.join(&name);
        write_crate(&source, &module, &name, &lines[&name]);
        // A file that is named by its path has its own modules beside it.
        modules += &format!("#[path = {:?}]\npub mod {name};\n", module.join("lib.rs"));
    }
    fs::write(out.join("crates.rs"), modules).expect("OUT_DIR can be written");
}

fn text_of(path: &Path) -> String {
    fs::read_to_string(path).unwrap_or_else(|error| panic!("{}: {error}", path.display()))
}

/// Each crate with those that stand behind it in crates.txt.
fn dependencies(list: &str) -> BTreeMap<String, Vec<String>> {
    let lines = list.lines().filter(|line| !line.starts_with('#'));
    let words = |text: &str| text.split_whitespace().map(String::from).collect();
    // Behind the name may stand what kind of crate it is.
    let named = |line| {
        let (head, rest): (&str, &str) = str::split_once(line, ':')?;
        Some((head.split_whitespace().next()?.to_string(), words(rest)))
    };
    lines.filter_map(named).collect()
}

fn closure(lines: &BTreeMap<String, Vec<String>>, tops: &[&str]) -> Vec<String> {
    let mut found: Vec<String> = tops.iter().copied().map(String::from).collect();
    let mut next = 0;
    while next < found.len() {
        for name in &lines[&found[next]] {
            if !found.contains(name) {
                found.push(name.clone());
            }
        }
        next += 1;
    }
    found
}

fn write_crate(source: &Path, module: &Path, name: &str, needs: &[String]) {
    fs::create_dir_all(module).expect("OUT_DIR can be written");
    let files =
        fs::read_dir(source).unwrap_or_else(|error| panic!("{}: {error}", source.display()));
    for file in files {
        let file = file.expect("a directory can be read").path();
        let stem = file.file_stem().expect("a file has a name");
        let target = module.join(stem);
        if file.is_dir() {
            write_crate(&file, &target, name, needs);
        } else {
            let text = in_rust(&text_of(&file), name, needs);
            fs::write(target.with_extension("rs"), text).expect("OUT_DIR can be written");
        }
    }
}
