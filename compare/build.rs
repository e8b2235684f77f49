//! Finds the crate's five files and the static library, both by the paths that `run.sh` sets.
use std::env;
use std::fs;
use std::path::{Path, PathBuf};

/// The parts of `mod.rs` that are taken: from the line that begins so up to the line that begins so.
const PARTS: [(&str, &str); 5] = [
    ("/// Rewrite an integer-valued float", "thread_local!"),
    ("/// The constraints a [`SchemaKind::Integer`]", "/// What an array leaf requires"),
    ("pub(crate) trait MaybeEmpty", "impl<T: MaybeEmpty> NonEmpty<T>"),
    ("/// A closed interval", "pub(crate) type LengthBounds"),
    ("pub(crate) type IntegerBounds", ""),
];

/// The files that are taken whole, from where they lie.
const WHOLE: [&str; 4] = ["bound_integer", "bound_rational", "divisors", "integer_leaves"];

/// A file of the crate: NAME.rs, or a file whose name ends with --NAME.rs.txt.
fn file_of(folder: &Path, name: &str) -> PathBuf {
    let wanted = |path: &PathBuf| {
        let file = path.file_name().and_then(|file| file.to_str()).unwrap_or("");
        file == format!("{name}.rs") || file.ends_with(&format!("--{name}.rs.txt"))
    };
    fs::read_dir(folder)
        .unwrap_or_else(|error| panic!("{}: {error}", folder.display()))
        .filter_map(|entry| entry.ok().map(|entry| entry.path()))
        .find(wanted)
        .unwrap_or_else(|| panic!("{}: no {name}.rs", folder.display()))
}

/// The lines from the one that begins with `first` up to the next that begins with `end`; that line alone where `end` is empty.
fn part_of(text: &str, first: &str, end: &str) -> String {
    let lines: Vec<&str> = text.lines().collect();
    let start = lines
        .iter()
        .position(|line| line.starts_with(first))
        .unwrap_or_else(|| panic!("mod.rs: no '{first}'"));
    let count = if end.is_empty() {
        1
    } else {
        lines[start..]
            .iter()
            .position(|line| line.starts_with(end))
            .unwrap_or_else(|| panic!("mod.rs: no '{end}'"))
    };
    lines[start..start + count].join("\n") + "\n"
}

/// A copy of `bound_integer.rs` in which every divisor counts as exact as a float: what else the crate does past 2^53.
fn all_exact(path: &Path, copy: &Path) {
    let text = fs::read_to_string(path).expect("bound_integer.rs");
    let (before, rest) = text
        .split_once("fn is_exact_in_f64(&self) -> bool {\n")
        .expect("bound_integer.rs: no is_exact_in_f64");
    let (_, after) = rest.split_once("\n    }\n").expect("its end");
    let text = format!("{before}fn is_exact_in_f64(&self) -> bool {{\n        true\n    }}\n{after}");
    fs::write(copy, text).expect("OUT_DIR");
}

fn main() {
    let folder = PathBuf::from(env::var("CRATE_FILES").expect("CRATE_FILES: the folder of the crate's five files"));
    let out = PathBuf::from(env::var("OUT_DIR").expect("OUT_DIR"));
    let mut text = String::new();
    for name in WHOLE {
        let mut path = file_of(&folder, name).canonicalize().expect("a path");
        println!("cargo:rerun-if-changed={}", path.display());
        if name == "bound_integer" && env::var_os("ALL_EXACT").is_some() {
            let copy = out.join("bound_integer.rs");
            all_exact(&path, &copy);
            path = copy;
        }
        text += &format!("#[path = {:?}]\nmod {name};\n", path.display().to_string());
    }
    let module = file_of(&folder, "mod");
    println!("cargo:rerun-if-changed={}", module.display());
    let module = fs::read_to_string(module).expect("mod.rs");
    for (first, end) in PARTS {
        text += &part_of(&module, first, end);
    }
    fs::write(out.join("ir.rs"), text).expect("OUT_DIR");

    for folder in ["RULE_LINES_LIB", "KIT_C"] {
        println!("cargo:rerun-if-env-changed={folder}");
        println!(
            "cargo:rustc-link-search=native={}",
            env::var(folder).unwrap_or_else(|_| panic!("{folder} is not set"))
        );
    }
    println!("cargo:rerun-if-changed={}/libforeign.a", env::var("RULE_LINES_LIB").unwrap());
    println!("cargo:rustc-link-lib=static=foreign");
    println!("cargo:rustc-link-lib=static=libc_c");
    println!("cargo:rerun-if-env-changed=CRATE_FILES");
    println!("cargo:rerun-if-env-changed=ALL_EXACT");
}
