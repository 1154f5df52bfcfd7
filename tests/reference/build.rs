//! Takes the published Rust from the papers, makes the changes of substitutions.txt and
//! writes the copies to the build folder. Where the papers aren't there, `published` stays
//! unset and the crate has no `shorten`.

use std::path::{Path, PathBuf};
use std::{env, fs};

const INST: &str = "src--crates--yavs-ir--src--inst.rs.txt";
const CFG: &str = "src--crates--yavs-ir--src--opt--cfg.rs.txt";

fn main() {
    println!("cargo:rerun-if-env-changed=HALIVOMUE_DOCS");
    println!("cargo:rerun-if-changed=substitutions.txt");
    println!("cargo:rerun-if-changed=build.rs");
    let docs = docs();
    println!("cargo:rerun-if-changed={}", docs.display());
    let (Ok(inst), Ok(cfg)) = (fs::read_to_string(docs.join(INST)), fs::read_to_string(docs.join(CFG))) else {
        println!("cargo:warning=the published Rust isn't in {}: no reference, only stored answers", docs.display());
        return;
    };
    let out = PathBuf::from(env::var("OUT_DIR").unwrap());
    fs::write(out.join("inst.rs"), inst).unwrap();
    fs::write(out.join("cfg.rs"), substituted(cfg)).unwrap();
    write_module(&out, "inst");
    write_module(&out, "cfg");
    println!("cargo:rustc-cfg=published");
}

/// The papers' folder: HALIVOMUE_DOCS, else ../shared/docs seen from the repository's root.
fn docs() -> PathBuf {
    match env::var_os("HALIVOMUE_DOCS") {
        Some(d) => PathBuf::from(d),
        None => Path::new(&env::var("CARGO_MANIFEST_DIR").unwrap()).join("../../../shared/docs"),
    }
}

/// A file that declares module `name`, for `include!`.
fn write_module(out: &Path, name: &str) {
    let path = out.join(format!("{name}.rs"));
    fs::write(out.join(format!("mod_{name}.rs")), format!("#[path = {path:?}]\nmod {name};\n")).unwrap();
}

fn substituted(mut text: String) -> String {
    let list = fs::read_to_string("substitutions.txt").unwrap();
    let field = |line: &str, name: &str| {
        let value = line.strip_prefix(name).unwrap_or_else(|| panic!("substitutions.txt: {name} due, not {line}"));
        value.trim_start().replace("\\n", "\n")
    };
    let lines: Vec<&str> = list.lines().filter(|l| !l.is_empty() && !l.starts_with('#')).collect();
    for change in lines.chunks(3) {
        let reason = field(change[0], "reason:");
        let (find, insert) = (field(change[1], "find:"), field(change[2], "insert:"));
        let space = if change[2].starts_with("insert:  ") { " " } else { "" };
        let times = text.matches(&find).count();
        assert!(times == 1, "substitution ({reason}): its text stands {times} times in cfg.rs, not once");
        text = text.replace(&find, &format!("{find}{space}{insert}"));
    }
    text
}
