//! Names the archives of the proved library to the linker, and writes the faulty copies of the model and of its account
//! for `compare`.

use std::path::{Path, PathBuf};

include!("src/bin/compare/fault_list.rs");

fn main() {
    println!("cargo:rerun-if-changed=build.rs");
    println!("cargo:rerun-if-changed=src/machine");
    println!("cargo:rerun-if-changed=src/account.rs");
    println!("cargo:rerun-if-changed=src/bin/compare/fault_list.rs");
    let machine = [
        "call", "tick", "request", "state", "kept", "byte", "latch", "test", "force", "held", "mode", "speed", "order",
        "table", "place",
    ];
    for part in machine.into_iter().chain(["account"]) {
        println!("cargo:rerun-if-changed=src/bin/compare/{part}_faults.rs");
    }
    if std::env::var_os("CARGO_FEATURE_PROVED").is_none() {
        return;
    }
    let here = PathBuf::from(std::env::var_os("CARGO_MANIFEST_DIR").expect("cargo sets it"));
    let archives = here.join("../target/staticlib");
    for (bin, name) in [("compare", "harness"), ("bench", "pace"), ("bench", "harness")] {
        let archive = archives.join(format!("lib{name}.a"));
        println!("cargo:rerun-if-changed={}", archive.display());
        println!("cargo:rustc-link-arg-bin={bin}={}", archive.display());
    }

    let out = PathBuf::from(std::env::var_os("OUT_DIR").expect("cargo sets it"));
    let all: Vec<(usize, &Fault)> = faults().collect();
    let (of_machine, of_account) = all.split_at(all.len() - ACCOUNT_FAULTS.len());
    let source = whole(&here.join("src/machine"), "mod");
    std::fs::write(out.join("faulty.rs"), faulty(&source, of_machine)).expect("OUT_DIR");
    // The copy of the account keeps to the model's own records and answers.
    let source = whole(&here.join("src"), "account").replace("use crate::machine::", "use reference::machine::");
    std::fs::write(out.join("faulty_account.rs"), faulty(&source, of_account)).expect("OUT_DIR");
}

/// The text of one of the model's files, with the text of each of its child modules in the place of the line that
/// names it.
fn whole(folder: &Path, name: &str) -> String {
    let file = folder.join(format!("{name}.rs"));
    let source = std::fs::read_to_string(&file).unwrap_or_else(|error| panic!("{}: {error}", file.display()));
    let mut text = String::new();
    // Inner comments cannot stand in an included file.
    for line in source.lines().filter(|line| !line.starts_with("//!")) {
        match line.strip_prefix("mod ").and_then(|rest| rest.strip_suffix(';')) {
            Some(child) => text += &format!("mod {child} {{\n{}}}\n", whole(folder, child)),
            None => text += &format!("{line}\n"),
        }
    }
    text
}

/// The source with each of these faults at its place, behind a test of the switch.
fn faulty(source: &str, faults: &[(usize, &Fault)]) -> String {
    let mut text = source.to_string();
    let mut done: Vec<&str> = Vec::new();
    for (_, fault) in faults {
        if done.contains(&fault.right) {
            continue;
        }
        done.push(fault.right);
        // Nor may it stand in a wrong text put in before, which would then be changed in its stead.
        for place in [source, text.as_str()] {
            assert_eq!(place.matches(fault.right).count(), 1, "the place of a fault: {}", fault.right);
        }
        let wrong: String = faults
            .iter()
            .filter(|(_, other)| other.right == fault.right)
            .map(|(number, other)| format!("if crate::faults::is_on({number}) {{ {} }} else ", other.wrong))
            .collect();
        text = text.replacen(fault.right, &format!("({wrong}{{ {} }})", fault.right), 1);
    }
    text
}
