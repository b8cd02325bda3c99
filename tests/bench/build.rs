//! Links the library and says which operations are there: a `cfg` for each that tests/operations lists.
//! AGREEMENT_LIBRARY and AGREEMENT_OPERATIONS name another folder of archives and another list.

use std::env;

const ALL: [&str; 8] = [
    "agreement_read",
    "agreement_expand",
    "agreement_start",
    "agreement_call",
    "agreement_start_expanded",
    "agreement_call_expanded",
    "agreement_verdict",
    "report",
];

fn main() {
    let root = env::var("CARGO_MANIFEST_DIR").unwrap();
    let library = env::var("AGREEMENT_LIBRARY").unwrap_or(format!("{root}/../../target/staticlib"));
    let list = env::var("AGREEMENT_OPERATIONS").unwrap_or(format!("{root}/../operations"));
    let text = std::fs::read_to_string(&list).expect("the list of operations");
    for name in ALL {
        println!("cargo:rustc-check-cfg=cfg({name})");
    }
    println!("cargo:rustc-link-search=native={library}");
    let mut archives = Vec::new();
    for line in text.lines().filter(|line| !line.starts_with('#')) {
        let (name, made) = line.split_once(' ').expect("an operation and what has it");
        assert!(ALL.contains(&name), "{name} is no operation");
        println!("cargo:rustc-cfg={name}");
        if name != "report" && !archives.contains(&made) {
            archives.push(made);
        }
    }
    // What is built over another archive may hold it whole, so it goes first.
    for archive in archives.iter().rev() {
        println!("cargo:rustc-link-lib=static:-bundle={archive}");
        println!("cargo:rerun-if-changed={library}/lib{archive}.a");
    }
    println!("cargo:rerun-if-changed={list}");
    println!("cargo:rerun-if-env-changed=AGREEMENT_LIBRARY");
    println!("cargo:rerun-if-env-changed=AGREEMENT_OPERATIONS");
}
