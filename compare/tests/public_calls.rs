//! "No public function has a `requires`", and none lacks a contract: read off the Rattle sources.

use compare::folders::files;
use std::fs;
use std::path::PathBuf;

/// Every source file of every library crate; a program's `main` is no public call.
fn library_sources() -> Vec<PathBuf> {
    let mut found = files("crates", "rt");
    found.retain(|file| {
        !file.ends_with("main.rt") && !file.components().any(|part| part.as_os_str() == "out")
    });
    found
}

/// The name and the clauses of each public function: the words between its signature and its body.
fn public_calls(source: &str) -> Vec<(String, Vec<String>)> {
    let lines: Vec<&str> = source.lines().map(str::trim).collect();
    let mut calls = Vec::new();
    for (at, line) in lines.iter().enumerate() {
        let Some(rest) = line.strip_prefix("pub ") else { continue };
        let rest = rest.strip_prefix("extern \"C\" ").unwrap_or(rest);
        let Some(rest) = rest.strip_prefix("fn ") else { continue };
        let name = rest.split(['(', '<']).next().unwrap().to_string();
        let head = lines[at..].iter().take_while(|line| **line != "}" && !line.starts_with("let "));
        let clauses = head
            .filter_map(|line| line.split_whitespace().next())
            .filter(|word| ["requires", "ensures"].contains(word))
            .map(str::to_string)
            .collect();
        calls.push((name, clauses));
    }
    calls
}

#[test]
fn every_public_call_has_an_ensures_and_no_requires() {
    let mut seen = 0;
    for source in library_sources() {
        for (name, clauses) in public_calls(&fs::read_to_string(&source).unwrap()) {
            let place = format!("{} in {}", name, source.display());
            assert!(!clauses.iter().any(|c| c == "requires"), "{place} has a requires");
            assert!(clauses.iter().any(|c| c == "ensures"), "{place} has no ensures");
            seen += 1;
        }
    }
    assert!(seen >= 100, "only {seen} public calls were found");
}

#[test]
fn the_reading_of_sources_tells_clauses_apart() {
    let text = "pub fn a(x: u8) -> u8\n    ensures { r }\n{\n    x\n}\n\npub fn b()\n    requires { p }\n{\n}\n\nfn c() {}\n";
    let told: Vec<_> = public_calls(text);
    assert_eq!(told[0], ("a".to_string(), vec!["ensures".to_string()]));
    assert_eq!(told[1], ("b".to_string(), vec!["requires".to_string()]));
    assert_eq!(told.len(), 2);
}
