//! Each short name in docs/SCOPE.md is declared where the table at the top of that page says, each "see" has its
//! number in the last section, and each public function stands among the contracts.
//! Read off the page and the sources.

use compare::folders::{below_root, files};
use std::collections::BTreeSet;
use std::fs;

const CONTRACTS: &str = "Contracts and their outcomes";

/// What a page cites: how many names, those that are not there, and the functions among its contracts
/// with their crates.
#[derive(Default)]
struct Reading {
    cited: usize,
    wrong: Vec<String>,
    contracts: BTreeSet<(String, String)>,
}

impl Reading {
    fn note(&mut self, line: usize, citation: String, there: bool) {
        self.cited += 1;
        if !there {
            self.wrong.push(format!("line {line}: {citation}"));
        }
    }
}

/// The text of a file of the project, and no text if it is not there.
fn text_of(path: &str) -> String {
    fs::read_to_string(below_root(path)).unwrap_or_default()
}

/// Whether a file of definitions or proofs declares a name: for others, or at the left edge.
fn declares(path: &str, name: &str) -> bool {
    text_of(path).lines().any(|line| {
        let mut words = line.trim_start();
        let mut seen = !line.starts_with(' ');
        for word in ["unfoldable ", "abbrev ", "pub ", "record ", "data "] {
            if let Some(rest) = words.strip_prefix(word) {
                words = rest;
                seen |= word == "pub ";
            }
        }
        let behind = words.strip_prefix(name).unwrap_or_default();
        seen && (behind.starts_with(" :") || behind.starts_with(" ("))
    })
}

/// What a source declares: whether it is public, what it is, and its name.
fn declared(source: &str) -> Vec<(bool, &str, &str)> {
    let mut found = Vec::new();
    for line in source.lines().map(str::trim) {
        let rest = line.strip_prefix("pub ").unwrap_or(line);
        let rest = rest.strip_prefix("extern \"C\" ").unwrap_or(rest);
        let Some((what, rest)) = rest.split_once(' ') else { continue };
        if ["fn", "struct", "enum", "const", "mod"].contains(&what) {
            let name = rest.split(|c: char| !c.is_alphanumeric() && c != '_').next().unwrap();
            found.push((line.starts_with("pub "), what, name));
        }
    }
    found
}

fn is_crate(name: &str) -> bool {
    !name.is_empty() && below_root(format!("crates/{name}/src")).is_dir()
}

/// The sources of a crate, and none if there is no such crate.
fn sources(own: &str) -> Vec<String> {
    let found = if is_crate(own) { files(format!("crates/{own}/src"), "rt") } else { Vec::new() };
    found.into_iter().map(|file| fs::read_to_string(file).unwrap()).collect()
}

fn in_code(own: &str, name: &str) -> bool {
    sources(own).iter().any(|text| declared(text).iter().any(|(_, _, known)| *known == name))
}

fn has_test(path: &str, name: &str) -> bool {
    text_of(path).contains(&format!("#[test]\nfn {name}("))
}

/// The texts that a cell has in quotes for code.
fn quoted(cell: &str) -> impl Iterator<Item = &str> {
    cell.split('`').skip(1).step_by(2)
}

/// A short name taken apart: what stands before its mark, the mark, and the names behind it.
fn short_name(text: &str) -> Option<(&str, &str, Vec<&str>)> {
    let mark = ["::", "!", ".", "/"].into_iter().find(|mark| text.contains(mark))?;
    let (front, names) = text.split_once(mark)?;
    (!front.contains(' ')).then(|| (front, mark, names.split(", ").collect()))
}

/// Whether a short name leads to something. A crate's definitions and theorems are looked for in `sides`.
fn leads(front: &str, mark: &str, name: &str, sides: &[&str]) -> bool {
    match (mark, front, front.split_once('/')) {
        ("::", own, None) => in_code(own, name),
        ("!", own, None) => below_root(format!("crates/{own}/must-fail/{name}.edit")).is_file(),
        (".", "page", _) => declares("crates/claims/proofs/Claims.antt", name),
        (".", "witness", _) => declares("crates/claims/proofs/Witnesses.antt", name),
        (".", _, Some(("second", file))) => {
            has_test(&format!("second/tests/description/{file}.rs"), name)
        }
        (".", _, Some(("compare", file))) => has_test(&format!("compare/tests/{file}.rs"), name),
        (".", _, Some((own, file))) => {
            sides.iter().any(|side| declares(&format!("crates/{own}/{side}/{file}.antt"), name))
        }
        _ => false,
    }
}

/// A row of one crate among the contracts: its functions, and their theorems, by the rule or as the row names them.
fn read_crate_row(line: usize, own: &str, cell: &str, reading: &mut Reading) {
    let (named, functions): (Vec<&str>, Vec<&str>) =
        quoted(cell).partition(|name| name.ends_with("-only"));
    let mut theorems: Vec<String> = named.into_iter().map(str::to_string).collect();
    if theorems.is_empty() {
        let rule = |name: &&str| name.trim_start_matches("compared_").replace('_', "-") + "-only";
        theorems.extend(functions.iter().map(rule));
    }
    for name in functions {
        reading.note(line, format!("{own}::{name}"), in_code(own, name));
        reading.contracts.insert((own.to_string(), name.to_string()));
    }
    for theorem in theorems {
        let there = declares(&format!("crates/{own}/proofs/Outcomes.antt"), &theorem);
        reading.note(line, format!("{own}/Outcomes.{theorem}"), there);
    }
}

/// The numbers of the items of a page's lists.
fn item_numbers(page: &str) -> BTreeSet<&str> {
    let fronts = page.lines().filter_map(|line| line.split_once(". "));
    fronts.map(|(front, _)| front).filter(|front| front.parse::<u8>().is_ok()).collect()
}

fn read_page(page: &str) -> Reading {
    let mut reading = Reading::default();
    let items = item_numbers(page);
    let mut section = "";
    for (number, line) in (1..).zip(page.lines()) {
        section = line.strip_prefix("## ").unwrap_or(section);
        let row = line.strip_prefix('|');
        let cells: Vec<&str> = row.unwrap_or(line).split('|').map(str::trim).collect();
        for (column, cell) in cells.iter().enumerate() {
            let sides: &[&str] = match column {
                0 => &["specs", "proofs"],
                1 => &["specs"],
                _ => &["proofs"],
            };
            for (front, mark, names) in quoted(cell).filter_map(short_name) {
                for name in names {
                    let there = leads(front, mark, name, sides);
                    reading.note(number, format!("{front}{mark}{name}"), there);
                    if section == CONTRACTS && row.is_some() && column == 0 && mark == "::" {
                        reading.contracts.insert((front.to_string(), name.to_string()));
                    }
                }
            }
        }
        if section == CONTRACTS && row.is_some() && is_crate(cells[0]) {
            read_crate_row(number, cells[0], cells[1], &mut reading);
        }
        if line.contains("P list") {
            let there = |name| declares("crates/claims/proofs/Cases.antt", name);
            reading.note(number, "P list".to_string(), there("cases") && there("cases-shown"));
        }
        for behind in line.split("see ").skip(1) {
            let item = behind.split(|c: char| !c.is_ascii_digit()).next().unwrap();
            if !item.is_empty() {
                reading.note(number, format!("see {item}"), items.contains(item));
            }
        }
    }
    reading
}

/// The public functions of the library crates, with their crates.
fn public_functions() -> BTreeSet<(String, String)> {
    let mut found = BTreeSet::new();
    for entry in fs::read_dir(below_root("crates")).unwrap() {
        let own = entry.unwrap().file_name().into_string().unwrap();
        if below_root(format!("crates/{own}/src/main.rt")).exists() {
            continue;
        }
        for source in sources(&own) {
            let calls =
                declared(&source).into_iter().filter(|(public, what, _)| *public && *what == "fn");
            found.extend(calls.map(|(_, _, name)| (own.clone(), name.to_string())));
        }
    }
    found
}

#[test]
fn every_short_name_leads_to_something() {
    let page = text_of("docs/SCOPE.md");
    let open = page.lines().find(|line| line.matches('`').count() % 2 == 1);
    assert_eq!(open, None, "quotes that do not end on their line");
    let reading = read_page(&page);
    assert!(reading.wrong.is_empty(), "not there:\n{}", reading.wrong.join("\n"));
    assert!(reading.cited >= 800, "only {} citations were read", reading.cited);
}

#[test]
fn every_public_function_stands_among_the_contracts() {
    let reading = read_page(&text_of("docs/SCOPE.md"));
    let public = public_functions();
    let missing: Vec<_> = public.difference(&reading.contracts).collect();
    assert!(missing.is_empty(), "not among the contracts: {missing:?}");
    assert!(public.len() >= 100, "only {} public functions were found", public.len());
}

#[test]
fn a_wrong_citation_is_told() {
    let text = "| Sentence | Where it stands | What shows it |\n\
                | \"a\" | `form/Form.fits, fitted` | `form/InForm.fits-view`; `events/Rules.take` |\n\
                | \"b\" | `house::first_in_flight, last_in_flight` | `page.quiet-is-idle, busy`; `witness.none` |\n\
                | \"c\" | `ensures` | `events!echo_lost`, `events!echo_found`; `nowhere!at_all`; see 1; see 2 |\n\
                | \"d\" | `now (x .exit)` | `second/events.order_of_messages, none`; `compare/wire.none` |\n\
                Of `nobody::none`, `form.fits`, `form/Form` and `form/Form.fits`.\n\
                ## Contracts and their outcomes\n\
                | codec | `byte_at`, `none_at` |\n\
                | `house::downs` | `byte_at` |\n\
                | reader | `new` (`new-only`) |\n\
                1. Weaker.\n";
    let reading = read_page(text);
    let wrong = [
        "line 2: form/Form.fitted",
        "line 2: events/Rules.take",
        "line 3: house::last_in_flight",
        "line 3: page.busy",
        "line 3: witness.none",
        "line 4: events!echo_found",
        "line 4: nowhere!at_all",
        "line 4: see 2",
        "line 5: second/events.none",
        "line 5: compare/wire.none",
        "line 6: nobody::none",
        "line 6: form.fits",
        "line 6: form/Form",
        "line 8: codec::none_at",
        "line 8: codec/Outcomes.none-at-only",
        "line 10: reader/Outcomes.new-only",
    ];
    assert_eq!(reading.wrong, wrong);
    let told = [("codec", "byte_at"), ("codec", "none_at"), ("house", "downs"), ("reader", "new")];
    assert!(reading.contracts.iter().map(|(own, name)| (own.as_str(), name.as_str())).eq(told));
}
