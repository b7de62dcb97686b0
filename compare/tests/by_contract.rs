//! "The network knows a panel by that panel's contract alone": no proof of a crate above the panel's
//! promise opens a rule of the panel. Read off the proofs, and off the sources, whose attributes open definitions too.
//! Closed cases, which compute, are excepted.

use compare::folders::files;
use std::collections::{BTreeMap, BTreeSet};
use std::fs;
use std::path::PathBuf;

/// The panel's rules, its look at the operation, its refusals and its calls.
const RULES: [&str; 5] = [
    "events.specs.Rules",
    "events.specs.Look",
    "events.specs.Events",
    "refusals.specs.Refusals",
    "panel.specs.Calls",
];

/// The value of a number is no rule.
const NO_RULES: [&str; 1] = ["value_of"];

const ABOVE: [&str; 5] = ["house", "steps", "parts", "network", "runs"];

/// What a file can say by name: each name that it takes from a module of the panel's rules, and each
/// short name that it has for such a module.
fn rules_at_hand(text: &str) -> (BTreeSet<&str>, BTreeMap<&str, &str>) {
    let (mut names, mut modules) = (BTreeSet::new(), BTreeMap::new());
    for line in text.lines() {
        let Some(rest) = line.strip_prefix("use Rattle.") else { continue };
        if let Some((module, list)) = rest.split_once(".{") {
            if RULES.contains(&module) {
                names.extend(list.trim_end_matches('}').split(", "));
            }
        } else if let Some((module, short)) = rest.split_once(" as ") {
            if RULES.contains(&module) {
                modules.insert(short.trim(), module);
            }
        }
    }
    (names, modules)
}

/// The names that a proof opens: those of its `unfolding` lines, with the deeper lines that go on with one,
/// and of each `unfold .. in`.
fn opened(text: &str) -> BTreeSet<&str> {
    let mut names = BTreeSet::new();
    let mut list = None;
    for line in text.lines() {
        let depth = line.len() - line.trim_start().len();
        if let Some(rest) = line.trim().strip_prefix("unfolding") {
            list = Some(depth);
            names.extend(rest.split_whitespace());
        } else if list.is_some_and(|start| depth > start) {
            names.extend(line.split_whitespace());
        } else {
            list = None;
        }
        for part in line.split("unfold ").skip(1) {
            names.extend(part.split_whitespace().take_while(|word| *word != "in"));
        }
    }
    names
}

/// The rules of the panel that a proof opens.
fn rules_opened(text: &str) -> Vec<&str> {
    let (names, modules) = rules_at_hand(text);
    let is_rule = |name: &str| match name.split_once('.') {
        Some((module, name)) => modules.contains_key(module) && !NO_RULES.contains(&name),
        None => names.contains(name) && !NO_RULES.contains(&name),
    };
    opened(text).into_iter().filter(|name| is_rule(name)).collect()
}

/// The rules of the panel that the attributes of a source open: the paths of each `unfolding(..)`.
fn rules_unfolded(source: &str) -> Vec<&str> {
    let mut found = Vec::new();
    for list in source.split("unfolding(").skip(1) {
        for path in list.split(')').next().unwrap().split(',').map(str::trim) {
            let Some((module, name)) = path.rsplit_once("::") else { continue };
            if RULES.contains(&module.replace("::", ".").as_str()) && !NO_RULES.contains(&name) {
                found.push(path);
            }
        }
    }
    found
}

/// The proofs of a crate, other than closed cases.
fn proofs(name: &str) -> Vec<PathBuf> {
    let mut found = files(format!("crates/{name}/proofs"), "antt");
    found.retain(|file| !file.file_name().unwrap().to_string_lossy().starts_with("Cases"));
    found
}

#[test]
fn no_proof_above_the_promise_opens_a_rule_of_the_panel() {
    let mut read = 0;
    for own in ABOVE {
        let files = proofs(own);
        assert!(files.len() >= 5, "only {} proof files of {own} were read", files.len());
        for file in &files {
            let text = fs::read_to_string(file).unwrap();
            let rules = rules_opened(&text);
            assert!(rules.is_empty(), "{} opens {rules:?}", file.display());
        }
        read += files.len();
    }
    assert!(read >= 50, "only {read} proof files were read");
}

#[test]
fn no_source_above_the_promise_opens_a_rule_of_the_panel() {
    let mut unfolded = 0;
    for own in ABOVE {
        let sources = files(format!("crates/{own}/src"), "rt");
        assert!(!sources.is_empty(), "no source of {own} was read");
        for file in sources {
            let text = fs::read_to_string(&file).unwrap();
            let rules = rules_unfolded(&text);
            assert!(rules.is_empty(), "{} opens {rules:?}", file.display());
            unfolded += text.matches("unfolding(").count();
        }
    }
    assert!(unfolded >= 10, "only {unfolded} attributes were read");
}

#[test]
fn a_rule_that_is_opened_is_told() {
    let text = "use Rattle.events.specs.Rules.{take, value_of}\nuse Rattle.refusals.specs.Refusals as refusals\n\
                unfolding take value_of mine\nx = unfold refusals.stray other in y\n  unfolding\n    mine\n    refusals.trials\n  y = take\n";
    assert_eq!(rules_opened(text), ["refusals.stray", "refusals.trials", "take"]);
    let source = "#[tactic(auto, unfolding(crate::specs::NetForm::take, events::specs::Rules::value_of))]\n\
                  #[tactic(auto, using(basics::proofs::Refusals::in_turn), unfolding(crate::specs::Form::x, events::specs::Rules::take))]\n\
                  #[tactic(auto, unfolding(refusals::specs::Refusals::stray), using(a::b))]\n";
    let rules = ["events::specs::Rules::take", "refusals::specs::Refusals::stray"];
    assert_eq!(rules_unfolded(source), rules);
}

/// The promise itself is where the rules are opened, so the reading of files is known to see it.
#[test]
fn the_promise_opens_rules() {
    let mut texts = proofs("promise").into_iter().map(|file| fs::read_to_string(file).unwrap());
    assert!(texts.any(|text| rules_opened(&text).contains(&"happens")));
}
