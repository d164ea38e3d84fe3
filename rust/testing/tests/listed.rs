//! No promise is left out of the list that tests are made of.

use std::collections::BTreeSet;
use std::fs;
use std::path::Path;

/// The promises that the source of a module defines, each under the module's name.
fn defined(module: &str, source: &str) -> BTreeSet<String> {
    let promises = source.lines().filter_map(|line| line.strip_prefix("pub fn "));
    let names = promises.filter_map(|rest| rest.split_once("<S: Subject>() {"));
    names.map(|(name, _)| format!("{module}::{name}")).collect()
}

/// The promises in the list: a module's name with a colon stands before those of the module.
fn listed(source: &str) -> BTreeSet<String> {
    let (_, rest) = source.split_once("$subject;\n").expect("the list follows the subject");
    let (list, _) = rest.split_once('}').expect("the list ends");
    let mut module = "";
    let mut promises = BTreeSet::new();
    for word in list.split_whitespace() {
        match word.strip_suffix(':') {
            Some(name) => module = name,
            None => drop(promises.insert(format!("{module}::{}", word.trim_end_matches(';')))),
        }
    }
    promises
}

#[test]
fn every_promise_is_listed() {
    let folder = Path::new(env!("CARGO_MANIFEST_DIR")).join("src");
    let mut promises = BTreeSet::new();
    for file in fs::read_dir(&folder).expect("the sources are there") {
        let path = file.expect("the folder is read").path();
        let module = path.file_stem().expect("a file has a name").to_string_lossy();
        promises.extend(defined(&module, &fs::read_to_string(&path).expect("a source is read")));
    }
    let list = fs::read_to_string(folder.join("promises.rs")).expect("the list is read");
    assert_eq!(listed(&list), promises);
}
