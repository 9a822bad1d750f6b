//! docs/PROMISES.md, the edits and the sources: the table of wrong answers names the edits that are there, each of them and no other;
//! each call that a host in C reaches goes through what some edit of its own crate changes; and no promise rests on `specs/Inner`.

use std::collections::{BTreeMap, BTreeSet};
use std::fs;
use std::path::{Path, PathBuf};

/// The functions of a crate: their text, by name.
type Functions = BTreeMap<String, String>;

fn root() -> PathBuf {
    Path::new(env!("CARGO_MANIFEST_DIR")).parent().expect("tests/ has a parent").to_path_buf()
}

fn paths(folder: &Path) -> Vec<PathBuf> {
    fs::read_dir(folder).into_iter().flatten().map(|entry| entry.expect("an entry").path()).collect()
}

/// The files of a crate's folder that a check reads.
fn read_by_check(krate: &Path, folder: &str, extension: &str) -> Vec<PathBuf> {
    paths(&krate.join(folder)).into_iter().filter(|path| path.extension().is_some_and(|e| e == extension)).collect()
}

fn name(path: &Path) -> String {
    path.file_stem().expect("a name").to_string_lossy().into_owned()
}

fn text(path: &Path) -> String {
    fs::read_to_string(path).unwrap_or_else(|e| panic!("{}: {e}", path.display()))
}

/// The edits of all crates, as crate/name.
fn edits() -> BTreeMap<String, PathBuf> {
    let of = |krate: PathBuf| {
        let files = ["must-fail", "must-fail-quick"].map(|folder| paths(&krate.join(folder))).concat();
        let edits = files.into_iter().filter(|path| path.extension().is_some_and(|e| e == "edit"));
        edits.map(|path| (format!("{}/{}", name(&krate), name(&path)), path)).collect::<Vec<_>>()
    };
    paths(&root().join("crates")).into_iter().flat_map(of).collect()
}

/// The name of the function that a line begins.
fn begun(line: &str) -> Option<&str> {
    let line = line.strip_prefix("pub ").unwrap_or(line);
    let line = line.strip_prefix("extern \"C\" ").unwrap_or(line);
    line.strip_prefix("fn ")?.split('(').next()
}

fn functions(krate: &str) -> Functions {
    let (mut functions, mut within) = (Functions::new(), None);
    for line in read_by_check(&root().join("crates").join(krate), "src", "rt")
        .iter()
        .flat_map(|path| text(path).lines().map(String::from).collect::<Vec<_>>())
    {
        within = begun(&line).map(String::from).or(within);
        if let Some(function) = &within {
            *functions.entry(function.clone()).or_default() += &format!("{line}\n");
        }
        within = within.filter(|_| line != "}" && line != "{}");
    }
    functions
}

/// What a call goes through within its crate: itself, what it calls, and so on.
fn reached(functions: &Functions, call: &str) -> BTreeSet<String> {
    let (mut reached, mut next) = (BTreeSet::new(), vec![call.to_string()]);
    while let Some(function) = next.pop() {
        let body = functions[&function].split_once("\n{").map_or("", |(_, body)| body);
        let calls = |callee: &&String| {
            let before = |(at, _): (usize, &str)| !body[..at].ends_with(|c: char| c == ':' || c == '_' || c.is_alphanumeric());
            body.match_indices(&format!("{callee}(")).any(before)
        };
        next.extend(functions.keys().filter(calls).filter(|callee| !reached.contains(*callee)).cloned());
        reached.insert(function);
    }
    reached
}

/// The functions whose text an edit changes; none where it changes a definition or a constant.
fn changed(functions: &Functions, edit: &Path) -> BTreeSet<String> {
    let (mut in_source, mut within, mut changed) = (false, None, BTreeSet::new());
    for line in text(edit).lines() {
        if let Some(file) = line.strip_prefix("file: ") {
            in_source = file == "src/lib.rt";
        } else if let Some(function) = line.strip_prefix("in: ") {
            within = Some(function.to_string());
        } else if let (true, Some(old)) = (in_source, line.strip_prefix("old: ")) {
            let found =
                functions.iter().filter(|(function, text)| within.as_ref().map_or(text.contains(old), |f| f == *function));
            changed.extend(found.map(|(function, _)| function.clone()));
        }
    }
    changed
}

/// The edits that the table names, as crate/name, each with the change request of its row (`L1, ..`); of the base's rows with none.
fn named() -> BTreeMap<String, String> {
    let page = text(&root().join("docs/PROMISES.md"));
    let (_, section) = page.split_once("## Wrong answers that the contracts rule out").expect("the section");
    let table = section.split("\n## ").next().unwrap_or_default();
    let rows = table.lines().filter_map(|line| line.strip_prefix("| "));
    let request =
        |row: &str| row.split(", ").next().filter(|word| word.starts_with('L') && !word.contains(' ')).map(String::from);
    let words =
        |row: &'_ str| row.split('`').skip(1).step_by(2).filter(|word| word.contains('/')).map(String::from).collect::<Vec<_>>();
    rows.flat_map(|row| words(row).into_iter().map(move |edit| (edit, request(row).unwrap_or_default()))).collect()
}

#[test]
fn the_table_of_wrong_answers_names_the_edits() {
    let requests = named();
    let (named, there): (BTreeSet<String>, BTreeSet<String>) =
        (requests.keys().cloned().collect(), edits().into_keys().collect());
    let missing: Vec<&String> = named.difference(&there).collect();
    let unnamed: Vec<&String> = there.difference(&named).collect();
    assert!(missing.is_empty() && unnamed.is_empty(), "named and not there: {missing:?}; there and not named: {unnamed:?}");
    let mut counts: BTreeMap<String, usize> = BTreeMap::new();
    requests.into_values().for_each(|request| *counts.entry(request).or_default() += 1);
    let base = counts.remove("").unwrap_or_default();
    assert!((100..=120).contains(&base), "of the base: {base}");
    assert!(counts.values().all(|&count| count <= 10), "of a request: {counts:?}");
}

#[test]
fn each_call_for_c_goes_through_a_wrong_answer() {
    let edits = edits();
    let crates =
        [("capi", 12), ("capi_host", 3), ("capi_quorum", 3), ("capi_simulation", 2), ("capi_script", 3), ("capi_packet", 2)];
    let exports = functions("sigma");
    assert_eq!(exports.len(), crates.iter().map(|(_, calls)| calls).sum::<usize>());
    for (krate, calls) in crates {
        let functions = functions(krate);
        let changes: Vec<BTreeSet<String>> = edits
            .iter()
            .filter(|(edit, _)| edit.starts_with(&format!("{krate}/")))
            .map(|(_, path)| changed(&functions, path))
            .collect();
        // Crate `sigma` exports a call by handing it on to the function of its name.
        let handed_on =
            |call: &&String| exports.get(*call).is_some_and(|text| text.contains(&format!("{{\n    {krate}::{call}(")));
        let exported: Vec<&String> = functions.keys().filter(handed_on).collect();
        assert_eq!(exported.len(), calls, "{krate}: {exported:?}");
        for call in exported {
            let reached = reached(&functions, call);
            assert!(
                changes.iter().any(|changed| !changed.is_disjoint(&reached)),
                "{krate}::{call} goes through no edit of its crate"
            );
        }
    }
}

/// The names that a source or a file of definitions takes from some crate's `Inner`.
fn from_inner(text: &str) -> Vec<String> {
    let lines = text.lines().filter(|line| line.trim_start_matches("ghost ").starts_with("use ") && line.contains(".Inner.{"));
    let names = |line: &str| line.split_once(".Inner.{").map_or("", |(_, rest)| rest.trim_end_matches([';', '}'])).to_string();
    lines.flat_map(|line| names(line).split(", ").map(String::from).collect::<Vec<_>>()).collect()
}

#[test]
fn no_promise_rests_on_inner_definitions() {
    let mut inner = 0;
    for krate in paths(&root().join("crates")) {
        for path in read_by_check(&krate, "specs", "antt") {
            inner += u32::from(name(&path) == "Inner");
            assert!(name(&path) == "Inner" || from_inner(&text(&path)).is_empty(), "{} cites Inner", path.display());
        }
        let names: Vec<String> = read_by_check(&krate, "src", "rt").iter().flat_map(|path| from_inner(&text(path))).collect();
        for (function, text) in functions(&name(&krate)).iter().filter(|(_, text)| text.starts_with("pub ")) {
            let contract = text.split("\n{").next().unwrap_or_default();
            let words: BTreeSet<&str> = contract.split(|c: char| c.is_whitespace() || "(){},.".contains(c)).collect();
            let cited: Vec<&String> = names.iter().filter(|name| words.contains(name.as_str())).collect();
            assert!(cited.is_empty(), "{}::{function} cites {cited:?} of Inner", name(&krate));
        }
    }
    assert!(inner > 10, "{inner}");
}
