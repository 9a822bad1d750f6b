//! include/sigma.h as C and as C++ sees it: small programs are compiled against the header and the library, and run. And the library
//! as a linker sees it: what the header declares, and nothing else.

use sigma_tests::archive::{library, printed, root, Language};
use std::collections::BTreeSet;
use std::fs;
use std::path::Path;
use std::process::Command;

fn text(path: &str) -> String {
    fs::read_to_string(root().join(path)).unwrap_or_else(|e| panic!("{path}: {e}"))
}

fn folder() -> &'static Path {
    Path::new(env!("CARGO_TARGET_TMPDIR"))
}

#[test]
fn in_c() {
    assert_eq!(printed(Language::C, "header.c", folder()), "header ok\n");
}

#[test]
fn in_cpp() {
    assert_eq!(printed(Language::Cpp, "header.c", folder()), "header ok\n");
}

#[test]
fn the_example_in_the_header_is_run() {
    let header = text("include/sigma.h");
    let example: Vec<String> =
        header.lines().filter_map(|line| line.strip_prefix(" *     ")).map(|line| format!("    {line}\n")).collect();
    assert_eq!(example.len(), 6);
    assert!(text("tests/c/header.c").contains(&example.concat()), "{example:?}");
}

/// The functions that the header declares, in its order: outside comments each declaration begins `uint32_t NAME(`.
fn declared() -> Vec<String> {
    let header = text("include/sigma.h");
    let code: String = header
        .split("/*")
        .enumerate()
        .map(|(i, part)| if i == 0 { part } else { part.split_once("*/").expect("it ends").1 })
        .collect();
    let names = code.split(';').filter_map(|statement| Some(statement.split_once('(')?.0.split_whitespace().last()?.to_owned()));
    names.filter(|name| name.starts_with("sigma_")).collect()
}

/// The letter and the name of each of the archive's symbols, as `nm` lists them.
fn symbols() -> Vec<(char, String)> {
    let listed = Command::new("nm").args(["--format=posix"]).arg(library()).output().expect("nm runs");
    assert!(listed.status.success());
    let listed = String::from_utf8(listed.stdout).expect("plain text");
    let symbol = |line: &str| match line.split_whitespace().collect::<Vec<_>>()[..] {
        [name, letter, ..] if letter.len() == 1 => Some((letter.chars().next()?, name.to_owned())),
        _ => None,
    };
    listed.lines().filter_map(symbol).collect()
}

#[test]
fn the_archive_has_the_calls_of_the_header_and_no_other_name() {
    let mut declared = declared();
    assert_eq!(declared.len(), text("include/sigma.h").lines().filter(|line| line.starts_with("uint32_t sigma_")).count());
    let global = |(letter, name): (char, String)| (letter.is_ascii_uppercase() && letter != 'U').then_some(name);
    let mut defined: Vec<String> = symbols().into_iter().filter_map(global).collect();
    declared.sort();
    defined.sort();
    assert_eq!(defined, declared);
}

#[test]
fn the_archive_needs_only_memory_functions_and_keeps_nothing() {
    let needed: BTreeSet<String> =
        symbols().into_iter().filter(|(letter, _)| "Uwv".contains(*letter)).map(|(_, name)| name).collect();
    let memory = ["memcpy", "memmove", "memset", "memcmp", "bcmp"];
    let others: Vec<&String> = needed.iter().filter(|name| !memory.contains(&name.as_str())).collect();
    assert!(others.is_empty(), "{others:?}");
    // Code and constants: no symbol stands where it could be written.
    let written: Vec<(char, String)> = symbols().into_iter().filter(|(letter, _)| !"tTrRUwv".contains(*letter)).collect();
    assert!(written.is_empty(), "{written:?}");
}

/// The text of README's only block of C.
fn example() -> String {
    let readme = text("README.md");
    let blocks: Vec<&str> = readme.split("\n```").skip(1).step_by(2).collect();
    let of_c: Vec<&str> = blocks.iter().filter_map(|block| block.strip_prefix("c\n")).collect();
    assert_eq!(of_c.len(), 1, "README has one block of C");
    of_c[0].to_owned() + "\n"
}

/// tests/c/example.c is a host around it.
#[test]
fn the_example_in_the_readme_is_run_as_it_stands() {
    fs::write(folder().join("readme.c"), example()).expect("a file for the example");
    for language in [Language::C, Language::Cpp] {
        assert_eq!(printed(language, "example.c", folder()), "example ok\n");
    }
}
