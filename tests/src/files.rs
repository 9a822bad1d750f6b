//! The scripts of tests/scripts, with their whole outputs.

use crate::archive::root;
use std::collections::BTreeSet;
use std::fs::{self, File};
use std::path::{Path, PathBuf};
use std::process::{Command, Output};

fn folder() -> PathBuf {
    Path::new(env!("CARGO_MANIFEST_DIR")).join("scripts")
}

/// The files with this extension, without it.
pub fn names(extension: &str) -> BTreeSet<String> {
    let files = fs::read_dir(folder()).expect("tests/scripts").map(|file| file.expect("a file").path());
    let of_kind = files.filter(|path| path.extension().is_some_and(|e| e == extension));
    of_kind.map(|path| path.file_stem().expect("a name").to_string_lossy().into_owned()).collect()
}

pub fn contents(name: &str) -> Vec<u8> {
    fs::read(folder().join(name)).unwrap_or_else(|e| panic!("{name}: {e}"))
}

/// Each script with its output.
pub fn scripts() -> Vec<(String, Vec<u8>, Vec<u8>)> {
    let both = |name: String| (name.clone(), contents(&format!("{name}.script")), contents(&format!("{name}.expected")));
    names("script").into_iter().map(both).collect()
}

/// A proved program, where it has been built.
pub fn built(name: &str) -> Option<PathBuf> {
    let path = root().join(format!("crates/{name}/out/{name}"));
    path.exists().then_some(path)
}

/// The proved gallery program, where it has been built.
pub fn program() -> Option<PathBuf> {
    built("gallery")
}

/// What a program that has been built answers to these bytes as its standard input, a file, and these arguments.
pub fn answer(name: &str, arguments: &[&str], bytes: &[u8]) -> Output {
    let path = std::env::temp_dir().join(format!("sigma-{name}-{}-{:?}", std::process::id(), std::thread::current().id()));
    fs::write(&path, bytes).expect("a file for the program's input");
    let input = File::open(&path).expect("it is there");
    fs::remove_file(&path).expect("its name is not needed");
    command(name).args(arguments).stdin(input).output().expect("it runs")
}

/// A program that has been built.
pub fn command(name: &str) -> Command {
    Command::new(built(name).unwrap_or_else(|| panic!("run `rt run` in crates/{name} first")))
}

/// What standard error says where a program cannot write, and where it cannot read.
pub fn failures(name: &str, script: &[u8]) -> [String; 2] {
    let path = std::env::temp_dir().join(format!("sigma-{name}-{}", std::process::id()));
    fs::write(&path, script).expect("a file for the program's input");
    let full = File::options().write(true).open("/dev/full").expect("/dev/full");
    let unwritten = command(name).stdin(File::open(&path).expect("it is there")).stdout(full).output().expect("it runs");
    fs::remove_file(&path).expect("its name is not needed");
    let unread = command(name).stdin(File::open("/").expect("a folder")).output().expect("it runs");
    assert!(unread.stdout.is_empty(), "nothing is printed of what was not read");
    [unwritten, unread].map(|run| String::from_utf8_lossy(&run.stderr).into_owned())
}
