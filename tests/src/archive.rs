//! The proved library as a C program uses it: the one archive, and programs that are compiled against include/sigma.h and it.

use std::path::{Path, PathBuf};
use std::process::Command;

pub fn root() -> PathBuf {
    Path::new(env!("CARGO_MANIFEST_DIR")).parent().expect("tests/ has a parent").to_path_buf()
}

pub fn library() -> PathBuf {
    root().join("target/libsigma.a")
}

/// The two languages that the header is for, with warnings as errors.
#[derive(Clone, Copy, Debug, PartialEq, Eq)]
pub enum Language {
    C,
    Cpp,
}

impl Language {
    fn compiler(self) -> Command {
        let (name, arguments) = match self {
            Language::C => ("cc", ["-std=c11", "-x", "c"]),
            Language::Cpp => ("c++", ["-std=c++17", "-x", "c++"]),
        };
        let mut command = Command::new(name);
        command.args(arguments).args(["-O2", "-Wall", "-Wextra", "-Werror", "-pedantic"]);
        command
    }
}

/// Compiles tests/c/`source` with the library and runs it: what it prints. The header, and what is in `folder`, can be included.
pub fn printed(language: Language, source: &str, folder: &Path) -> String {
    let program = folder.join(format!("{}_{language:?}", source.replace('.', "_")));
    let compiled = language
        .compiler()
        .arg("-I")
        .arg(root().join("include"))
        .arg("-I")
        .arg(folder)
        .arg(root().join("tests/c").join(source))
        .args(["-x", "none"])
        .arg(library())
        .arg("-o")
        .arg(&program)
        .status();
    assert!(compiled.is_ok_and(|status| status.success()), "{source} compiles as {language:?}");
    let run = Command::new(&program).output().expect("the program runs");
    let text = String::from_utf8_lossy(&run.stdout).into_owned();
    assert!(run.status.success(), "{source} as {language:?}: {}\n{text}", run.status);
    text
}
