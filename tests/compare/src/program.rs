//! The programs, run on a file.

use std::fs::File;
use std::path::PathBuf;
use std::process::{Command, Output};

/// A path of the project.
pub fn root(path: &str) -> PathBuf {
    PathBuf::from(concat!(env!("CARGO_MANIFEST_DIR"), "/../..")).join(path)
}

/// A program that was built.
pub fn built(name: &str) -> Command {
    Command::new(root("build/bin").join(name))
}

pub fn program() -> Command {
    built("honeyplank-list")
}

/// What a command says with a file on its standard input.
pub fn run(command: &mut Command, file: &[u8]) -> Output {
    let path = std::env::temp_dir().join(format!("listing-{}-{:?}", std::process::id(), std::thread::current().id()));
    std::fs::write(&path, file).unwrap();
    let output = command.stdin(File::open(&path).unwrap()).output().unwrap();
    std::fs::remove_file(&path).unwrap();
    output
}

/// It prints this text and says nothing else.
pub fn prints(output: &Output, text: &[u8]) -> bool {
    output.status.success() && output.stderr.is_empty() && output.stdout == text
}
