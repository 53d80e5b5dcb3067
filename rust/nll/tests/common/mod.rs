//! What several test files need. None of them needs all.
#![allow(dead_code)]

use std::path::{Path, PathBuf};
use std::process::Command;

pub fn repository() -> PathBuf {
    Path::new(env!("CARGO_MANIFEST_DIR")).join("../..")
}

pub fn text_of(file: &str) -> String {
    std::fs::read_to_string(repository().join(file)).unwrap_or_else(|error| panic!("{file}: {error}"))
}

/// A record of the folder `jobs`.
pub fn job(name: &str) -> Vec<u8> {
    let text = text_of(&format!("jobs/{name}.hex"));
    let digits: Vec<u32> = text.chars().filter(|c| !c.is_whitespace()).map(|c| c.to_digit(16).unwrap()).collect();
    digits.chunks_exact(2).map(|pair| (pair[0] * 16 + pair[1]) as u8).collect()
}

/// What a command prints. It has to succeed.
pub fn printed(command: &mut Command) -> String {
    let output = command.output().unwrap_or_else(|error| panic!("{command:?}: {error}"));
    let said = String::from_utf8(output.stdout).unwrap();
    assert!(output.status.success(), "{command:?}: {}\n{said}{}", output.status, String::from_utf8_lossy(&output.stderr));
    said
}

pub struct Compiler {
    pub program: &'static str,
    pub language: &'static str,
    pub standard: &'static str,
}

pub const C: Compiler = Compiler { program: "cc", language: "c", standard: "-std=c99" };
pub const CPP: Compiler = Compiler { program: "c++", language: "c++", standard: "-std=c++11" };

/// Compiles a file of the repository with the header and the library. A warning is an error.
pub fn compile(compiler: &Compiler, file: &str) -> PathBuf {
    let stem = Path::new(file).file_stem().unwrap().to_str().unwrap();
    let program = Path::new(env!("CARGO_TARGET_TMPDIR")).join(format!("{stem}-{}", compiler.language));
    let mut command = Command::new(compiler.program);
    command.args([compiler.standard, "-Wall", "-Wextra", "-pedantic", "-Werror", "-I"]).arg(repository().join("include"));
    command.args(["-x", compiler.language]).arg(repository().join(file)).args(["-x", "none", env!("NLL_ARCHIVE")]);
    printed(command.arg("-o").arg(&program));
    program
}
