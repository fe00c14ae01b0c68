//! Folders for tests, and the program cq.
use std::io::Write;
use std::ops::Deref;
use std::path::{Path, PathBuf};
use std::process::{self, Command, Stdio};
use std::sync::atomic::{AtomicU32, Ordering};
use std::{env, fs};

/// An empty folder, which is removed at the end.
pub struct Scratch(PathBuf);

impl Scratch {
    pub fn new() -> Scratch {
        static NEXT: AtomicU32 = AtomicU32::new(0);
        let number = NEXT.fetch_add(1, Ordering::Relaxed);
        let path = env::temp_dir().join(format!("linnetshelf-{}-{number}", process::id()));
        fs::create_dir(&path).unwrap();
        Scratch(path)
    }
}

impl Drop for Scratch {
    fn drop(&mut self) {
        let _ = fs::remove_dir_all(&self.0);
    }
}

impl Deref for Scratch {
    type Target = Path;

    fn deref(&self) -> &Path {
        &self.0
    }
}

/// Returns the program cq, or prints that the test does not use it.
pub fn program() -> Option<PathBuf> {
    let program = env::var_os("CQ").filter(|program| !program.is_empty()).map(PathBuf::from);
    if program.is_none() {
        println!("not run with the program cq: the variable CQ is not set");
    }
    program
}

/// Runs the program with a command, and returns what it prints.
pub fn run(program: &Path, command: &str, folder: &Path, more: &[&str], input: &str) -> String {
    let mut child = Command::new(program)
        .arg(command)
        .arg(folder)
        .args(more)
        .stdin(Stdio::piped())
        .stdout(Stdio::piped())
        .spawn()
        .unwrap();
    // A command that reads no input may have ended already.
    let _ = child.stdin.take().unwrap().write_all(input.as_bytes());
    let output = child.wait_with_output().unwrap();
    assert!(output.status.success(), "cq {command}: {}", output.status);
    String::from_utf8(output.stdout).unwrap()
}

/// Returns the names in a folder, sorted.
pub fn names_in(folder: &Path) -> Vec<String> {
    let entries = fs::read_dir(folder).unwrap();
    let mut names: Vec<String> = entries.map(|entry| entry.unwrap().file_name().into_string().unwrap()).collect();
    names.sort();
    names
}
