//! Runs the command.

use std::fs;
use std::io::Write;
use std::path::{Path, PathBuf};
use std::process::{Command, Stdio};
use std::thread;

/// An empty folder for one test.
pub fn folder(name: &str) -> PathBuf {
    let folder = PathBuf::from(env!("CARGO_TARGET_TMPDIR")).join(name);
    let _ = fs::remove_dir_all(&folder);
    fs::create_dir_all(&folder).unwrap();
    folder
}

/// The path of a file of a folder, as a word.
pub fn path(folder: &Path, name: &str) -> String {
    folder.join(name).to_str().unwrap().to_string()
}

/// The words of a subcommand with its settings, and some more.
pub fn options(
    name: &str,
    [mode, modulation, rate, segments]: [&str; 4],
    more: &[&str],
) -> Vec<String> {
    let mut words = vec![
        name,
        "--mode",
        mode,
        "--modulation",
        modulation,
        "--rate",
        rate,
        "--segments",
        segments,
    ];
    words.extend(more);
    words.into_iter().map(String::from).collect()
}

/// Status, standard output and standard error.
pub fn run(words: &[String], input: &[u8]) -> (i32, Vec<u8>, String) {
    let mut child = Command::new(env!("CARGO_BIN_EXE_warintaya"))
        .args(words)
        .stdin(Stdio::piped())
        .stdout(Stdio::piped())
        .stderr(Stdio::piped())
        .spawn()
        .unwrap();
    let mut stdin = child.stdin.take().unwrap();
    let output = thread::scope(|scope| {
        // a command that refuses may not read to the end
        scope.spawn(move || drop(stdin.write_all(input)));
        child.wait_with_output().unwrap()
    });
    let said = String::from_utf8(output.stderr).unwrap();
    (output.status.code().unwrap(), output.stdout, said)
}

/// What a run that is done writes.
pub fn ok(words: &[String], input: &[u8]) -> Vec<u8> {
    let (status, written, said) = run(words, input);
    assert_eq!(status, 0, "{words:?}: {said}");
    written
}

/// A run that is refused, in one line that has all these words.
pub fn refused(words: &[String], input: &[u8], parts: &[&str]) {
    let (status, _, said) = run(words, input);
    assert_eq!(status, 1, "{words:?}: {said}");
    assert_eq!(said.lines().count(), 1, "{said}");
    for part in parts {
        assert!(said.contains(part), "{part} is not in: {said}");
    }
}

/// A run that was not called as it can be.
pub fn usage(words: &[&str]) {
    let words: Vec<String> = words.iter().map(|word| word.to_string()).collect();
    let (status, written, said) = run(&words, &[]);
    assert_eq!(
        (status, written.len(), said.lines().count()),
        (2, 0, 1),
        "{words:?}: {said}"
    );
    assert!(said.contains("--help"), "{said}");
}
