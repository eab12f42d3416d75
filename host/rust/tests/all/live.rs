//! Runs of the command that go on while a test looks at them, and runs from a shell.

use std::fs;
use std::io::{Read, Write};
use std::path::Path;
use std::process::{Child, ChildStdin, ChildStdout, Command, Stdio};
use std::thread;
use std::time::{Duration, Instant};

/// How long is waited for what has to come.
const LIMIT: Duration = Duration::from_secs(60);

/// Waits until something is so.
pub fn wait_until(what: &str, mut so: impl FnMut() -> bool) {
    let begin = Instant::now();
    while !so() {
        assert!(begin.elapsed() < LIMIT, "waited too long until {what}");
        thread::sleep(Duration::from_millis(2));
    }
}

/// A command that signals end, also where the tests were started with some of them ignored, as `nohup` does and a shell behind `&`: what
/// is ignored from the beginning stays so.
fn with_signals(program: &str) -> Command {
    let mut command = Command::new("env");
    command.args(["--default-signal=HUP,INT,TERM", program]);
    command
}

/// A run whose input is given bit by bit, and whose output is read bit by bit.
pub struct Live {
    child: Child,
    stdin: Option<ChildStdin>,
    stdout: Option<ChildStdout>,
}

impl Live {
    pub fn start(words: &[String]) -> Live {
        let mut command = with_signals(env!("CARGO_BIN_EXE_warintaya"));
        command.args(words);
        Live::of(command)
    }

    /// The same from a shell, in a folder; the script ends with `exec`.
    pub fn start_in_shell(folder: &Path, script: &str) -> Live {
        Live::of(shell(folder, script))
    }

    fn of(mut command: Command) -> Live {
        command.stdin(Stdio::piped()).stdout(Stdio::piped());
        let mut child = command.stderr(Stdio::piped()).spawn().unwrap();
        let (stdin, stdout) = (child.stdin.take(), child.stdout.take());
        Live {
            child,
            stdin,
            stdout,
        }
    }

    pub fn process(&self) -> u32 {
        self.child.id()
    }

    /// Gives input; it is taken, all but what a pipe holds.
    pub fn give(&mut self, bytes: &[u8]) {
        assert!(self.offer(bytes), "the command has ended");
    }

    /// The same for one that may have ended, and says whether it has taken it.
    pub fn offer(&mut self, bytes: &[u8]) -> bool {
        let written = self.stdin.as_mut().unwrap().write_all(bytes);
        written.is_ok()
    }

    /// The input ends.
    pub fn close(&mut self) {
        self.stdin = None;
    }

    /// Reads so many bytes of the output.
    pub fn read(&mut self, count: usize) -> Vec<u8> {
        let mut bytes = vec![0; count];
        self.stdout
            .as_mut()
            .unwrap()
            .read_exact(&mut bytes)
            .unwrap();
        bytes
    }

    /// Reads what is left of the output as it comes.
    pub fn collect(&mut self) -> thread::JoinHandle<Vec<u8>> {
        let mut stdout = self.stdout.take().unwrap();
        thread::spawn(move || {
            let mut written = Vec::new();
            stdout.read_to_end(&mut written).unwrap();
            written
        })
    }

    /// Nobody reads its output any longer.
    pub fn forget_output(&mut self) {
        self.stdout = None;
    }

    /// Sends a signal by its name.
    pub fn signal(&self, name: &str) {
        let process = self.process().to_string();
        let sent = Command::new("kill").args(["-s", name, &process]).status();
        assert!(sent.unwrap().success());
    }

    /// Waits for its end, and gives status and standard error.
    pub fn ended(&mut self) -> (Option<i32>, String) {
        let mut status = None;
        let child = &mut self.child;
        wait_until("the command has ended", || {
            status = child.try_wait().unwrap();
            status.is_some()
        });
        let mut said = String::new();
        let mut stderr = self.child.stderr.take().unwrap();
        stderr.read_to_string(&mut said).unwrap();
        (status.unwrap().code(), said)
    }

    /// Reads the output to its end, and gives status, output and standard error.
    pub fn end(&mut self) -> (Option<i32>, Vec<u8>, String) {
        let written = self.collect();
        let (status, said) = self.ended();
        (status, written.join().unwrap(), said)
    }
}

impl Drop for Live {
    /// A test that has failed leaves no process.
    fn drop(&mut self) {
        let _ = self.child.kill();
        let _ = self.child.wait();
    }
}

/// A shell in a folder, which has the command as `$W` and the settings of a small layer, of 12 packets and 19,584 carriers a frame,
/// as `$S`.
fn shell(folder: &Path, script: &str) -> Command {
    let mut shell = with_signals("bash");
    shell.args(["-c", script]).current_dir(folder);
    shell.env("W", env!("CARGO_BIN_EXE_warintaya"));
    shell.env("S", "--mode 1 --modulation qpsk --rate 1/2 --segments 1");
    shell
}

/// Status, standard output and standard error of a script.
pub fn script(folder: &Path, script: &str) -> (i32, Vec<u8>, String) {
    let output = shell(folder, script).stdin(Stdio::null()).output().unwrap();
    let said = String::from_utf8_lossy(&output.stderr).into_owned();
    (output.status.code().unwrap(), output.stdout, said)
}

/// A script that is refused in one line that has all these words.
pub fn script_refused(folder: &Path, text: &str, parts: &[&str]) {
    let (status, _, said) = script(folder, text);
    assert_eq!((status, said.lines().count()), (1, 1), "{text}: {said}");
    for part in parts {
        assert!(said.contains(part), "{text}: {part} is not in: {said}");
    }
}

/// The names in a folder, in order.
pub fn names(folder: &Path) -> Vec<String> {
    let entries = fs::read_dir(folder).unwrap();
    let mut names: Vec<String> = entries
        .map(|entry| entry.unwrap().file_name().into_string().unwrap())
        .collect();
    names.sort();
    names
}
