//! The lock of a state: two runs that go on from one state would each undo what the other did.

use std::fs::{self, File, OpenOptions};
use std::io::{self, ErrorKind, Read, Write};
use std::os::unix::fs::MetadataExt;
use std::path::{Path, PathBuf};
use std::thread::sleep;
use std::time::{Duration, Instant};

use crate::failure::{Failure, Outcome};
use crate::places::place;
use crate::system;

/// A lock that this process holds for as long as this is there. Its file says who holds it, and is removed at the end; one that
/// a killed process has left is locked by nobody.
pub struct Lock {
    file: File,
    path: PathBuf,
}

/// How long one that is just being taken or given back is waited for, and how often it is looked at.
const PATIENCE: Duration = Duration::from_secs(1);
const PAUSE: Duration = Duration::from_millis(5);

/// The lock's file: it stands beside the state's real place, so that all links to the state lead to one lock.
pub fn path_of(state: &Path) -> PathBuf {
    let state = place(state);
    let mut name = std::ffi::OsString::from(".");
    name.push(state.file_name().unwrap_or_default());
    name.push(".lock");
    state.with_file_name(name)
}

/// Opens the lock's file, or makes it; nothing, if another process has made or removed it meanwhile. Nothing else than a file is
/// taken for it, and no link is followed.
fn open(path: &Path) -> io::Result<Option<File>> {
    let mut options = OpenOptions::new();
    options.read(true).write(true);
    let (opened, meanwhile) = match fs::symlink_metadata(path) {
        Ok(about) if !about.is_file() => {
            let what = format!("its lock {} is no file", path.display());
            return Err(io::Error::new(ErrorKind::Other, what));
        }
        Ok(_) => {
            // that of another user can be looked at
            let opened = options.open(path).or_else(|_| File::open(path));
            (opened, ErrorKind::NotFound)
        }
        Err(_) => {
            let made = options.create_new(true).open(path);
            (made, ErrorKind::AlreadyExists)
        }
    };
    match opened {
        Err(why) if why.kind() == meanwhile => Ok(None),
        opened => opened.map(Some),
    }
}

/// Whether a path still is that of an open file.
fn same(file: &File, path: &Path) -> bool {
    let number = |about: fs::Metadata| (about.dev(), about.ino());
    match (file.metadata(), fs::symlink_metadata(path)) {
        (Ok(one), Ok(other)) => number(one) == number(other),
        _ => false,
    }
}

/// Who holds a lock by what its file says, if that process is there.
fn holder(mut file: &File) -> Option<String> {
    let mut line = String::new();
    file.read_to_string(&mut line).ok()?;
    let (number, command) = line.strip_suffix('\n')?.split_once(' ')?;
    let number: u32 = number.parse().ok()?;
    let there = Path::new("/proc").join(number.to_string()).exists();
    there.then(|| format!("process {number} ({command})"))
}

/// Says in a lock's file who holds it.
fn sign(mut file: &File, command: &str) -> io::Result<()> {
    file.set_len(0)?;
    file.write_all(format!("{} warintaya {command}\n", std::process::id()).as_bytes())
}

impl Lock {
    /// Takes the lock of a state for a subcommand, or says who holds it.
    pub fn take(state: &Path, command: &str) -> Outcome<Lock> {
        let path = path_of(state);
        let failed = |why| Failure::file(state, "written", why);
        let in_use = |by: &str| Failure::Refused(format!("{} is in use by {by}", state.display()));
        let (begin, mut failure) = (Instant::now(), in_use("another process"));
        while begin.elapsed() < PATIENCE {
            let file = match open(&path).map_err(failed)? {
                Some(file) => file,
                None => continue,
            };
            if !system::lock(&file).map_err(failed)? {
                if let Some(by) = holder(&file) {
                    return Err(in_use(&by));
                }
            } else if same(&file, &path) {
                failure = match sign(&file, command) {
                    Ok(()) => return Ok(Lock { file, path }),
                    Err(why) => failed(why),
                };
                // it may be one that another user has left
                fs::remove_file(&path).map_err(failed)?;
            }
            sleep(PAUSE);
        }
        Err(failure)
    }
}

impl Drop for Lock {
    /// The file is removed while it is locked: who opens it meanwhile sees that it is gone, and tries again.
    fn drop(&mut self) {
        if same(&self.file, &self.path) {
            let _ = fs::remove_file(&self.path);
        }
    }
}
