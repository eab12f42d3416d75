//! Input and output: files, pipes and devices, or standard input and output.

use std::fs::{self, File};
use std::io::{self, ErrorKind, Read, Write};
use std::os::unix::io::AsFd;
use std::path::Path;
use std::sync::atomic::{AtomicU64, Ordering};
use std::sync::Arc;

use crate::failure::{Failure, Outcome};
use crate::new_file::NewFile;
use crate::places;
use crate::signals;
use crate::system::{self, Access, Standard};
use crate::told::counted;

/// What is read, and how far.
pub struct Input {
    from: File,
    name: String,
    length: Option<u64>,
    /// How many bytes have been read, and where another thread sees it.
    pub place: u64,
    seen: Option<Arc<AtomicU64>>,
}

/// A standard stream itself, at the place where it stands.
fn standard(stream: Standard, name: &str) -> Outcome<File> {
    if system::closed(stream) {
        return Err(Failure::Refused(format!("{name} is closed")));
    }
    let same = match stream {
        Standard::Input => io::stdin().as_fd().try_clone_to_owned(),
        Standard::Output => io::stdout().as_fd().try_clone_to_owned(),
        Standard::Error => io::stderr().as_fd().try_clone_to_owned(),
    };
    let same = same.map_err(|why| Failure::Refused(format!("{name} can't be used: {why}")))?;
    Ok(File::from(same))
}

/// Opens a pipe or a device; who waits for its other end can be interrupted.
fn open_pipe(path: &Path, access: Access, what: &str) -> Outcome<File> {
    loop {
        signals::check()?;
        match system::open_pipe(path, access) {
            Err(why) if why.kind() == ErrorKind::Interrupted => {}
            opened => return opened.map_err(|why| Failure::file(path, what, why)),
        }
    }
}

impl Input {
    /// A file, or standard input.
    pub fn open(path: Option<&Path>) -> Outcome<Input> {
        let path = match path {
            Some(path) if !places::names(path, Standard::Input) => path,
            _ => {
                let name = "standard input".to_string();
                let from = standard(Standard::Input, &name)?;
                return Ok(Input {
                    from,
                    name,
                    length: None,
                    place: 0,
                    seen: None,
                });
            }
        };
        let failed = |why| Failure::file(path, "read", why);
        let about = fs::metadata(path).map_err(failed)?;
        let from = match about.is_file() {
            true => File::open(path).map_err(failed)?,
            false => open_pipe(path, Access::Read, "read")?,
        };
        Ok(Input {
            from,
            name: path.display().to_string(),
            length: about.is_file().then_some(about.len()),
            place: 0,
            seen: None,
        })
    }

    /// The same input for a reader in another thread, which goes on where this one is, and how many bytes that one has read.
    pub fn elsewhere(&self) -> Outcome<(Input, Arc<AtomicU64>)> {
        let name = self.name.clone();
        let from = self.from.try_clone();
        let seen = Arc::new(AtomicU64::new(self.place));
        let input = Input {
            from: from.map_err(|why| Failure::Refused(format!("{name} can't be read: {why}")))?,
            name,
            length: self.length,
            place: self.place,
            seen: Some(Arc::clone(&seen)),
        };
        Ok((input, seen))
    }

    /// What it is called in a line of words.
    pub fn name(&self) -> &str {
        &self.name
    }

    /// The bytes that there are in all, if that is known.
    pub fn length(&self) -> Option<u64> {
        self.length
    }

    /// Reads until the area is full or the input ends, and says how many bytes that were. A signal ends it.
    pub fn fill(&mut self, area: &mut [u8]) -> Outcome<usize> {
        let mut filled = 0;
        while filled < area.len() {
            signals::check()?;
            match self.from.read(&mut area[filled..]) {
                Ok(0) => break,
                Ok(count) => {
                    filled += count;
                    self.place += count as u64;
                    if let Some(seen) = &self.seen {
                        seen.store(self.place, Ordering::SeqCst);
                    }
                }
                Err(why) if why.kind() == ErrorKind::Interrupted => {}
                Err(why) => {
                    let name = &self.name;
                    return Err(Failure::Refused(format!("{name} can't be read: {why}")));
                }
            }
        }
        Ok(filled)
    }
}

/// Reads a file that has to have so many bytes.
pub fn read_exactly(path: &Path, length: usize, what: &str) -> Outcome<Vec<u8>> {
    let mut input = Input::open(Some(path))?;
    // a byte more shows a file that is too long
    let mut bytes = vec![0; length + 1];
    let count = input.fill(&mut bytes)?;
    if count == length {
        bytes.truncate(length);
        return Ok(bytes);
    }
    let name = path.display();
    let has = match (count > length, input.length()) {
        (true, None) => format!("more than {length} bytes"),
        (_, whole) => counted(whole.unwrap_or(count as u64), "byte"),
    };
    Err(Failure::at(
        format!("{name} has {has}, and {what} has {length}"),
        warintaya::Refusal::Length,
    ))
}

/// What standard output is called.
const STANDARD: &str = "standard output";

/// What is written.
pub enum Output {
    /// Standard output, a pipe or a device, and its name: what is written goes out at once.
    Direct(File, String),
    /// Such a one that is closed.
    Closed(String),
    File(NewFile),
}

impl Output {
    /// A file, or standard output.
    pub fn create(path: Option<&Path>) -> Outcome<Output> {
        let path = match path {
            Some(path) if !places::names(path, Standard::Output) => path,
            _ => {
                let name = STANDARD.to_string();
                return Ok(Output::Direct(standard(Standard::Output, &name)?, name));
            }
        };
        if !places::direct(path) {
            return NewFile::create(path).map(Output::File);
        }
        let file = open_pipe(path, Access::Write, "written")?;
        Ok(Output::Direct(file, path.display().to_string()))
    }

    /// Whether what is written goes out at once; a file takes its place at the end.
    pub fn direct(&self) -> bool {
        !matches!(self, Output::File(_))
    }

    /// Whether it is standard output.
    pub fn standard(&self) -> bool {
        matches!(self, Output::Direct(_, name) if name == STANDARD)
    }

    /// What it is called in a line of words.
    fn name(&self) -> String {
        match self {
            Output::Direct(_, name) | Output::Closed(name) => name.clone(),
            Output::File(new) => new.target().display().to_string(),
        }
    }

    /// Writes at once: nothing waits in a buffer, so that a frame is on its way when it is coded. A signal that doesn't leave
    /// frames whole ends it.
    pub fn write(&mut self, mut bytes: &[u8]) -> Outcome {
        while !bytes.is_empty() {
            signals::check_at_once()?;
            let written = match self {
                Output::Direct(file, _) => file.write(bytes),
                Output::Closed(_) => Err(ErrorKind::BrokenPipe.into()),
                Output::File(new) => new.file.write(bytes),
            };
            match written {
                Ok(count) if count > 0 => bytes = &bytes[count..],
                Err(why) if why.kind() == ErrorKind::Interrupted => {}
                failed => {
                    let why = failed.err().unwrap_or_else(|| ErrorKind::WriteZero.into());
                    let name = self.name();
                    return Err(Failure::Refused(format!("{name} can't be written: {why}")));
                }
            }
        }
        Ok(())
    }

    /// A stream has ended. A pipe is closed, so that who reads from it knows; a file waits for the others.
    pub fn end(&mut self) {
        if let Output::Direct(_, name) = self {
            *self = Output::Closed(std::mem::take(name));
        }
    }

    /// The file that is to take its place, if it is one.
    fn take(&mut self) -> Option<NewFile> {
        let name = self.name();
        match std::mem::replace(self, Output::Closed(name)) {
            Output::File(new) => Some(new),
            Output::Direct(..) | Output::Closed(_) => None,
        }
    }
}

/// Ends a run: the outputs take their places, and then the state, if it is kept. All are on the disk before, so that a run that
/// can't keep one leaves all as they were.
pub fn finish<'a>(
    outputs: impl Iterator<Item = &'a mut Output>,
    state: Option<&Path>,
    record: &[u8],
) -> Outcome {
    let mut files: Vec<NewFile> = outputs.filter_map(Output::take).collect();
    if let Some(path) = state {
        files.push(NewFile::with(path, record)?);
    }
    files.iter().try_for_each(NewFile::settle)?;
    files.into_iter().try_for_each(NewFile::take_place)
}
