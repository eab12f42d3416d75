//! What the standard library has no words for, asked of the system itself.

use std::ffi::CString;
use std::fs::File;
use std::io::{self, ErrorKind};
use std::os::raw::{c_char, c_int, c_uint, c_ulong, c_ushort};
use std::os::unix::ffi::OsStrExt;
use std::os::unix::io::{AsRawFd, FromRawFd};
use std::path::Path;
use std::sync::atomic::{AtomicBool, Ordering};

use crate::signals;

/// The standard streams by their numbers.
#[derive(Clone, Copy)]
pub enum Standard {
    Input = 0,
    Output = 1,
    Error = 2,
}

/// How a pipe or a device is opened.
#[derive(Clone, Copy)]
pub enum Access {
    Read = 0,
    Write = 1,
}

extern "C" {
    fn isatty(descriptor: c_int) -> c_int;
    fn fcntl(descriptor: c_int, command: c_int, ...) -> c_int;
    fn flock(descriptor: c_int, operation: c_int) -> c_int;
    fn open(path: *const c_char, flags: c_int, ...) -> c_int;
    fn signal(number: c_int, action: usize) -> usize;
    fn siginterrupt(number: c_int, interrupts: c_int) -> c_int;
    fn alarm(seconds: c_uint) -> c_uint;
    fn ioctl(descriptor: c_int, request: c_ulong, ...) -> c_int;
    fn raise(number: c_int) -> c_int;
}

// as Linux has them on x86-64 and on arm64
const ASK_FLAGS: c_int = 1;
const LOCK_ALONE_OR_FAIL: c_int = 2 | 4;
const CLOSE_ON_EXECUTION: c_int = 0o2_000_000;
const DEFAULT: usize = 0;
const IGNORED: usize = 1;
const ALARM: c_int = 14;
const SIZE_OF_TERMINAL: c_ulong = 0x5413;

/// Whether a standard stream is a terminal.
pub fn terminal(stream: Standard) -> bool {
    // SAFETY: it reads nothing but the number
    unsafe { isatty(stream as c_int) == 1 }
}

/// The columns of the terminal that a standard stream is, if it tells.
pub fn columns(stream: Standard) -> Option<usize> {
    // rows, columns, and two that nobody uses
    let mut size: [c_ushort; 4] = [0; 4];
    // SAFETY: the request writes four such numbers, and nothing else
    let told = unsafe { ioctl(stream as c_int, SIZE_OF_TERMINAL, size.as_mut_ptr()) };
    Some(usize::from(size[1])).filter(|columns| told == 0 && *columns > 0)
}

/// Whether standard input and output were closed when the command was started.
static CLOSED: [AtomicBool; 2] = [AtomicBool::new(false), AtomicBool::new(false)];

extern "C" fn look_before_main() {
    for (descriptor, closed) in CLOSED.iter().enumerate() {
        // SAFETY: it asks for a number, and changes nothing
        let flags = unsafe { fcntl(descriptor as c_int, ASK_FLAGS) };
        closed.store(flags < 0, Ordering::Relaxed);
    }
}

/// Before `main`, since the runtime opens /dev/null in place of a closed standard stream.
#[used]
#[link_section = ".init_array"]
static LOOK_BEFORE_MAIN: extern "C" fn() = look_before_main;

/// Whether a standard stream was closed from the beginning.
pub fn closed(stream: Standard) -> bool {
    let closed = CLOSED.get(stream as usize);
    closed.map_or(false, |closed| closed.load(Ordering::Relaxed))
}

/// Locks a file for this process alone; it is not, if another one has.
pub fn lock(file: &File) -> io::Result<bool> {
    // SAFETY: the file is open for as long as the call lasts
    if unsafe { flock(file.as_raw_fd(), LOCK_ALONE_OR_FAIL) } == 0 {
        return Ok(true);
    }
    match io::Error::last_os_error() {
        why if why.kind() == ErrorKind::WouldBlock => Ok(false),
        why => Err(why),
    }
}

/// Opens a pipe or a device. Unlike the standard library's way of opening, a signal ends the wait for the pipe's other end.
pub fn open_pipe(path: &Path, access: Access) -> io::Result<File> {
    let path = CString::new(path.as_os_str().as_bytes())?;
    // SAFETY: the path ends with a zero, and no file is made, so that no further argument is read
    let descriptor = unsafe { open(path.as_ptr(), access as c_int | CLOSE_ON_EXECUTION) };
    match descriptor {
        0.. => {
            // SAFETY: it has just been opened, and nobody else has it
            Ok(unsafe { File::from_raw_fd(descriptor) })
        }
        _ => Err(io::Error::last_os_error()),
    }
}

extern "C" fn came(number: c_int) {
    signals::came(number);
    // SAFETY: a handler may set the alarm
    unsafe { alarm(1) };
}

/// From the first signal on a clock rings each second, so that also a wait that begins just behind a signal ends. An alarm that
/// was set before the command began ends it as it ends others.
extern "C" fn ring(number: c_int) {
    // SAFETY: a handler may set the alarm and actions, and send signals
    unsafe {
        if signals::first().is_some() {
            alarm(1);
        } else {
            signal(number, DEFAULT);
            raise(number);
        }
    }
}

/// Has signals noted, and what waits for a pipe woken by them. One that was ignored from the beginning stays ignored.
pub fn listen(numbers: &[c_int]) {
    let (came, ring): (extern "C" fn(c_int), extern "C" fn(c_int)) = (came, ring);
    for number in numbers {
        // SAFETY: the handler stores numbers and sets the alarm, both of which a handler may do
        unsafe {
            match signal(*number, came as usize) {
                IGNORED => drop(signal(*number, IGNORED)),
                _ => drop(siginterrupt(*number, 1)),
            }
        }
    }
    // SAFETY: as above
    unsafe {
        signal(ALARM, ring as usize);
        siginterrupt(ALARM, 1);
    }
}
