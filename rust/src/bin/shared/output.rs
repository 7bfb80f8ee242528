//! Standard output, so that what could not be written is an error and never a silent loss. It
//! promises an error where the output is closed, full, or not open for writing, and a broken pipe
//! where its reader has gone. The standard library's own handle is not enough, for two reasons:
//!
//! - It takes a write to a descriptor that is not open for writing for done. So the writes go
//!   through a file made from the same descriptor, which hides nothing.
//! - Before `main` the language's start opens /dev/null for reading and writing in the place of a
//!   closed descriptor. From then on it cannot be told apart from a /dev/null that was handed over:
//!   Python's `subprocess.DEVNULL` is opened for reading and writing too, and is no closed output.
//!   So the descriptor is looked at earlier, by a function that the system's start calls first.
//!
//! Its weakness: where /proc is not mounted, and on other systems than Linux, a closed output is
//! not noticed. Tested in tests/output.rs.

use std::fs::{symlink_metadata, File};
use std::io::{self, BufWriter, ErrorKind, Write};
use std::os::fd::AsFd;
use std::sync::atomic::{AtomicBool, Ordering};

use super::failure::Failure;

/// Whether descriptor 1 was closed when the process began.
static CLOSED: AtomicBool = AtomicBool::new(false);

/// Called by the system's start, before the language's own. No unsafe code runs: the lint asks for
/// leave for the section alone.
#[cfg(target_os = "linux")]
#[allow(unsafe_code)]
#[link_section = ".init_array"]
#[used]
static AT_START: extern "C" fn() = look;

extern "C" fn look() {
    CLOSED.store(is_closed(), Ordering::Relaxed);
}

/// Whether descriptor 1 is closed now, as /proc tells.
fn is_closed() -> bool {
    let missing =
        |path: &str| symlink_metadata(path).is_err_and(|error| error.kind() == ErrorKind::NotFound);
    missing("/proc/self/fd/1") && !missing("/proc/self/fd")
}

/// Standard output.
pub enum Output {
    Open(File),
    Closed,
}

impl Output {
    /// Standard output as it was when the process began.
    pub fn new() -> io::Result<Output> {
        if CLOSED.load(Ordering::Relaxed) {
            return Ok(Output::Closed);
        }
        let descriptor = io::stdout().as_fd().try_clone_to_owned()?;
        Ok(Output::Open(File::from(descriptor)))
    }
}

impl Write for Output {
    fn write(&mut self, bytes: &[u8]) -> io::Result<usize> {
        match self {
            Output::Open(file) => file.write(bytes),
            Output::Closed => Err(io::Error::other("standard output is closed")),
        }
    }

    fn flush(&mut self) -> io::Result<()> {
        Ok(())
    }
}

/// Writes a text.
pub fn print(text: &str) -> Result<(), Failure> {
    let mut out = Out::new()?;
    out.write(text.as_bytes(), false)?;
    out.flush(false)?;
    Ok(())
}

/// Standard output through a buffer; what cannot be written is a failure.
pub struct Out(BufWriter<Output>);

impl Out {
    pub fn new() -> Result<Out, Failure> {
        let output = Output::new().map_err(unwritten(false))?;
        Ok(Out(BufWriter::with_capacity(1 << 16, output)))
    }

    pub fn write(&mut self, bytes: &[u8], stopped: bool) -> Result<(), Failure> {
        self.0.write_all(bytes).map_err(unwritten(stopped))
    }

    pub fn flush(&mut self, stopped: bool) -> Result<(), Failure> {
        self.0.flush().map_err(unwritten(stopped))
    }
}

/// The failure of an output that cannot be written, by whether the search that it tells of stopped.
fn unwritten(stopped: bool) -> impl Fn(io::Error) -> Failure {
    move |error| Failure::Output { error, stopped }
}
