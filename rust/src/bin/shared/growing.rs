//! A file that grows while it is read, as `tail -f` reads it: at its end it is looked at again by and
//! by, until the process that writes it has ended, where one is named. What that process wrote last
//! is still read. A file that becomes shorter is an error, since rows that were read are gone. Its
//! weaknesses: one that becomes shorter and at least as long again between two looks is not noticed;
//! and a file of the same name in the place of this one is not looked at. Tested in tests/follow.rs.

use std::fs::{symlink_metadata, File};
use std::io::{self, Read};
use std::thread::sleep;
use std::time::Duration;

/// How long it takes until a file is looked at again.
const PAUSE: Duration = Duration::from_millis(100);

/// The process that writes a file.
#[derive(Clone, Copy, Debug, PartialEq, Eq)]
pub struct Writer(pub u32);

impl Writer {
    /// Whether the process has ended, as /proc tells. One whose end nobody has asked for yet is
    /// still there.
    fn has_ended(self) -> bool {
        symlink_metadata(format!("/proc/{}", self.0)).is_err()
    }

    /// Whether the ends of processes can be seen at all.
    pub fn can_be_seen() -> bool {
        symlink_metadata("/proc/self").is_ok()
    }
}

/// A file that grows.
pub struct Growing {
    file: File,
    writer: Option<Writer>,
    /// Bytes that were read.
    taken: u64,
}

impl Growing {
    pub fn new(file: File, writer: Option<Writer>) -> Growing {
        Growing {
            file,
            writer,
            taken: 0,
        }
    }
}

impl Read for Growing {
    fn read(&mut self, room: &mut [u8]) -> io::Result<usize> {
        loop {
            // Asked before the file is read: what is written before the end is then read.
            let ended = self.writer.is_some_and(Writer::has_ended);
            let count = self.file.read(room)?;
            self.taken = self.taken.saturating_add(u64::try_from(count).unwrap_or(0));
            if count > 0 || ended {
                return Ok(count);
            }
            if self.file.metadata()?.len() < self.taken {
                let reason =
                    "it became shorter while it was followed: rows that were read are gone";
                return Err(io::Error::other(reason));
            }
            sleep(PAUSE);
        }
    }
}
