//! Files, standard input and standard output. A read or a write that is interrupted, or
//! would block, is tried again. What was written is brought to the disk before the command
//! ends, since a file system may say late that it could not keep it.

use crate::answer::Failure;
use station_watch::{MAX_RECORDING, MAX_SHEET};
use std::fs::File;
use std::io::{self, ErrorKind, Read, Write};
use std::os::fd::AsFd;
use std::os::unix::fs::MetadataExt;
use std::path::Path;
use std::thread::sleep;
use std::time::Duration;

/// The most bytes of a file of rules: 32 of the longest texts, and much room for comments.
const MAX_RULES_FILE: usize = 1 << 20;

/// What stands for standard input among the arguments.
pub const INPUT: &str = "-";

/// How long to wait before a read or a write that would block is tried again.
const WAIT: Duration = Duration::from_millis(5);

/// The bytes of a sheet. Of one that is too long, a byte more than the largest has: enough
/// for its refusal.
pub fn read_sheet(path: &Path) -> Result<Vec<u8>, Failure> {
    read(path, MAX_SHEET + 1)
}

/// The bytes of a recording, in the same way; - is standard input.
pub fn read_recording(path: &Path) -> Result<Vec<u8>, Failure> {
    read_or_input(path, MAX_RECORDING + 1)
}

/// The bytes of a file of rules; - is standard input. No refusal is about one that is too
/// long: it cannot be read.
pub fn read_rules(path: &Path) -> Result<Vec<u8>, Failure> {
    let bytes = read_or_input(path, MAX_RULES_FILE + 1)?;
    if bytes.len() > MAX_RULES_FILE {
        let error = io::Error::other("more than 1,048,576 bytes");
        return Err(Failure::Read(input_name(path), error));
    }
    Ok(bytes)
}

/// What is read may not be written over: a sheet in the place of its rules' text would lose
/// the text. A path that cannot be looked at is left to whoever reads or writes it.
pub fn refuse_same(read: &Path, written: &Path) -> Result<(), Failure> {
    let place = |path: &Path| path.metadata().map(|file| (file.dev(), file.ino()));
    if is_input(read) || place(read).is_err() || place(read).ok() != place(written).ok() {
        return Ok(());
    }
    let error = io::Error::other("it is the file that is read");
    Err(Failure::Write(written.display().to_string(), error))
}

fn is_input(path: &Path) -> bool {
    path == Path::new(INPUT)
}

/// What a file that is read is called.
pub fn input_name(path: &Path) -> String {
    if is_input(path) {
        return "standard input".to_string();
    }
    path.display().to_string()
}

fn read_or_input(path: &Path, most: usize) -> Result<Vec<u8>, Failure> {
    let Pieces { from, name } = Pieces::open(path)?;
    read_up_to(from, most).map_err(|error| Failure::Read(name, error))
}

fn read(path: &Path, most: usize) -> Result<Vec<u8>, Failure> {
    let stop = |error| Failure::Read(path.display().to_string(), error);
    File::open(path).and_then(|file| read_up_to(file, most)).map_err(stop)
}

/// Writes a file whole.
pub fn write(path: &Path, bytes: &[u8]) -> Result<(), Failure> {
    let stop = |error| Failure::Write(path.display().to_string(), error);
    File::create(path).and_then(|file| write_whole(file, bytes)).map_err(stop)
}

/// Writes the last of what goes to standard output.
pub fn write_output(bytes: &[u8]) -> Result<(), Failure> {
    own(io::stdout()).and_then(|output| write_whole(output, bytes)).map_err(no_output)
}

/// Writes lines to standard output that others follow: they are not brought to the disk yet.
pub fn write_lines(bytes: &[u8]) -> Result<(), Failure> {
    own(io::stdout()).and_then(|output| write_all(&output, bytes)).map_err(no_output)
}

fn no_output(error: io::Error) -> Failure {
    Failure::Write("standard output".to_string(), error)
}

/// Bytes of any number, taken as they come.
pub struct Pieces<R> {
    pub from: R,
    /// What that is called.
    pub name: String,
}

impl Pieces<File> {
    /// A file; - is standard input.
    pub fn open(path: &Path) -> Result<Pieces<File>, Failure> {
        let name = input_name(path);
        let opened = if is_input(path) { own(io::stdin()) } else { File::open(path) };
        match opened {
            Ok(from) => Ok(Pieces { from, name }),
            Err(error) => Err(Failure::Read(name, error)),
        }
    }
}

impl<R: Read> Pieces<R> {
    /// What there is now, at the front of the buffer: at least a byte, unless it has ended.
    pub fn read<'b>(&mut self, buffer: &'b mut [u8]) -> Result<&'b [u8], Failure> {
        match again(|| self.from.read(buffer)) {
            Ok(count) => Ok(&buffer[..count]),
            Err(error) => Err(Failure::Read(self.name.clone(), error)),
        }
    }
}

/// Standard input or output as a file: with no buffer in between, and no error passed
/// over, as the standard library passes over a descriptor that cannot be used.
fn own(stream: impl AsFd) -> io::Result<File> {
    stream.as_fd().try_clone_to_owned().map(File::from)
}

fn read_up_to(mut from: impl Read, most: usize) -> io::Result<Vec<u8>> {
    let mut bytes = vec![0; most];
    let mut length = 0;
    while length < most {
        match again(|| from.read(&mut bytes[length..]))? {
            0 => break,
            more => length += more,
        }
    }
    bytes.truncate(length);
    Ok(bytes)
}

fn write_all(mut to: &File, bytes: &[u8]) -> io::Result<()> {
    let mut rest = bytes;
    while !rest.is_empty() {
        match again(|| to.write(rest))? {
            0 => return Err(ErrorKind::WriteZero.into()),
            some => rest = &rest[some..],
        }
    }
    Ok(())
}

fn write_whole(to: File, bytes: &[u8]) -> io::Result<()> {
    write_all(&to, bytes)?;
    to.sync_all().or_else(|error| match error.kind() {
        ErrorKind::InvalidInput | ErrorKind::Unsupported => Ok(()), // nothing to be brought to a disk
        _ => Err(error),
    })
}

/// Tries until it is neither interrupted nor would block.
fn again<T>(mut attempt: impl FnMut() -> io::Result<T>) -> io::Result<T> {
    loop {
        match attempt() {
            Err(error) if error.kind() == ErrorKind::Interrupted => {}
            Err(error) if error.kind() == ErrorKind::WouldBlock => sleep(WAIT),
            ended => return ended,
        }
    }
}
