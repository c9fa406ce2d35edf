//! What the tests that run the command share: a folder for files, asking, and streams.
#![allow(dead_code)] // each of them uses a part

use std::fs;
use std::io::Write;
use std::os::unix::net::UnixStream;
use std::path::PathBuf;
use std::process::{self, Child, Command, Output, Stdio};
use std::time::Duration;

/// The scope document's example rule and its flag bytes.
pub const EXAMPLE: &str = "02 04 010000 05 0200FFFF 02000200 010100";
pub const FLAGS: [u8; 10] = [0, 1, 1, 0, 1, 1, 1, 1, 0, 0];
/// For all Y from X to X + 63, flag 0 at Y: too many cells.
pub const WIDE: &str = "05 02000000 02003F00 010100";

/// A folder for a test's files, which goes with it.
pub struct Folder(pub PathBuf);

impl Folder {
    pub fn new(test: &str) -> Folder {
        let path = std::env::temp_dir().join(format!("station-watch-{}-{test}", process::id()));
        fs::create_dir(&path).unwrap();
        Folder(path)
    }

    /// A file with these bytes.
    pub fn file(&self, name: &str, bytes: &[u8]) -> String {
        let path = self.path(name);
        fs::write(&path, bytes).unwrap();
        path
    }

    pub fn path(&self, name: &str) -> String {
        self.0.join(name).display().to_string()
    }

    /// A sheet of these bodies.
    pub fn sheet(&self, bodies: &[&str]) -> String {
        let out = self.path("watch.sheet");
        assert_eq!(ask(&[&["sheet", &out], bodies].concat()).2, 0);
        out
    }
}

impl Drop for Folder {
    fn drop(&mut self) {
        let _ = fs::remove_dir_all(&self.0);
    }
}

pub fn command(words: &[&str]) -> Command {
    let mut command = Command::new(env!("CARGO_BIN_EXE_station-watch"));
    command.args(words);
    command
}

/// Standard output, standard error and exit status.
pub type Said = (String, String, i32);

pub fn said(output: Output) -> Said {
    let text = |bytes| String::from_utf8(bytes).unwrap();
    (text(output.stdout), text(output.stderr), output.status.code().unwrap())
}

/// What is said with no input.
pub fn ask(words: &[&str]) -> Said {
    said(command(words).stdin(Stdio::null()).output().unwrap())
}

pub fn out(text: &str, status: i32) -> Said {
    (text.to_string(), String::new(), status)
}

pub fn failed(text: &str) -> Said {
    (String::new(), text.to_string(), 2)
}

/// Starts it with pipes at all three ends.
pub fn start(words: &[&str]) -> Child {
    let mut command = command(words);
    command.stdin(Stdio::piped()).stdout(Stdio::piped()).stderr(Stdio::piped());
    command.spawn().unwrap()
}

pub fn ask_with_input(words: &[&str], input: &[u8]) -> Said {
    let mut child = start(words);
    child.stdin.take().unwrap().write_all(input).unwrap();
    said(child.wait_with_output().unwrap())
}

/// A stream whose own end does not wait, and the other, which does.
pub fn stream() -> (UnixStream, UnixStream) {
    let (own, other) = UnixStream::pair().unwrap();
    own.set_nonblocking(true).unwrap();
    (own, other)
}

/// Long enough for the command to come to its next read or write.
pub const A_WHILE: Duration = Duration::from_millis(100);
