//! Programs that the tests run, and the files that they lend them.

use std::fs;
use std::io::Read;
use std::path::{Path, PathBuf};
use std::process::{Command, Stdio};
use std::thread;

/// The most that a program may write. One that writes on is told that nobody reads, and so ended.
const MOST_BYTES: u64 = 1 << 20;

/// What a program wrote, and its exit status.
#[derive(Debug, PartialEq, Eq)]
pub struct Run {
    pub status: i32,
    pub output: String,
    pub errors: String,
}

impl Run {
    /// Of a program that wrote these lines and was content.
    pub fn content(output: &str) -> Self {
        Run {
            status: 0,
            output: output.to_owned(),
            errors: String::new(),
        }
    }

    /// Runs a command to its end.
    #[track_caller]
    pub fn of(command: &mut Command) -> Self {
        let spawned = command
            .stdin(Stdio::null())
            .stdout(Stdio::piped())
            .stderr(Stdio::piped())
            .spawn();
        let mut child = match spawned {
            Ok(child) => child,
            Err(error) => panic!("{command:?} cannot be run: {error}"),
        };
        let errors = child.stderr.take().expect("it is piped");
        let errors = thread::spawn(|| read(errors));
        let output = read(child.stdout.take().expect("it is piped"));
        let errors = errors.join().expect("what it writes is text");
        let status = child.wait().expect("it can be waited for");
        match status.code() {
            Some(status) => Run {
                status,
                output,
                errors,
            },
            None => panic!("{command:?} did not end by itself ({status}): {errors:.300}"),
        }
    }
}

/// What a program writes, up to the most.
fn read(stream: impl Read) -> String {
    let mut bytes = Vec::new();
    let all = stream.take(MOST_BYTES).read_to_end(&mut bytes);
    all.expect("it can be read");
    String::from_utf8(bytes).expect("programs write text")
}

/// The directory for what the tests write, below the target directory of Cargo.
pub fn work_directory() -> PathBuf {
    let directory = Path::new(env!("CARGO_TARGET_TMPDIR")).join("examples");
    fs::create_dir_all(&directory).expect("the directory can be made");
    directory
}

/// Writes a file for a program to read.
pub fn lend_file(name: &str, bytes: &[u8]) -> PathBuf {
    let path = work_directory().join(name);
    fs::write(&path, bytes).expect("the file can be written");
    path
}

#[test]
#[should_panic(expected = "did not end by itself")]
fn a_program_that_never_stops_writing_is_ended() {
    Run::of(Command::new("sh").args(["-c", "while :; do echo more; done"]));
}
