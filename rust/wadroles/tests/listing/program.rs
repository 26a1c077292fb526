use std::io::Write;
use std::path::{Path, PathBuf};
use std::process::{Command, Stdio};

/// The program, in its crate two directories above this package.
fn path() -> PathBuf {
    let root = Path::new(env!("CARGO_MANIFEST_DIR")).join("../..");
    let path = root.join("crates/listing/out/listing");
    assert!(
        path.is_file(),
        "there is no {}: make it with `rt run` in crates/listing",
        path.display()
    );
    path
}

/// What the program prints for an input; it ends well and says nothing else.
pub fn run(input: &[u8]) -> String {
    let mut child = Command::new(path())
        .stdin(Stdio::piped())
        .stdout(Stdio::piped())
        .stderr(Stdio::piped())
        .spawn()
        .expect("the program starts");
    let mut pipe = child.stdin.take().expect("its input is a pipe");
    // It stops reading where an input is too long, so the pipe may be closed by then.
    let _ = pipe.write_all(input);
    drop(pipe);
    let output = child.wait_with_output().expect("the program ends");
    assert!(output.status.success(), "{:?}", output.status);
    assert_eq!(output.stderr, b"");
    String::from_utf8(output.stdout).expect("it prints ASCII")
}

/// What the program says where standard input cannot be read: a directory. It prints nothing.
pub fn fails_without_input() -> String {
    let directory = std::fs::File::open(env!("CARGO_MANIFEST_DIR")).expect("a directory opens");
    let output = Command::new(path())
        .stdin(Stdio::from(directory))
        .output()
        .expect("the program runs");
    assert_eq!(output.stdout, b"");
    String::from_utf8(output.stderr).expect("it writes ASCII")
}
