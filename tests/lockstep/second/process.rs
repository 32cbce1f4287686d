//! Another program, run on an input.

use std::io::Write;
use std::process::{Command, Stdio};

/// What it writes, or what went wrong. The input is written from a thread of its own, since the other may answer while it reads;
/// whether it has read everything is for its status to say.
pub fn written_by(command: &[&str], input: &[u8]) -> Result<Vec<u8>, String> {
    let failed = |why: String| format!("{} failed: {why}", command.join(" "));
    let mut child = Command::new(command[0])
        .args(&command[1..])
        .stdin(Stdio::piped())
        .stdout(Stdio::piped())
        .spawn()
        .map_err(|error| failed(error.to_string()))?;
    let mut stdin = child.stdin.take().unwrap();
    let output = std::thread::scope(|scope| {
        scope.spawn(move || drop(stdin.write_all(input)));
        child.wait_with_output().unwrap()
    });
    if output.status.success() {
        Ok(output.stdout)
    } else {
        Err(failed(output.status.to_string()))
    }
}
