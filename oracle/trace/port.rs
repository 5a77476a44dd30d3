//! The port's program, and how it is run.

use crate::engine::Calls;
use std::io::Write;
use std::process::{Child, Command, Stdio};

pub struct Port<'a> {
    pub calls: Calls,
    pub command: &'a str,
    pub words: &'a [&'a str],
}

impl Port<'_> {
    pub fn start(&self) -> Result<Child, String> {
        let mut command = Command::new(self.command);
        command.args(self.words).stdin(Stdio::piped()).stdout(Stdio::piped());
        command.spawn().map_err(|e| format!("{}: {e}", self.command))
    }

    /// All that the port writes on this input.
    pub fn answer(&self, input: Vec<u8>) -> Result<Vec<u8>, String> {
        let mut child = self.start()?;
        let mut stdin = child.stdin.take().unwrap();
        // A port that ends early breaks the pipe: what it wrote tells.
        let writer = std::thread::spawn(move || stdin.write_all(&input));
        let output = child.wait_with_output().map_err(|e| e.to_string())?;
        let _ = writer.join();
        Ok(output.stdout)
    }
}
