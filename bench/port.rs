//! The port's side: a program, compiled for this machine and linked in, that reads its standard input and writes its standard output.

use crate::clock;
use std::fs::File;
use std::io::{Seek, Write};
use std::os::fd::AsRawFd;
use std::time::Duration;

extern "C" {
    fn dup(fd: i32) -> i32;
    fn dup2(fd: i32, as_fd: i32) -> i32;
    fn close(fd: i32) -> i32;
}

/// A file stands in for standard input or output until this is dropped.
struct StandIn {
    fd: i32,
    kept: i32,
}

impl StandIn {
    fn new(fd: i32, file: &File) -> Self {
        let kept = unsafe { dup(fd) };
        assert!(kept >= 0 && unsafe { dup2(file.as_raw_fd(), fd) } == fd);
        StandIn { fd, kept }
    }
}

impl Drop for StandIn {
    fn drop(&mut self) {
        unsafe {
            dup2(self.kept, self.fd);
            close(self.kept);
        }
    }
}

/// The `main` of a program.
pub type Main = unsafe extern "C" fn() -> i32;

/// The sum that the program writes for this input, and the time that it took.
pub fn played(bytes: &[u8], program: Main) -> Result<(u64, Duration), String> {
    let path = std::env::temp_dir().join(format!("bench-{}", std::process::id()));
    let words = |e: std::io::Error| format!("{}: {e}", path.display());
    let open = || File::options().read(true).write(true).create(true).truncate(true).open(&path);
    let mut input = open().map_err(words)?;
    std::fs::remove_file(&path).map_err(words)?;
    let output = open().map_err(words)?;
    input.write_all(bytes).map_err(words)?;
    input.rewind().map_err(words)?;
    let (status, time) = {
        let _stand_ins = (StandIn::new(0, &input), StandIn::new(1, &output));
        let begin = clock::now();
        let status = unsafe { program() };
        (status, clock::now() - begin)
    };
    let text = std::fs::read_to_string(&path).map_err(words)?;
    std::fs::remove_file(&path).map_err(words)?;
    match u64::from_str_radix(text.trim(), 16) {
        Ok(sum) if status == 0 => Ok((sum, time)),
        _ => Err(format!("the port ended with {status} and wrote '{text}'")),
    }
}
