//! Compares the port's square root with f32::sqrt, through the program of roots.rt.txt (README.md beside this file).
//!
//!     roots EACH COMMAND [WORD..]    COMMAND with its words runs the port; EACH is 'all', or n for every n-th float of the long ranges

#[path = "shared/random.rs"]
#[allow(dead_code)]
mod random;
#[path = "shared/values.rs"]
#[allow(dead_code)]
mod values;

use std::io::{BufReader, BufWriter, Read, Write};
use std::process::{Command, ExitCode, Stdio};
use values::{edge_floats, special_floats};

/// The floats to ask about, by their patterns: every pattern; or zero, the subnormal floats and those from 1 to below 4, which have every
/// significand at both parities of the exponent, then the edges of every exponent of either sign and the special floats.
fn patterns(each: &str) -> Result<Box<dyn Iterator<Item = u32> + Send>, String> {
    if each == "all" {
        return Ok(Box::new(0..=u32::MAX));
    }
    let step: usize = each.parse().ok().filter(|&n| n > 0).ok_or("EACH is 'all' or a number above 0")?;
    let long = [0..0x80_0000, 0x3f80_0000..0x4080_0000].into_iter().flat_map(move |range: std::ops::Range<u32>| range.step_by(step));
    Ok(Box::new(long.chain(edge_floats()).chain(special_floats())))
}

/// One NaN counts as any other.
fn root(pattern: u32) -> u32 {
    let root = f32::from_bits(pattern).sqrt();
    if root.is_nan() { 0x7fc0_0000 } else { root.to_bits() }
}

/// How many roots are equal, or where the first one differs.
fn compare(each: &str, command: &str, words: &[String]) -> Result<u64, String> {
    let asked = patterns(each)?;
    let mut port = Command::new(command)
        .args(words)
        .stdin(Stdio::piped())
        .stdout(Stdio::piped())
        .spawn()
        .map_err(|e| format!("{command}: {e}"))?;
    let mut input = BufWriter::with_capacity(1 << 16, port.stdin.take().unwrap());
    // A port that ended early breaks the pipe, and the reader says so.
    let writer = std::thread::spawn(move || asked.map(|p| input.write_all(&p.to_le_bytes())).find(Result::is_err));
    let mut output = BufReader::with_capacity(1 << 16, port.stdout.take().unwrap());
    let mut equal = 0;
    for pattern in patterns(each)? {
        let mut bytes = [0; 4];
        output.read_exact(&mut bytes).map_err(|_| format!("the port ended after {equal} roots"))?;
        let (rust, port) = (root(pattern), u32::from_le_bytes(bytes));
        if rust != port {
            return Err(format!("the root of {pattern:08X} is {rust:08X} in Rust and {port:08X} in the port"));
        }
        equal += 1;
    }
    let _ = writer.join();
    port.wait().map_err(|e| format!("{command}: {e}"))?;
    Ok(equal)
}

fn main() -> ExitCode {
    let words: Vec<String> = std::env::args().skip(1).collect();
    let ended = match &words[..] {
        [each, command, rest @ ..] => compare(each, command, rest),
        _ => Err("usage: roots EACH COMMAND [WORD..]".into()),
    };
    match ended {
        Ok(equal) => {
            println!("{equal} square roots, all equal");
            ExitCode::SUCCESS
        }
        Err(words) => {
            eprintln!("roots: {words}");
            ExitCode::FAILURE
        }
    }
}
