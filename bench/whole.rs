//! The Rust's side once more, for a build that compiles it and the original as one module (`-C lto=fat -C codegen-units=1`), as the kit compiles the port.
#![allow(dead_code)]

mod original;
#[path = "../oracle/shared/params.rs"]
mod params;
#[path = "../oracle/shared/random.rs"]
mod random;
#[path = "../oracle/shared/record.rs"]
mod record;
mod scenario;
#[path = "../oracle/shared/values.rs"]
mod values;

#[no_mangle]
pub extern "C" fn whole_played(row: u32, frames: u32, idle: bool) -> u64 {
    original::played(&scenario::of(row, frames, idle))
}
