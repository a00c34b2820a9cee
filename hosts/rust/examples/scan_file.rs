//! From a list of numbers to a scan file, and back: `cargo run --example scan_file -- PATH`.

use stackfilter::{line, preset, read, write};
use std::error::Error;
use std::{env, fs};

const MEDIAN: u64 = 10;

fn main() -> Result<(), Box<dyn Error>> {
    let path = env::args_os().nth(1).ok_or("usage: scan_file PATH")?;
    let scan = [10, 10, 90, 10, 10];
    fs::write(&path, write(&preset(MEDIAN)?, &scan)?)?;

    let file = fs::read(&path)?;
    let held = read(&file)?;
    println!("samples {:?}", held.samples);
    println!("terms {:?}", held.terms);
    print!("report {}", line(&file));
    Ok(())
}
