//! One sheet for several scan files: `cargo run --example night -- FOLDER`. It puts two scan files into the
//! folder, the second one damaged, and prints the sheet of four names: the first file twice, a file that is
//! missing, the damaged one.

use stackfilter::{night, preset, write};
use std::error::Error;
use std::path::PathBuf;
use std::{env, fs};

const MEDIAN: u64 = 10;

fn main() -> Result<(), Box<dyn Error>> {
    let folder = PathBuf::from(env::args_os().nth(1).ok_or("usage: night FOLDER")?);
    let [day, missing, damaged] = ["day.scan", "missing.scan", "damaged.scan"].map(|name| folder.join(name));
    let file = write(&preset(MEDIAN)?, &[10, 10, 90, 10, 10])?;
    fs::write(&day, &file)?;
    fs::write(&damaged, &file[1..])?;

    // The last line: files cleaned, not opened, refused under 7, 8, 9, 15, 16, 17 and 18, then what the cleaned files add
    // up to.
    print!("{}", night([&day, &day, &missing, &damaged])?);
    Ok(())
}
