//! Prints the block of each damaged Mode 1 sector of the image that it reads: `damaged < IMAGE`. The status is 1 if there is one, and 2
//! if the image cannot be read. Compile with `rustc damaged.rs $(pkg-config --libs cdpatch)`.

use std::io::{self, BufReader, ErrorKind, Read, Write};
use std::process::exit;

const SECTOR_SIZE: usize = 2352;
const MODE1: u32 = 2;

extern "C" {
    fn cdpatch_kind(sector: *const u8) -> u32;
    fn cdpatch_is_consistent(sector: *const u8) -> bool;
}

fn is_damaged(sector: &[u8; SECTOR_SIZE]) -> bool {
    // Both read the bytes of a sector, and write nothing.
    unsafe { cdpatch_kind(sector.as_ptr()) == MODE1 && !cdpatch_is_consistent(sector.as_ptr()) }
}

/// Prints the damaged blocks, and returns how many they are.
fn print_damaged(mut image: impl Read, mut out: impl Write) -> io::Result<u32> {
    let mut sector = [0; SECTOR_SIZE];
    let mut damaged = 0;
    for block in 0.. {
        match image.read_exact(&mut sector) {
            Ok(()) if is_damaged(&sector) => {
                writeln!(out, "{block}")?;
                damaged += 1;
            }
            Ok(()) => {}
            Err(error) if error.kind() == ErrorKind::UnexpectedEof => break,
            Err(error) => return Err(error),
        }
    }
    out.flush()?;
    Ok(damaged)
}

fn main() {
    match print_damaged(BufReader::new(io::stdin().lock()), io::stdout().lock()) {
        Ok(damaged) => exit(i32::from(damaged > 0)),
        Err(error) => {
            eprintln!("damaged: {error}");
            exit(2);
        }
    }
}
