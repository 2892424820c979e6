//! The program as the reference understands it: `reference NOTION KIND C < FILE`. It wrote the expected outputs of
//! `tests/program/cases` and `examples`, and `tests/program/run` can be tried on it by ISOLATED_PROGRAM.

use std::io::{Read, Write};
use std::os::unix::ffi::OsStringExt;

fn main() -> std::io::Result<()> {
    let words: Vec<Vec<u8>> = std::env::args_os().skip(1).map(OsStringExt::into_vec).collect();
    let mut text = Vec::new();
    std::io::stdin().read_to_end(&mut text)?;
    std::io::stdout().write_all(outside::program::output(&words, &text).as_bytes())
}
