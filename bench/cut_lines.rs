//! Cuts a file into lines without their trailing spaces, each a vector of its own: what a plain Rust
//! program would do instead of the table of files.
use std::{env, fs};

fn main() {
    let bytes = fs::read(env::args().nth(1).unwrap()).unwrap();
    let mut lines: Vec<Vec<u8>> = Vec::new();
    let text = bytes.strip_suffix(b"\n").unwrap_or(&bytes);
    for line in text.split(|&byte| byte == b'\n') {
        let end = line.iter().rposition(|&byte| byte != b' ').map_or(0, |last| last + 1);
        lines.push(line[..end].to_vec());
    }
    println!("{}", lines.len());
}
