//! The reference's contours program: a network file on standard input, contour levels as arguments.

use std::io::Read;
use std::os::unix::ffi::OsStrExt;

fn main() {
    let words: Vec<_> = std::env::args_os().skip(1).collect();
    let levels: Vec<&[u8]> = words.iter().map(|word| word.as_bytes()).collect();
    let mut network = Vec::new();
    std::io::stdin().read_to_end(&mut network).expect("standard input can be read");
    print!("{}", reference::contours_csv::contours_csv(&network, &levels));
}
