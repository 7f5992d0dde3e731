//! A program that reads a file of its folder and another on standard input, held against the reference.

use crate::delivery::Delivery;
use crate::program::Program;

/// Runs the program and compares what it writes with what the reference says of the same files.
pub fn agree(
    program: &Program,
    name: &str,
    reference: fn(&[u8], &[u8]) -> String,
    beside: Option<&[u8]>,
    input: &[u8],
    delivery: &Delivery,
) -> String {
    let path = program.folder.join(name);
    match beside {
        Some(content) => std::fs::write(path, content).expect("the file is written"),
        None => drop(std::fs::remove_file(path)),
    }
    let expected = reference(beside.unwrap_or_default(), input);
    let own = program.run(&[], input, delivery);
    let text = |bytes: &[u8]| String::from_utf8_lossy(bytes).into_owned();
    assert!(
        own == expected.as_bytes(),
        "the program writes {:?}\nthe reference {expected:?}\n{delivery:?}\n{name} {:?}\ninput {:?}",
        text(&own),
        beside.map(text),
        text(input)
    );
    expected
}
