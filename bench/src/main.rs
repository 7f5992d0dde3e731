//! Prints the tables of docs/PERFORMANCE.md: each figure a ratio measured side by side in this run.
//! OKUBINRAFO_LIB names the library; `--networks FOLDER` only writes the networks, for the comparison with contourpy.

mod books;
mod flights;
mod inputs;
mod levels;
#[allow(dead_code)]
#[path = "../../reference/tests/library/library.rs"]
mod library;
mod networks;
mod timing;

fn main() {
    let arguments: Vec<String> = std::env::args().skip(1).collect();
    match &arguments[..] {
        [flag, folder] if flag == "--networks" => networks::write(folder),
        [] => print_tables(&library::Library::from_environment()),
        _ => panic!("usage: bench [--networks FOLDER]"),
    }
}

type Measurement = fn(&library::Library);

const RATIOS: [Measurement; 7] = [
    books::loads,
    levels::searches,
    books::shifts,
    books::registers,
    networks::contours,
    networks::texts,
    flights::couplings,
];

const GROWTH: [Measurement; 6] = [
    books::load_grows,
    books::shift_grows,
    books::register_grows,
    networks::contours_grow,
    networks::text_grows,
    flights::couplings_grow,
];

fn print_tables(library: &library::Library) {
    println!("| what | library | beside it | ratio | goal |\n|---|---|---|---|---|");
    RATIOS.iter().for_each(|measure| measure(library));
    println!("\n| how it grows | small | large | ratio (1 is linear) |\n|---|---|---|---|");
    GROWTH.iter().for_each(|measure| measure(library));
}
