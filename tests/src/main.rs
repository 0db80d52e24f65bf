//! The worked examples of tests/examples, worked out bit by bit: `calls-list` and `map-list` write the lists, `calls` and `map`
//! their outcomes.
//!
//!     cargo run --release --offline --manifest-path tests/Cargo.toml -- calls
//!
//! `image` writes the card printer's example image, `print` prints what the printer must print of the image on standard
//! input, and `printer PROGRAM` runs a card printer on many images and compares. `worked-image` and `worked-text` write the
//! image and the text of a card whose values all differ, and `worked-sums` the sums of a block that pass 65,521, as definitions
//! for the theorems that hold them. `desk SEED` writes a
//! random script for the console in desk/, with what it must answer, and `desk-rows` what can refuse each of its calls.

use bitwise::{calls, desk, map, printer, worked};
use std::io::{Read, Write};

fn main() {
    let set = std::env::args().nth(1);
    match set.as_deref() {
        Some("map-list") => print!("{}", map::list()),
        Some("map") => print!("{}", map::examples()),
        Some("calls-list") => print!("{}", calls::list()),
        Some("calls") => print!("{}", calls::examples()),
        Some("image") => std::io::stdout().write_all(&printer::example()).unwrap(),
        Some("print") => {
            let mut image = Vec::new();
            std::io::stdin().read_to_end(&mut image).unwrap();
            print!("{}", printer::text(&image));
        }
        Some("worked-image") => print!("{}", worked::image()),
        Some("worked-sums") => print!("{}", worked::sums()),
        Some("worked-text") => print!("{}", worked::text()),
        Some("desk") => {
            let seed = std::env::args().nth(2).expect("the seed of the script");
            print!("{}", desk::script(seed.parse().expect("a number")));
        }
        Some("desk-rows") => print!("{}", desk::rows()),
        Some("printer") => {
            let program = std::env::args().nth(2).expect("the program to run");
            std::process::exit(!printer::holds(&program) as i32);
        }
        _ => {
            eprintln!("usage: bitwise map-list | map | calls-list | calls | image | print");
            eprintln!("       bitwise worked-image | worked-text | worked-sums | printer PROGRAM | desk SEED | desk-rows");
            std::process::exit(2);
        }
    }
}
