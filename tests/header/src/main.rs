//! Holds the headers of include/, and calls that C makes through them, to document 01. tests/header/run runs it:
//!
//!     header names FOLDER      what the headers of the folder declare
//!     header addresses HEADER  prints a program with the address of every function of a header
//!     header figures [32]      the figures that figures.c printed, on standard input; on a processor of so many bits
//!     header calls             what calls.c printed, on standard input
//!     header symbols [NAME..]  what the archive has and needs, as `nm` prints it, on standard input; and the names of the
//!                              compiler's own runtime that it may need

mod calls;
mod days;
mod figures;
mod names;
mod symbols;

/// A wrong figure makes many wrong lines: the first of them say enough.
const SHOWN: usize = 12;

fn main() {
    let words: Vec<String> = std::env::args().skip(1).collect();
    let words: Vec<&str> = words.iter().map(|word| word.as_str()).collect();
    let input = || std::io::read_to_string(std::io::stdin()).expect("standard input is text");
    let (what, (wrong, count)) = match words[..] {
        ["names", folder] => ("functions of the headers", names::compare(folder)),
        ["addresses", header] => {
            print!("{}", names::addresses(header));
            return;
        }
        ["figures"] => ("figures of the headers", figures::compare(&input(), 64)),
        ["figures", "32"] => ("figures of the headers", figures::compare(&input(), 32)),
        ["calls"] => ("calls through the headers", calls::compare(&input())),
        ["symbols", ref runtime @ ..] => (
            "symbols of the archive",
            symbols::compare(&input(), runtime),
        ),
        _ => {
            eprintln!("usage: header names FOLDER | addresses HEADER | figures [32] | calls | symbols [NAME..]");
            std::process::exit(2);
        }
    };
    for line in wrong.iter().take(SHOWN) {
        eprintln!("header: {line}");
    }
    if wrong.len() > SHOWN {
        eprintln!("header: and {} more", wrong.len() - SHOWN);
    }
    if !wrong.is_empty() {
        std::process::exit(1);
    }
    println!("{count} {what} are as document 01 has them");
}
