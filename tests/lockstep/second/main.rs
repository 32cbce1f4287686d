//! The second program by itself.
//!
//!     second cases                                         what the proved program of this name must write for the lines
//!     second vectors                                       that are read here
//!     second draw PROGRAM SEED NUMBER                      a portion of random lines for it, as many as one run reads
//!     second compare PROGRAM SEED PORTIONS COMMAND..       COMMAND, which is the proved program, on so many portions
//!     second openssl SEED                                  AES, CBC and CMAC beside OpenSSL's
//!
//! So `second cases <crates/cases/stdin >crates/cases/stdout` makes anew what `cases` must write. A comparison ends with 0 if all
//! agreed, and otherwise with 1.

mod aes;
mod algorithms;
mod answer;
mod book;
mod cases;
mod device;
mod draw;
mod draw_cases;
mod draw_vectors;
mod messages;
mod modes;
mod openssl;
mod process;
mod programs;
mod random;
mod text;
mod vectors;

use programs::{compare, Program};
use std::io::{Read, Write};
use std::process::exit;

fn input() -> String {
    let mut text = String::new();
    std::io::stdin().read_to_string(&mut text).expect("lines of text");
    text
}

/// Whoever reads it may have had enough; what is not written whole is a failure all the same.
fn write(text: &str) {
    if std::io::stdout().write_all(text.as_bytes()).is_err() {
        exit(1)
    }
}

fn usage() -> ! {
    eprintln!(
        "usage: second cases|vectors\n       second draw cases|vectors SEED NUMBER\n       \
         second compare cases|vectors SEED PORTIONS COMMAND..\n       second openssl SEED"
    );
    exit(2)
}

fn number(word: &str) -> u64 {
    word.parse().unwrap_or_else(|_| usage())
}

fn program(name: &str) -> Program {
    Program::named(name).unwrap_or_else(|| usage())
}

/// Says what a comparison found.
fn report(name: &str, found: Result<String, String>) {
    match found {
        Ok(agreement) => println!("{name}: {agreement}"),
        Err(difference) => {
            println!("{name}: {difference}");
            exit(1)
        }
    }
}

fn main() {
    let words: Vec<String> = std::env::args().skip(1).collect();
    let words: Vec<&str> = words.iter().map(String::as_str).collect();
    match words[..] {
        [name] => write(&program(name).must_write(&input())),
        ["draw", name, seed, portion] => write(&program(name).draw(number(seed), number(portion))),
        ["compare", name, seed, portions, ref command @ ..] if !command.is_empty() => {
            report(name, compare(program(name), number(seed), number(portions), command))
        }
        ["openssl", seed] => report("OpenSSL", openssl::compare(number(seed))),
        _ => usage(),
    }
}
