//! The second program: the V233 bench written once more from documents 01, 000 and 02 alone, to
//! be compared with the product. Of document 02 it has requests 1 to 10.
//!
//!   second run | trace | why | calls
//!                                  reads standard input to its end, prints what the product's
//!                                  program of that name prints
//!   second gen DIR SEED COUNT      writes COUNT run files, COUNT call scripts, a script of ramps and one of voltages
//!                                  for every tenth, one of downloads, one of roles and one of last ticks for every
//!                                  twentieth, and some that are the same for any seed
//!   second answers DIR             writes this program's answers beside those files
//!   second summary DIR             what the files of DIR reach
//!   second selftest                document 01's starred examples, and examples of requests 3 to 10

mod answer;
mod board;
mod channel;
mod checks;
mod corpus;
mod frame;
mod last_tick;
mod map;
mod ramp;
mod role;
mod runfile;
mod script;
mod tally;
mod volts;

use std::io::{Read, Write};
use std::path::Path;
use std::process::exit;

fn input() -> Vec<u8> {
    let mut bytes = Vec::new();
    std::io::stdin().read_to_end(&mut bytes).expect("standard input");
    bytes
}

fn print(text: &str) {
    std::io::stdout().write_all(text.as_bytes()).expect("standard output");
}

fn main() {
    let args: Vec<String> = std::env::args().skip(1).collect();
    match args.iter().map(String::as_str).collect::<Vec<_>>()[..] {
        ["run"] => print(&runfile::line(&input())),
        ["trace"] => print(&runfile::tell(&input()).trace),
        ["why"] => print(&runfile::why(&input())),
        ["calls"] => print(&script::tell(&input()).text),
        ["gen", dir, seed, count] => {
            let (seed, count) = (seed.parse().expect("seed"), count.parse().expect("count"));
            corpus::generate(Path::new(dir), seed, count).expect("files written");
        }
        ["answers", dir] => corpus::answers(Path::new(dir)).expect("files written"),
        ["summary", dir] => {
            if !corpus::summary(Path::new(dir)).expect("files read") {
                exit(1);
            }
        }
        ["selftest"] => {
            let done = checks::all();
            for (name, _) in done.iter().filter(|d| !d.1) {
                println!("selftest: {name} failed");
            }
            println!("selftest: {} of {} passed", done.iter().filter(|d| d.1).count(), done.len());
            if done.iter().any(|d| !d.1) {
                exit(1);
            }
        }
        _ => {
            eprintln!("second run | trace | why | calls | gen DIR SEED COUNT | answers DIR | summary DIR | selftest");
            exit(2);
        }
    }
}
