//! The proved library against the original, in one process. With a call, a file and a number: ours alone, so many times; with a folder: files
//! for that.

mod families;
mod find;
mod repeat;
mod solve;
mod summary;
mod timing;
mod verify;

use harness::ours::Answer;
use std::path::Path;
use std::process::ExitCode;
use std::{env, fs};

fn print_tables() {
    let mut rows = Vec::new();
    for table in [find::print_families, find::print_single, verify::print, solve::print] {
        rows.extend(table());
        println!();
    }
    summary::print(&rows);
}

fn print_last(call: fn(&[u8], usize) -> Option<Answer>, file: &str, repeats: &str) {
    let bytes = fs::read(file).expect("the file can be read");
    let repeats = repeats.parse().expect("the repeats are a number");
    println!("{:?}", call(&bytes, repeats));
}

fn main() -> ExitCode {
    let words: Vec<String> = env::args().skip(1).collect();
    match words.iter().map(String::as_str).collect::<Vec<_>>()[..] {
        [] => print_tables(),
        ["find", file, repeats] => print_last(repeat::find, file, repeats),
        ["verify", file, repeats] => print_last(repeat::verify, file, repeats),
        ["add", file, repeats] => print_last(repeat::add_signals, file, repeats),
        ["edit", file, repeats] => print_last(repeat::edit_set, file, repeats),
        ["write", file, repeats] => print_last(repeat::write_job, file, repeats),
        ["read", file, repeats] => print_last(repeat::read_angles, file, repeats),
        ["files", folder] => repeat::put_files(Path::new(folder)).expect("the files can be written"),
        _ => {
            eprintln!("usage: bench [find FILE REPEATS | verify .. | add .. | edit .. | write .. | read .. | files FOLDER]");
            return ExitCode::from(2);
        }
    }
    ExitCode::SUCCESS
}
