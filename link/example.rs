//! Marks the sheet in a file: `example FILE` prints the mark.

mod marker;

use std::process::ExitCode;

fn main() -> ExitCode {
    let file = std::env::args_os().nth(1).unwrap_or_default();
    match std::fs::read(file) {
        Ok(sheet) => {
            println!("{}", marker::mark(&sheet));
            ExitCode::SUCCESS
        }
        Err(error) => {
            eprintln!("example: give one file that can be read ({error})");
            ExitCode::from(2)
        }
    }
}
