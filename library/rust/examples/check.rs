//! `check FILE..` prints the answer, line and column of each file; with two
//! or more files its name before them. Status: 0 all accepted, 1 one refused,
//! 2 one that could not be read.

use std::process::ExitCode;

fn main() -> ExitCode {
    let names: Vec<String> = std::env::args().skip(1).collect();
    let mut status = 0;
    for name in &names {
        match std::fs::read(name) {
            Ok(file) => {
                let answer = clieop::check(&file);
                if names.len() > 1 {
                    println!("input={name}");
                }
                println!("answer={}\nline={}\ncolumn={}", answer.number, answer.line, answer.column);
                status = status.max(u8::from(!answer.is_accepted()));
            }
            Err(error) => {
                eprintln!("check: {name}: {error}");
                status = 2;
            }
        }
    }
    ExitCode::from(status)
}
