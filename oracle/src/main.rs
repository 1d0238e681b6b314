//! `oracle expected NAME` prints the expected output of a program, `oracle
//! input NAME` the standard input of one that reads it, `oracle names` lists
//! the programs, `oracle selfcheck` tries the documents' examples.

use std::io::Write;
use std::process::ExitCode;

fn main() -> ExitCode {
    let words: Vec<String> = std::env::args().skip(1).collect();
    let words: Vec<&str> = words.iter().map(String::as_str).collect();
    match words[..] {
        ["expected", name] => {
            let text = oracle::programs::expected(name).map(String::into_bytes);
            print(text, &format!("no program named {name}"))
        }
        ["input", name] => {
            let text = oracle::programs::input(name);
            print(text, &format!("no program named {name} reads an input"))
        }
        ["names"] => {
            println!("{}", oracle::programs::NAMES.join("\n"));
            ExitCode::SUCCESS
        }
        ["selfcheck"] => selfcheck(),
        _ => {
            eprintln!("usage: oracle expected NAME | input NAME | names | selfcheck");
            ExitCode::from(2)
        }
    }
}

fn print(text: Option<Vec<u8>>, missing: &str) -> ExitCode {
    let Some(text) = text else {
        eprintln!("oracle: {missing}");
        return ExitCode::from(2);
    };
    match std::io::stdout().write_all(&text) {
        Ok(()) => ExitCode::SUCCESS,
        Err(_) => ExitCode::FAILURE,
    }
}

fn selfcheck() -> ExitCode {
    let failures = oracle::selfcheck::failures();
    for name in &failures {
        println!("oracle: differs from the documents: {name}");
    }
    let tried = oracle::selfcheck::CHECKS.len();
    println!(
        "oracle: {} of {tried} examples hold",
        tried - failures.len()
    );
    if failures.is_empty() {
        ExitCode::SUCCESS
    } else {
        ExitCode::FAILURE
    }
}
