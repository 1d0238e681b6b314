//! Random and fixed traces, each played by the program `replay` and by the model in oracle/, which is written from the
//! documents alone. The answers are compared line by line. docs/TESTING.md tells what it shows.

mod damages;
// The differential test's generator, which draws kinds of numbers too that no trace has.
#[allow(dead_code)]
#[path = "../../differential/src/draws.rs"]
mod draws;
mod fixed;
mod program;
mod shapes;
mod tally;
mod traces;

use program::{Feed, Program};
use std::io::Write;
use std::path::{Path, PathBuf};
use std::process::ExitCode;
use std::time::Instant;
use tally::Tally;

const USAGE: &str = "usage: run [--traces N] [--seed SEED] [--show TRACE] [PROGRAM]
  --traces  how many drawn traces, beside the fixed ones
  --show    prints the input that is this trace of the seed, and plays nothing
  PROGRAM   target/bin/replay where none is named";

struct Options {
    traces: u64,
    seed: u64,
    show: Option<u64>,
    program: PathBuf,
}

fn options(mut words: impl Iterator<Item = String>) -> Option<Options> {
    let usual = Path::new(env!("CARGO_MANIFEST_DIR")).join("../../target/bin/replay");
    let mut options = Options { traces: 2000, seed: 1, show: None, program: usual };
    while let Some(word) = words.next() {
        match word.as_str() {
            "--traces" => options.traces = words.next()?.parse().ok()?,
            "--seed" => options.seed = words.next()?.parse().ok()?,
            "--show" => options.show = Some(words.next()?.parse().ok()?),
            _ if word.starts_with('-') => return None,
            _ => options.program = PathBuf::from(word),
        }
    }
    Some(options)
}

/// The program beside the model.
struct Bench {
    program: Program,
    tally: Tally,
    inputs: u64,
}

impl Bench {
    /// Plays an input on both; what differed, where something did.
    fn play(&mut self, input: &[u8], damages: &[usize], feeds: &[Feed]) -> Result<(), String> {
        let expected = oracle::replay::replay(input);
        self.tally.meet(input, damages, &expected);
        for feed in feeds {
            self.inputs += 1;
            let told = |what| format!("{feed:?}: {what}");
            let found = self.program.output(input, *feed).map_err(told)?;
            if let Some(what) = difference(input, &found, &expected) {
                return Err(told(what));
            }
        }
        Ok(())
    }

    fn fixed(&mut self) -> Result<(), String> {
        for (name, input) in fixed::inputs() {
            let mut feeds = vec![Feed::File, Feed::Pieces(4096), Feed::Slowly(7)];
            if input.len() > 60_000 {
                feeds.extend([Feed::Slowly(4096), Feed::Slowly(65_536), Feed::Slowly(8_301)]);
            } else {
                feeds.extend([Feed::Pieces(1), Feed::Pieces(7)]);
            }
            self.play(&input, &[], &feeds).map_err(|what| format!("{name}: {what}"))?;
        }
        Ok(())
    }

    fn drawn(&mut self, seed: u64, traces: u64) -> Result<(), String> {
        for number in 0..traces {
            let trace = traces::trace(seed, number);
            let feed = match number % 8 {
                0 => Feed::Pieces(1 + (number % 200) as usize),
                1 => Feed::Slowly(1 + (number % 100) as usize),
                2 => Feed::Pieces(4096),
                3 | 4 => Feed::Pieces(65_536),
                _ => Feed::File,
            };
            self.play(&trace.input, &trace.damages, &[feed])
                .map_err(|what| format!("seed {seed}, trace {number}: {what}"))?;
        }
        Ok(())
    }
}

/// The first answer that differs, with its number and its line of the input.
fn difference(input: &[u8], found: &[u8], expected: &[u8]) -> Option<String> {
    if found == expected {
        return None;
    }
    let lines = |bytes: &[u8]| -> Vec<Vec<u8>> {
        bytes.split_inclusive(|byte| *byte == b'\n').map(<[u8]>::to_vec).collect()
    };
    let (input, found, expected) = (lines(input), lines(found), lines(expected));
    let at = (0..).find(|at| found.get(*at) != expected.get(*at))?;
    // An accepted first line has no answer.
    let first = oracle::replay::first_line(input.first().map_or(&[], Vec::as_slice));
    let line = at + usize::from(first.refusal == 0);
    Some(format!(
        "answer {} differs\n  line {} of the input: {}\n  the program: {}\n  the model:   {}",
        at + 1,
        line + 1,
        shown(input.get(line)),
        shown(found.get(at)),
        shown(expected.get(at))
    ))
}

/// A line for people: of a long one the beginning and the end.
fn shown(line: Option<&Vec<u8>>) -> String {
    let Some(line) = line else {
        return "(no line)".to_string();
    };
    let text = line.escape_ascii().to_string();
    match text.len() {
        0..=400 => format!("\"{text}\""),
        _ => format!(
            "\"{}\" .. \"{}\", {} bytes",
            &text[..200],
            &text[text.len() - 100..],
            line.len()
        ),
    }
}

fn main() -> ExitCode {
    let Some(options) = options(std::env::args().skip(1)) else {
        eprintln!("{USAGE}");
        return ExitCode::from(2);
    };
    if let Some(number) = options.show {
        let input = traces::trace(options.seed, number).input;
        return ExitCode::from(u8::from(std::io::stdout().write_all(&input).is_err()));
    }
    if !options.program.is_file() {
        eprintln!("there is no program {}", options.program.display());
        return ExitCode::from(2);
    }
    let started = Instant::now();
    let mut bench =
        Bench { program: Program::new(&options.program), tally: Tally::default(), inputs: 0 };
    let played = bench.fixed().and_then(|()| bench.drawn(options.seed, options.traces));
    if let Err(what) = played {
        println!("DIFFERENCE: {what}");
        return ExitCode::FAILURE;
    }
    finish(&bench, &options, started.elapsed().as_secs_f64())
}

/// Prints what was tried; whether it was everything.
fn finish(bench: &Bench, options: &Options, seconds: f64) -> ExitCode {
    bench.tally.print();
    println!(
        "seed {}: {} traces and the fixed inputs, {} runs, {} answers, {seconds:.1} seconds",
        options.seed, options.traces, bench.inputs, bench.tally.answers
    );
    let never = bench.tally.never_met();
    if !never.is_empty() {
        println!("never met: {}", never.join("; "));
        return ExitCode::FAILURE;
    }
    println!("no difference");
    ExitCode::SUCCESS
}
