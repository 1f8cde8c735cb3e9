//! A plain Rust program that gives the answers of `sizing replay`, `check`, `explain` and `certify`, for the
//! benchmarks.

mod answer;
mod certificate;
mod conditions;
mod faults;
mod least_vector;
mod machine;
mod object;
mod plan;
mod plan_text;
mod replay;
mod search;

use answer::Answer;
use certificate::Certificate;
use clap::{Parser, Subcommand};
use faults::{Fault, Kind};
use memchr::memrchr;
use plan::Plan;
use std::io::{self, Read, Write};
use std::process::ExitCode;

const MOST_BYTES: usize = 2_097_155;

#[derive(Parser)]
#[command(name = "plain", about = "A plain Rust program that gives the answers of `sizing`")]
struct Words {
    #[command(subcommand)]
    command: Command,
}

#[derive(Subcommand)]
enum Command {
    /// Replays events on a plan
    Replay,
    /// Checks a certificate of a plan
    Check,
    /// Lists each condition of a certificate that fails
    Explain,
    /// Searches for a certificate of a plan
    Certify,
}

fn main() -> ExitCode {
    let Words { command } = Words::parse();
    match serve(command) {
        Ok(status) => ExitCode::from(status),
        Err(error) => {
            eprintln!("{error}");
            ExitCode::from(3)
        }
    }
}

/// Answers standard input, and returns the exit status. As in `sizing`, the whole answer is computed before any of it
/// is written.
fn serve(command: Command) -> io::Result<u8> {
    let mut input = Vec::new();
    io::stdin().lock().take(MOST_BYTES as u64 + 1).read_to_end(&mut input)?;
    let (text, status) = match answer(command, input) {
        Ok(Answer { text, is_no }) => (text, u8::from(is_no)),
        Err(fault) => (format!("{fault}\n").into_bytes(), 2),
    };
    io::stdout().write_all(&text)?;
    Ok(status)
}

fn answer(command: Command, input: Vec<u8>) -> Result<Answer, Fault> {
    if input.len() > MOST_BYTES {
        return Err(Kind::InputTooLong.into());
    }
    if let Command::Certify = command {
        return search::certify(input);
    }
    let (plan, second) = split(&input).ok_or(Kind::NoSeparator)?;
    let plan = Plan::read(plan)?;
    match command {
        Command::Replay => replay::replay(&plan, second),
        Command::Check => Ok(conditions::check(&plan, &Certificate::read(second, &plan)?)),
        _ => Ok(conditions::explain(&plan, &Certificate::read(second, &plan)?)),
    }
}

/// Returns the texts before and after the last line that is exactly `%%`. This line may end at the end of the input,
/// without a newline.
fn split(input: &[u8]) -> Option<(&[u8], &[u8])> {
    let mut front = input;
    loop {
        let percent = memrchr(b'%', front)?;
        let start = memrchr(b'\n', &front[..percent]).map_or(0, |newline| newline + 1);
        let (plan, rest) = input.split_at(start);
        if let Some(second) = rest.strip_prefix(b"%%\n") {
            return Some((plan, second));
        }
        if rest == b"%%" {
            return Some((plan, &[]));
        }
        front = plan;
    }
}
