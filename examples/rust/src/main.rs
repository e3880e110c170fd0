//! Judges and runs the sheet in a .hex file and says in words what came of it.
//!
//! A .hex file has two hexadecimal digits a byte. Blanks are skipped, and so is
//! everything from a # to the end of its line.
//!
//! The exit status is 0 if the sheet was accepted and its run ended, 1 if it
//! was refused or stopped, and 2 if the file could not be read.

mod sovzedal;

use sovzedal::{
    run_eager, typecheck, Outcome, Post, Refusal, Request, Run, Type, Value, Verdict, CHANNELS,
    MAX_CALLS, MAX_CELLS, MAX_DEPTH, MAX_POSTS, MAX_SHEET,
};
use std::process::ExitCode;
use std::{env, fs};

/// The headings of docs/REFUSALS.md, by their numbers.
const CAUSES: [&str; 38] = [
    "none",
    "cut short",
    "wrong tag",
    "version",
    "length",
    "type record",
    "term record",
    "place",
    "nesting",
    "variable",
    "type",
    "needs of a sign",
    "needs of a body",
    "type of the root",
    "start stack",
    "buffers",
    "allowance",
    "refused check",
    "stuck",
    "open calls",
    "calls spent",
    "no cell",
    "no place for a post",
    "address",
    "not a function",
    "argument",
    "branches",
    "no such line",
    "outside the store",
    "queue full",
    "no such privilege",
    "guard",
    "no lean form",
    "no room",
    "record",
    "ranges",
    "undecided condition",
    "no such term",
];

fn main() -> ExitCode {
    let mut arguments = env::args().skip(1);
    let (Some(path), None) = (arguments.next(), arguments.next()) else {
        eprintln!("usage: run FILE");
        return ExitCode::from(2);
    };
    match read_sheet(&path) {
        Ok(sheet) => judge_and_run(&sheet),
        Err(message) => {
            eprintln!("{path}: {message}");
            ExitCode::from(2)
        }
    }
}

/// Every byte of the sheet, or the first `MAX_SHEET + 1`: the library refuses
/// so many.
fn read_sheet(path: &str) -> Result<Vec<u8>, String> {
    let text = fs::read_to_string(path).map_err(|error| error.to_string())?;
    let digits: Option<Vec<u8>> = text
        .lines()
        .flat_map(without_comment)
        .filter(|c| !c.is_ascii_whitespace())
        .map(|c| c.to_digit(16).map(|digit| digit as u8))
        .collect();
    let digits = digits
        .filter(|digits| digits.len() % 2 == 0)
        .ok_or("not two hexadecimal digits a byte")?;
    let bytes = digits.chunks(2).map(|pair| pair[0] << 4 | pair[1]);
    Ok(bytes.take(MAX_SHEET + 1).collect())
}

fn without_comment(line: &str) -> impl Iterator<Item = char> + '_ {
    line.chars().take_while(|&c| c != '#')
}

fn judge_and_run(sheet: &[u8]) -> ExitCode {
    match typecheck(sheet) {
        Ok(verdict) => println!("verdict: {}", verdict_in_words(&verdict)),
        Err(refusal) => {
            println!("verdict: {}", refusal_in_words(&refusal));
            return ExitCode::FAILURE;
        }
    }
    let request = Request {
        start: &[],
        calls: MAX_CALLS,
        depth: MAX_DEPTH,
        enforce: true,
    };
    let mut cells = [0; MAX_CELLS];
    let mut posts = [0; MAX_POSTS];
    match run_eager(sheet, &request, &mut cells, &mut posts) {
        Ok(run) => {
            println!("answer: {}", run_in_words(&run));
            print_posts(&posts[..run.posts as usize]);
            match run.outcome {
                Outcome::End(_) => ExitCode::SUCCESS,
                Outcome::Stop { .. } => ExitCode::FAILURE,
            }
        }
        Err(refusal) => {
            println!("answer: {}", refusal_in_words(&refusal));
            ExitCode::FAILURE
        }
    }
}

fn verdict_in_words(verdict: &Verdict) -> String {
    let ty = match verdict.ty {
        Type::Boolean => "boolean",
        Type::Number => "number",
    };
    let Verdict { terms, needs, .. } = verdict;
    format!("accepted, {terms} terms, type {ty}, needs {needs:08X}")
}

fn refusal_in_words(refusal: &Refusal) -> String {
    format!(
        "refused, {} at {}",
        cause_in_words(refusal.cause),
        refusal.place
    )
}

fn run_in_words(run: &Run) -> String {
    let outcome = match run.outcome {
        Outcome::End(Value::Boolean(value)) => format!("ended in the boolean {}", u8::from(value)),
        Outcome::End(Value::Number(value)) => format!("ended in the number {value}"),
        Outcome::Stop { cause, term } => format!("stopped, {} at {term}", cause_in_words(cause)),
    };
    let Run {
        calls,
        cells,
        posts,
        held,
        ..
    } = run;
    format!("{outcome}, calls {calls}, cells {cells}, posts {posts}, held {held}")
}

fn cause_in_words(cause: u32) -> String {
    format!("{cause} ({})", CAUSES[cause as usize])
}

/// Says what was posted on each channel, in order. Nothing is said of the
/// others.
fn print_posts(entries: &[u32]) {
    if entries.is_empty() {
        println!("no posts");
    }
    for channel in 0..CHANNELS {
        let posts = entries.iter().map(|&entry| Post::from(entry));
        let words: Vec<String> = posts
            .filter(|post| post.channel == channel)
            .map(|post| post.number.to_string())
            .collect();
        if !words.is_empty() {
            println!("posts on channel {channel}: {}", words.join(" "));
        }
    }
}
