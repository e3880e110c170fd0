//! Writes a crate of rows: sheets, some with ranges or other numbers, and pairs
//! of records, most of them random, and the reference's answers. Its theorems say that the definitions give the
//! same; the checker proves them by computing, or refuses them.

mod antt;
mod choice;
mod counts;
mod row;
mod written;

use counts::Counts;
use row::{Entry, Row};
use sheets::seed::{given_or_fresh, SEED};
use sheets::tally::Tally;
use sovzedal_reference::Reply;
use std::env;
use std::path::PathBuf;
use std::process::ExitCode;
use written::row_count;

/// How many random sheets there are, beside those with a name.
const SHEETS: usize = 200;
/// How many of others are run over ranges, and searched for a piece.
const RANGED: usize = 75;
const SEARCHED: usize = 60;
/// How many pairs of records are compared.
const PAIRS: usize = 300;

fn main() -> ExitCode {
    let mut arguments = env::args().skip(1);
    let directory = arguments.next().map(PathBuf::from);
    let sheets = arguments.next().map_or(Ok(SHEETS), |count| count.parse());
    let (Some(directory), Ok(sheets), None) = (directory, sheets, arguments.next()) else {
        eprintln!("usage: definitions DIRECTORY [SHEETS]");
        return ExitCode::FAILURE;
    };
    let seed = given_or_fresh();
    println!("seed {seed}, again with {SEED}={seed}");
    let mut entries = choice::named();
    entries.extend(choice::random(seed, sheets));
    entries.extend(choice::ranged(seed, RANGED));
    entries.extend(choice::searched(seed, SEARCHED));
    let compared = choice::compared(seed, PAIRS);
    let (tally, counts) = (count(&entries), Counts::of(&entries, &compared));
    print!("{tally}{counts}");
    let rows = row_count(&entries) + compared.len();
    println!("{} sheets, {rows} rows", entries.len());
    if let Err(error) = written::write(&directory, entries, &compared) {
        eprintln!("definitions: {error}");
        return ExitCode::FAILURE;
    }
    reached_everything(&tally, &counts)
}

fn count(entries: &[Entry]) -> Tally {
    let mut tally = Tally::default();
    for entry in entries {
        for row in &entry.rows {
            match row {
                Row::Deciding(verdict) => {
                    tally.count_judged(&entry.sheet, &Reply::from(*verdict).answer)
                }
                Row::Running(run) => {
                    let answer = run.answer.map(|recorded| recorded.run);
                    tally.count_run(&Reply::from(answer).answer)
                }
                Row::Ranging(_) | Row::Choosing(_) | Row::Seeking(_) => {}
            }
        }
    }
    tally
}

fn reached_everything(tally: &Tally, counts: &Counts) -> ExitCode {
    let (causes, missing) = (tally.missing_causes(), counts.missing());
    if causes.is_empty() && missing.is_empty() {
        return ExitCode::SUCCESS;
    }
    eprintln!("definitions: never reached causes {causes:?}, nor {missing:?}");
    ExitCode::FAILURE
}
