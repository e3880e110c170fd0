//! `sheet run`.

use std::ffi::OsString;

use super::compare::decision;
use super::{read_request, Command, ACCEPTED, REFUSED};
use crate::arguments::{shown, Arguments, Form};
use crate::causes;
use crate::console::{file, Console, Failure, STREAM};
use crate::library::{self, Outcome, Refusal, Request, Run};
use crate::library::{ENTRY, MAX_CALLS, MAX_CELLS, MAX_DECISIONS, MAX_DEPTH, MAX_POSTS};
use crate::listing;
use crate::names::{self, Names};
use crate::reading::{range, Reading};
use crate::sheet::CHANNELS;
use crate::show::{counted, mark_of};

/// The bytes of a cell.
const CELL: usize = 8;

pub const COMMAND: Command = Command {
    name: "run",
    form: Form {
        operands: &["FILE"],
        valued: &[
            "--names", "--start", "--calls", "--depth", "--cells", "--posts", "--record", "--pairs",
        ],
        flags: &["--lazy", "--skip-checks", "--hex"],
    },
    help: "\
usage: sheet run [OPTION ...] FILE

Runs a readable sheet, whether or not the rules accept it, and says what it came
to: the value that it ended in, or why and where it was stopped; its posts by
channel; and its counts.

  --lazy           walks the frames of the stack; else the set of what is
                   granted is kept. Both come to the same
  --skip-checks    passes over checks and guards
  --start FRAME    a frame of the start stack, which is empty else: PRINCIPAL,
                   or PRINCIPAL:PRIVILEGE,... with what is enabled, or
                   PRINCIPAL:all. Given several times, the innermost frame
                   comes first
  --calls N        how many calls may be made, at most and else 4096
  --depth N        how many calls may be open at a time, at most and else 100
  --cells N        how many cells may be bound, at most and else 8192
  --posts N        how many posts may be made, at most and else 256
  --record RECORD  writes what the run decides into a new file, for 'sheet
                   compare'; - is standard output, which has nothing else then:
                   a refusal or stop is told on standard error
  --pairs PAIRS    runs eagerly over ranges: the file PAIRS has a line 'LOWEST
                   HIGHEST' for each number of a sheet of version 1, in the
                   order of the terms, or 'NUMBER' for one that is known
  --names NAMES    a file with lines such as 'privilege 0 stamp' and 'principal
                   1 inspector'; the names stand where a number would
  --hex            FILE is hexadecimal text, whatever its name

The exit status is 0 if the run ended, 1 if it was stopped or refused.
",
    run,
};

fn run(arguments: &Arguments, console: &mut Console) -> Result<u8, Failure> {
    let record = arguments.value("--record");
    let pairs = arguments.value("--pairs");
    if pairs.is_some() && (arguments.has("--lazy") || record.is_some()) {
        return Err(Failure::Usage(
            "--pairs goes with neither --lazy nor --record".into(),
        ));
    }
    let (bytes, names) = read_request(arguments, console)?;
    let pairs = pairs.map(|path| read_pairs(path, console)).transpose()?;
    let start = start(arguments, &names)?;
    let request = request(arguments, &start)?;
    let done = ask(&bytes, pairs.as_deref(), arguments.has("--lazy"), &request);
    let reading = Reading::new(&bytes, &names).over(pairs.as_deref().unwrap_or(&[]));
    let run = match done {
        Ok(run) => run,
        Err(refusal) => return super::refuse(&reading, refusal, record, console),
    };
    let shown = Shown {
        reading: &reading,
        ranges: pairs.is_some(),
    };
    let mut lines = shown.lines(&run);
    if let Some(path) = record {
        console.write_new(path, &run.record)?;
        lines.extend(recorded(&run.record, &names));
    }
    let ended = matches!(run.outcome, Outcome::End { .. });
    if !ended || record.is_none_or(|path| path != STREAM) {
        console.say(&format!("{}\n", lines.join("\n")), record)?;
    }
    Ok(if ended { ACCEPTED } else { REFUSED })
}

/// The run that is asked for.
fn ask(bytes: &[u8], pairs: Option<&[u16]>, lazy: bool, request: &Request) -> Result<Run, Refusal> {
    match pairs {
        Some(pairs) => library::run_ranges(bytes, pairs, request),
        None if lazy => library::run_lazy(bytes, request),
        None => library::run_eager(bytes, request),
    }
}

/// Lengths over the limits are lent as one more than the limit: the library refuses that as it does more.
fn request<'a>(arguments: &Arguments, start: &'a [u32]) -> Result<Request<'a>, Failure> {
    let cells = arguments.number("--cells", (MAX_CELLS / CELL) as u32)? as usize;
    let posts = arguments.number("--posts", MAX_POSTS as u32)? as usize;
    let recording = arguments.value("--record").is_some();
    Ok(Request {
        start,
        calls: arguments.number("--calls", MAX_CALLS)?,
        depth: arguments.number("--depth", MAX_DEPTH)?,
        enforce: !arguments.has("--skip-checks"),
        cells: cells.min(MAX_CELLS / CELL + 1) * CELL,
        posts: posts.min(MAX_POSTS + 1),
        record: if recording { MAX_DECISIONS * ENTRY } else { 0 },
    })
}

/// The start stack, two numbers a frame.
fn start(arguments: &Arguments, names: &Names) -> Result<Vec<u32>, Failure> {
    let mut numbers = Vec::new();
    for word in arguments.all("--start") {
        let frame = word.to_str().and_then(|word| frame(word, names));
        let frame = frame.ok_or_else(|| {
            Failure::Usage(format!(
                "--start takes PRINCIPAL or PRINCIPAL:PRIVILEGE,... and not {}",
                shown(word)
            ))
        })?;
        numbers.extend(frame);
    }
    Ok(numbers)
}

fn frame(word: &str, names: &Names) -> Option<[u32; 2]> {
    let (principal, enabled) = word.split_once(':').unwrap_or((word, ""));
    let principal = names.principal_number(principal.trim())?;
    let enabled = match enabled.trim() {
        "" => 0,
        names::ALL => u32::MAX,
        list => list.split(',').try_fold(0, |set, privilege| {
            let number = names.privilege_number(privilege.trim())?;
            Some(set | 1u32.checked_shl(number)?)
        })?,
    };
    Some([principal, enabled])
}

fn read_pairs(path: &OsString, console: &mut Console) -> Result<Vec<u16>, Failure> {
    let text = console.read_text(path)?;
    let mut pairs = Vec::new();
    for (index, line) in text.lines().enumerate() {
        let words: Vec<&str> = line
            .split('#')
            .next()
            .unwrap_or("")
            .split_whitespace()
            .collect();
        let numbers: Option<Vec<u16>> = words.iter().map(|word| word.parse().ok()).collect();
        match numbers.as_deref() {
            Some([]) => {}
            Some(&[number]) => pairs.extend([number, number]),
            Some(&[lowest, highest]) => pairs.extend([lowest, highest]),
            _ => {
                let why = format!(
                    "line {}: a line is 'LOWEST HIGHEST' or 'NUMBER', 0 to 65535",
                    index + 1
                );
                return Err(file(path, &why));
            }
        }
    }
    Ok(pairs)
}

struct Shown<'a> {
    reading: &'a Reading<'a>,
    /// Whether values and posts are ranges.
    ranges: bool,
}

impl Shown<'_> {
    fn lines(&self, run: &Run) -> Vec<String> {
        let mut lines = match run.outcome {
            Outcome::End { ty, value } => vec![format!("ended in {}", self.value(ty, value))],
            Outcome::Stop(stop) => self.stop(stop),
        };
        lines.extend(self.posts(&run.posts));
        let mut counts = vec![
            counted(run.calls as usize, "call"),
            counted(run.cells as usize, "cell"),
            counted(run.posts.len(), "post"),
        ];
        if !self.ranges {
            counts.push(format!("{} held", counted(run.held as usize, "result")));
        }
        lines.push(counts.join(", "));
        lines
    }

    fn value(&self, ty: u32, value: u32) -> String {
        let truth = ["false", "true", "undecided"]
            .get(value as usize)
            .copied()
            .unwrap_or("unknown");
        match (ty == library::BOOLEAN, self.ranges) {
            (true, true) if value == 2 => "a boolean that is undecided".to_string(),
            (true, _) => format!("the boolean {truth}"),
            (false, true) if value >> 16 != value & 0xFFFF => {
                format!("a number, {}", entry_range(value))
            }
            (false, true) => format!("the number {}", entry_range(value)),
            (false, false) => format!("the number {value}"),
        }
    }

    fn stop(&self, stop: Refusal) -> Vec<String> {
        let mut lines = vec![
            format!("stopped: {}", causes::heading_at(stop.cause, stop.place)),
            format!("  {}", causes::sentence(stop.cause)),
        ];
        let mark = mark_of(self.reading, Some(stop));
        if let (Some(tree), Some(mark)) = (&self.reading.tree, mark) {
            lines.push(String::new());
            lines.extend(listing::surroundings(self.reading, tree, &mark));
            lines.push(String::new());
        }
        lines
    }

    /// What was posted on each channel, in order.
    fn posts(&self, entries: &[u32]) -> Vec<String> {
        if entries.is_empty() {
            return vec!["no posts".to_string()];
        }
        if self.ranges {
            let words: Vec<String> = entries.iter().map(|&entry| entry_range(entry)).collect();
            return vec![format!("posts on channel 0: {}", words.join(", "))];
        }
        let mut lines = Vec::new();
        for channel in 0..CHANNELS as u32 {
            let numbers = entries.iter().filter(|&&entry| entry >> 16 == channel);
            let words: Vec<String> = numbers.map(|entry| (entry & 0xFFFF).to_string()).collect();
            if !words.is_empty() {
                lines.push(format!("posts on channel {channel}: {}", words.join(" ")));
            }
        }
        lines
    }
}

/// A value or post over ranges, which has the lowest in its upper half.
fn entry_range(entry: u32) -> String {
    range((entry >> 16) as u16, (entry & 0xFFFF) as u16)
}

/// How many decisions a person is shown.
const DECISIONS: usize = 20;

/// The first entries of a record in words.
fn recorded(record: &[u8], names: &Names) -> Vec<String> {
    let count = record.len() / ENTRY;
    let mut lines = vec![format!("{} recorded", counted(count, "decision"))];
    lines.extend(
        record
            .chunks_exact(ENTRY)
            .take(DECISIONS)
            .map(|entry| format!("  {}", decision(entry, names))),
    );
    if count > DECISIONS {
        lines.push(format!("  and {} more", count - DECISIONS));
    }
    lines
}
