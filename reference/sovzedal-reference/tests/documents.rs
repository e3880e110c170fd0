//! What the documents show is what this implementation gives: the prints of
//! `examples/`, the sheets and prints of `docs/REFUSALS.md`, the sheet and
//! print of `docs/FORMAT.md`, and the names and numbers of
//! `include/sovzedal.h`. Where the repository is not around this workspace,
//! there is nothing to compare.

mod repository;

use repository::{files_below, repository};
use sheets::cases::computing;
use sheets::extremes::longest;
use sheets::ranges::{numbers_of, with_numbers};
use sheets::smallest::{all, Smallest};
use sheets::tree;
use sovzedal_reference::infer_term;
use sovzedal_reference::lines::{Buffers, Job, Lines, STATE_NUMBERS};
use sovzedal_reference::registers::{at, status, Block, BLOCK_BYTES, RUN};
use sovzedal_reference::{compare, decode, erase, explain, names, piece, report, run_eager};
use sovzedal_reference::{record_lazy, run_ranges, typecheck, typecheck_by, Naming};
use sovzedal_reference::{Cause, Checks, Outcome, Plain, Refusal, Reply, Request, Rules};
use sovzedal_reference::{Comparison, Entry, Range, RangeRun, Set, Stop, Term, TermId, Truth};
use sovzedal_reference::{
    CHAIN_TERMS, CHANNELS, ENTRY_BYTES, FRAME_NUMBERS, MAX_CALLS, MAX_CELL_BYTES, MAX_OPEN_CALLS,
    MAX_POSTS,
};
use std::fs;
use std::path::Path;

#[test]
fn examples_print_what_is_shown() {
    let directory = repository().join("examples");
    if !directory.exists() {
        return;
    }
    let shown = read(&directory.join("README.md"));
    let sheets = files_below(&directory, "hex");
    assert!(!sheets.is_empty(), "no examples");
    for path in sheets {
        let print = read(&path.with_extension("out"));
        let name = path.file_name().unwrap().to_str().unwrap();
        assert_eq!(report(&bytes(&read(&path))), print, "print of {name}");
        let block = format!("```text\n{print}```");
        let section = section(&shown, name).expect("a section for each example");
        assert!(section.contains(&block), "README.md shows {name}'s print");
    }
}

/// As the readme says of it.
#[test]
fn the_choice_was_refused_before_w4() {
    let path = repository().join("examples/choice.hex");
    if !path.exists() {
        return;
    }
    let before = typecheck_by(Rules::BeforeW4, &bytes(&read(&path))).unwrap_err();
    assert_eq!((before.cause, before.place), (Cause::TypeMismatch, 14));
}

/// As the readme says of it: the two sheets differ in a byte, and what may be
/// posted on the guarded channel is the inspector's.
#[test]
fn the_release_page_is_the_inspectors() {
    let directory = repository().join("examples");
    if !directory.exists() {
        return;
    }
    let sheet = |name| bytes(&read(&directory.join(name)));
    let (page, unauthorised) = (sheet("page.hex"), sheet("page-unauthorised.hex"));
    let pairs = page.iter().zip(&unauthorised);
    assert_eq!(pairs.filter(|(one, other)| one != other).count(), 1);
    let posts = |sheet: &[u8]| {
        let mut posts = vec![0; MAX_POSTS];
        let mut cells = vec![0; MAX_CELL_BYTES];
        let run = run_eager(sheet, &Request::LARGEST, &mut cells, &mut posts).unwrap();
        posts.truncate(run.posts as usize);
        (run.outcome, posts)
    };
    let end = Outcome::End(Plain::Number(42));
    assert_eq!(posts(&page), (end, vec![40, 65_538]));
    let stop = Outcome::Stop(Stop {
        cause: Cause::RefusedCheck,
        term: 1,
    });
    assert_eq!(posts(&unauthorised), (stop, vec![40]));
}

/// As the readme says of it: with one less the total is what it was, and
/// nothing is held; less 65,535 it is 0, and held all the same.
#[test]
fn the_total_is_past_the_limit_by_one() {
    let path = repository().join("examples/total.hex");
    if !path.exists() {
        return;
    }
    const THIRD: usize = 3;
    let total = bytes(&read(&path));
    let sheet = decode(&total).expect("a readable sheet");
    assert!(matches!(sheet.term(THIRD as TermId), Term::Number(5_536)));
    let mut reached = total.clone();
    let record = total.len() - 8 * (sheet.terms.len() - THIRD);
    reached[record + 2..record + 4].copy_from_slice(&[0x15, 0x9F]);
    let (held, not_held) = (report(&total), report(&reached));
    assert_eq!(not_held, held.replace("held 1", "held 0"));
    assert_ne!(not_held, held);

    let members = [30_000, 30_000, 5_536].map(tree::number);
    let added = members.into_iter().reduce(tree::sum).expect("three");
    assert_eq!(computing(tree::post(added.clone())), total);
    let less = computing(tree::difference(added, tree::number(65_535)));
    assert!(report(&less).ends_with("end num 0 calls 0 cells 0 posts 0 held 1\n"));
}

#[test]
fn refusals_are_those_of_the_smallest_sheets() {
    let path = repository().join("docs/REFUSALS.md");
    if !path.exists() {
        return;
    }
    let shown = read(&path);
    for case in all() {
        let cause = case.cause;
        let section = section(&shown, &cause.to_string()).expect("a section for each cause");
        let sheet = block(section, "hex").expect("a sheet");
        assert_eq!(bytes(sheet), case.sheet, "sheet for {cause}");
        let print = block(section, "text").expect("a print");
        assert_eq!(print_of(&case), print, "print for {cause}");
    }
}

/// 17 has a second sheet, which is stopped at a post.
#[test]
fn the_stop_at_a_post_is_that_of_the_sheet_shown() {
    let path = repository().join("docs/REFUSALS.md");
    if !path.exists() {
        return;
    }
    let shown = read(&path);
    let section = section(&shown, "17").expect("a section for 17");
    let first = block(section, "hex").expect("a sheet");
    let (_, rest) = section.split_once(first).unwrap();
    let sheet = bytes(block(rest, "hex").expect("a second sheet"));
    let (_, rest) = rest.split_once("```hex").unwrap();
    let print = report(&sheet);
    assert_eq!(block(rest, "text"), Some(&*print));
    assert!(print.contains("stop 17 at 1 "));
    let read = decode(&sheet).expect("a readable sheet");
    assert!(matches!(read.term(1), Term::Post { .. }));
}

/// 23 has no sheet: its call is shown alone.
#[test]
fn the_refusal_of_an_address_is_that_of_the_call_shown() {
    let path = repository().join("docs/REFUSALS.md");
    if !path.exists() {
        return;
    }
    let shown = read(&path);
    let section = section(&shown, "23").expect("a section for 23");
    assert_eq!(block(section, "hex"), None);
    let call = block(section, "c").expect("a call");
    let address = call
        .strip_prefix("sovzedal_block_read(block, 16, ")
        .and_then(|rest| rest.strip_suffix(", answer, 8);\n"))
        .expect("a read of a block of 16 bytes");
    let address = address.parse().expect("an address");
    let refusal = Block::new().read(address).expect_err("a refusal");
    assert_eq!(block(section, "text"), Some(&*refused(refusal)));
}

/// 27 to 29 have no sheet either: their calls are made on new lines.
#[test]
fn the_refusals_of_jobs_are_those_of_the_calls_shown() {
    let path = repository().join("docs/REFUSALS.md");
    if !path.exists() {
        return;
    }
    let shown = read(&path);
    for (cause, sessions) in [(27, 1), (28, 2), (29, 1)] {
        let mut rest = section(&shown, &cause.to_string()).expect("a section for each cause");
        assert_eq!(block(rest, "hex"), None);
        for _ in 0..sessions {
            let calls = block(rest, "c").expect("calls");
            (_, rest) = rest.split_once(calls).unwrap();
            let refusal = refused_in_the_end(calls);
            assert_eq!(refusal.cause.number(), cause);
            assert_eq!(block(rest, "text"), Some(&*refused(refusal)));
        }
        assert_eq!(block(rest, "c"), None);
    }
}

/// Makes the calls shown, on new lines. The last one is refused, and no other.
fn refused_in_the_end(calls: &str) -> Refusal {
    let mut lines = Lines::new();
    let mut result = Ok(());
    let mut times = 1;
    for call in calls.lines().map(str::trim) {
        if let Some(rest) = call.strip_prefix("for (int job = 0; job < ") {
            let (number, _) = rest.split_once("; job++)").expect("a loop");
            times = number.parse().expect("a number of times");
            continue;
        }
        for _ in 0..times {
            assert_eq!(result, Ok(()), "refused before {call}");
            result = make(&mut lines, call);
        }
        times = 1;
    }
    result.expect_err("a refusal")
}

/// Makes a call as it stands in C, of which the numbers are the arguments that
/// matter.
fn make(lines: &mut Lines, call: &str) -> Result<(), Refusal> {
    let arguments = call
        .strip_suffix(");")
        .and_then(|call| call.strip_prefix("sovzedal_lines_"));
    let (entry, arguments) = arguments.and_then(|it| it.split_once('(')).expect(call);
    let numbers = arguments.split(", ").filter_map(|it| it.parse().ok());
    let numbers: Vec<usize> = numbers.collect();
    match (entry, &numbers[..]) {
        ("add", &[STATE_NUMBERS, line, offset, length, calls, store, 8]) => {
            let job = Job {
                offset: offset as u64,
                length: length as u64,
                calls: calls as u32,
            };
            lines.add(line as u32, job, &vec![0; store])
        }
        ("serve", &[STATE_NUMBERS, store, cells, posts, 9]) => {
            let buffers = Buffers {
                store: &vec![0; store],
                cells: &mut vec![0; cells],
                posts: &mut vec![0; posts],
            };
            let served = lines.serve(buffers).expect("a job");
            served.answer.map(|_| ())
        }
        _ => panic!("{call}"),
    }
}

/// 30 is told of an accepted sheet, which is shown with the call.
#[test]
fn the_refusal_of_a_privilege_is_that_of_the_call_shown() {
    let path = repository().join("docs/REFUSALS.md");
    if !path.exists() {
        return;
    }
    let shown = read(&path);
    let section = section(&shown, "30").expect("a section for 30");
    let sheet = bytes(block(section, "hex").expect("a sheet"));
    let call = block(section, "c").expect("a call");
    let begin = format!("sovzedal_explain(sheet, {}, ", sheet.len());
    let end = format!(", chain, {CHAIN_TERMS}, answer, 8);\n");
    let privilege = call
        .strip_prefix(&begin)
        .and_then(|rest| rest.strip_suffix(&end))
        .expect("a question about the sheet");
    let privilege: u32 = privilege.parse().expect("a privilege");
    let refusal = explain(&sheet, privilege).expect_err("a refusal");
    assert_eq!(refusal.cause, Cause::NoPrivilege);
    assert_eq!(block(section, "text"), Some(&*refused(refusal)));
    // The least there isn't, and the others aren't needed.
    assert_eq!(privilege, 32);
    for privilege in 0..32 {
        let explanation = explain(&sheet, privilege).expect("an accepted sheet");
        assert!(explanation.terms().is_empty());
    }
    // So it is with the call that is shown after it.
    let (_, rest) = section.split_once(call).expect("what follows the call");
    let query = format!("sovzedal_names(sheet, {}, 32, answer, 8);\n", sheet.len());
    assert_eq!(block(rest, "c"), Some(&*query));
    let (_, rest) = rest.split_once(&query).expect("what follows that call");
    let refusal = names(&sheet, 32).expect_err("a refusal");
    assert_eq!(block(rest, "text"), Some(&*refused(refusal)));
    assert_eq!(names(&sheet, 31), Ok(Naming::Unnamed));
}

/// 37 is told of a readable sheet, which is shown with the call.
#[test]
fn the_refusal_of_a_term_is_that_of_the_call_shown() {
    let path = repository().join("docs/REFUSALS.md");
    if !path.exists() {
        return;
    }
    let shown = read(&path);
    let section = section(&shown, "37").expect("a section for 37");
    let sheet = bytes(block(section, "hex").expect("a sheet"));
    let terms = decode(&sheet).expect("a readable sheet").terms.len() as u32;
    let call = format!(
        "sovzedal_term(sheet, {}, {terms}, answer, 8);\n",
        sheet.len()
    );
    assert_eq!(block(section, "c"), Some(&*call));
    let refusal = infer_term(&sheet, terms).expect_err("a refusal");
    assert_eq!(refusal.cause, Cause::NoTerm);
    assert_eq!(block(section, "text"), Some(&*refused(refusal)));
    for term in 0..terms {
        assert!(infer_term(&sheet, term).is_ok());
    }
}

/// 32 and 33 are told of accepted sheets, too. The buffer for 33 is a byte too
/// short.
#[test]
fn the_refusals_of_lean_forms_are_those_of_the_calls_shown() {
    let path = repository().join("docs/REFUSALS.md");
    if !path.exists() {
        return;
    }
    let shown = read(&path);
    for cause in [Cause::NoLeanForm, Cause::NoRoom] {
        let section = section(&shown, &cause.number().to_string()).expect("a section");
        let sheet = bytes(block(section, "hex").expect("a sheet"));
        let call = block(section, "c").expect("a call");
        let begin = format!("sovzedal_erase(sheet, {}, lean, ", sheet.len());
        let room = call
            .strip_prefix(&begin)
            .and_then(|rest| rest.strip_suffix(", answer, 8);\n"))
            .expect("a lean form of the sheet");
        let room: usize = room.parse().expect("a length");
        let written = |room| erase(&sheet)?.write_to(&mut vec![0; room]);
        let refusal = written(room).expect_err("a refusal");
        assert_eq!(refusal.cause, cause);
        assert_eq!(block(section, "text"), Some(&*refused(refusal)));
        match cause {
            Cause::NoRoom => assert_eq!(written(room + 1), Ok(())),
            _ => assert_eq!(room, longest().len()),
        }
    }
}

fn refused(Refusal { cause, place }: Refusal) -> String {
    format!("refused {} at {place}\n", cause.number())
}

/// The table, the headings, the header's texts and those of the example in
/// Rust name the causes alike.
#[test]
fn causes_have_one_name_each() {
    let (path, header) = (repository().join("docs/REFUSALS.md"), header());
    let (true, Some(header)) = (path.exists(), header) else {
        return;
    };
    let shown = read(&path);
    let headings: Vec<&str> = shown
        .lines()
        .filter_map(|line| line.strip_prefix("## "))
        .collect();
    let rows: Vec<String> = shown
        .lines()
        .filter(|line| line.starts_with("| ["))
        .map(|line| {
            let mut cells = line.split(" | ");
            let (link, name) = (cells.next().unwrap(), cells.next().unwrap());
            let number = link[3..].split(']').next().unwrap();
            format!("{number} {name}")
        })
        .collect();
    assert_eq!(rows, headings);

    let example = read(&repository().join("examples/rust/src/main.rs"));
    let numbered = |text: &str, begin: &str, end: &str| -> Vec<String> {
        let (_, texts) = text.split_once(begin).expect("the texts");
        let (texts, _) = texts.split_once(end).expect("their end");
        (0..)
            .zip(texts.split('"').skip(1).step_by(2))
            .map(|(number, text)| format!("{number} {text}"))
            .collect()
    };
    let texts = numbered(&header, "texts[] = {", "};");
    assert_eq!(texts[0], "0 none");
    assert_eq!(texts[1..], headings);
    assert_eq!(texts, numbered(&example, "CAUSES: ", "];"));
}

#[test]
fn the_header_has_the_same_numbers() {
    let Some(header) = header() else {
        return;
    };
    let number = |name: &str| -> u64 {
        let define = format!("SOVZEDAL_{name} =");
        let rest = header.split(&*define).nth(1).expect(name);
        let digits = rest.trim_start().split(|c: char| !c.is_ascii_digit());
        digits.into_iter().next().unwrap().parse().expect(name)
    };
    let causes = [
        ("CUT_SHORT", Cause::CutShort),
        ("WRONG_TAG", Cause::WrongTag),
        ("VERSION", Cause::WrongVersion),
        ("LENGTH", Cause::WrongLength),
        ("TYPE_RECORD", Cause::TypeRecord),
        ("TERM_RECORD", Cause::TermRecord),
        ("PLACE", Cause::Shape),
        ("NESTING", Cause::Nesting),
        ("VARIABLE", Cause::UnboundVariable),
        ("TYPE", Cause::TypeMismatch),
        ("SIGN_NEEDS", Cause::SignNeeds),
        ("BODY_NEEDS", Cause::BodyNeeds),
        ("ROOT_TYPE", Cause::RootType),
        ("START_STACK", Cause::StartStack),
        ("BUFFERS", Cause::Buffers),
        ("ALLOWANCE", Cause::Allowance),
        ("REFUSED_CHECK", Cause::RefusedCheck),
        ("STUCK", Cause::Stuck),
        ("OPEN_CALLS", Cause::TooManyOpenCalls),
        ("CALLS_SPENT", Cause::CallsSpent),
        ("NO_CELL", Cause::NoCell),
        ("NO_POST", Cause::NoPost),
        ("ADDRESS", Cause::Address),
        ("NOT_A_FUNCTION", Cause::NotAFunction),
        ("ARGUMENT", Cause::Argument),
        ("BRANCHES", Cause::Branches),
        ("NO_LINE", Cause::NoLine),
        ("OUTSIDE", Cause::OutsideStore),
        ("QUEUE_FULL", Cause::QueueFull),
        ("PRIVILEGE", Cause::NoPrivilege),
        ("GUARD", Cause::Guard),
        ("NO_LEAN_FORM", Cause::NoLeanForm),
        ("NO_ROOM", Cause::NoRoom),
        ("RECORD", Cause::Record),
        ("RANGES", Cause::Ranges),
        ("UNDECIDED_CONDITION", Cause::Undecided),
        ("NO_TERM", Cause::NoTerm),
    ];
    for (name, cause) in causes {
        assert_eq!(number(name), u64::from(cause.number()), "{name}");
    }
    let numbers = [
        ("MAX_CALLS", MAX_CALLS as usize),
        ("MAX_DEPTH", MAX_OPEN_CALLS as usize),
        ("MAX_CELLS", MAX_CELL_BYTES),
        ("MAX_POSTS", MAX_POSTS),
        ("MAX_SHEET", longest().len()),
        ("CHANNELS", CHANNELS),
        ("FRAMES", FRAME_NUMBERS),
        ("BLOCK", BLOCK_BYTES),
        ("LINES", STATE_NUMBERS),
        ("CHAIN", CHAIN_TERMS),
        ("ENTRY", ENTRY_BYTES),
        ("UNDECIDED", undecided_value()),
        ("REG_COMMAND", at::COMMAND),
        ("REG_STATUS", at::STATUS),
        ("REG_CAUSE", at::CAUSE),
        ("REG_MASK", at::MASK),
        ("REG_CALLS", at::CALLS),
        ("REG_VALUE", at::VALUE),
        ("REG_CALLS_MADE", at::CALLS_MADE),
        ("REG_PLACE", at::PLACE),
        ("COMMAND_RUN", usize::from(RUN)),
        ("STATUS_ENDED", usize::from(status::ENDED)),
        ("STATUS_STOPPED", usize::from(status::STOPPED)),
        ("STATUS_REFUSED", usize::from(status::REFUSED)),
    ];
    for (name, expected) in numbers {
        assert_eq!(number(name), expected as u64, "{name}");
    }
}

#[test]
fn the_format_shows_an_example() {
    let path = repository().join("docs/FORMAT.md");
    if !path.exists() {
        return;
    }
    let shown = read(&path);
    let section = section(&shown, "An").expect("the example");
    let listing = block(section, "text").expect("a listing");
    let mut listed = Vec::new();
    for line in listing.lines() {
        let (offset, rest) = line.trim_start().split_once("  ").expect("an offset");
        assert_eq!(offset.parse(), Ok(listed.len()), "offset of {line}");
        listed.extend(bytes(rest.split("  ").next().unwrap()));
    }
    let sheet = bytes(&read(&repository().join("examples/test.hex")));
    assert_eq!(listed, sheet, "the bytes listed");
    let (_, after) = section.split_once(listing).unwrap();
    let (_, after) = after.split_once("```").unwrap();
    assert_eq!(block(after, "text"), Some(&*report(&sheet)), "the print");
}

/// The controller's sheet is the example that it names, and its prints are
/// those that the readme shows and the gate asks for.
#[test]
fn the_controller_has_an_example_loaded() {
    let directory = repository().join("examples");
    if !directory.exists() {
        return;
    }
    let controller = read(&directory.join("c/controller.c"));
    let sheet = table(&controller, "sheet[] = {\n");
    assert_eq!(sheet, bytes(&read(&directory.join("loop.hex"))));
    the_gate_asks_for_the_print_of("A");
}

/// So it is with the store that the four lines share, and its parts are where
/// the example says.
#[test]
fn the_lines_have_examples_in_their_store() {
    let directory = repository().join("examples");
    if !directory.exists() {
        return;
    }
    let example = read(&directory.join("c/lines.c"));
    let store = table(&example, "store[] = {\n");
    let mut offset = 0;
    for name in ["hello", "plate"] {
        let sheet = bytes(&read(&directory.join(format!("{name}.hex"))));
        assert_eq!(store[offset..][..sheet.len()], sheet, "{name}");
        let part = format!("{name} = {{ \"{name}\", {offset}, {} }};", sheet.len());
        assert!(example.contains(&part), "{part}");
        offset += sheet.len();
    }
    assert_eq!(store.len(), offset);
    the_gate_asks_for_the_print_of("Four");
}

/// The frame's need is explained by the chain that the readme has in words and
/// prints, and it is gone if `mark` has type 2, as the readme says.
#[test]
fn the_frame_is_explained_by_its_chain() {
    let directory = repository().join("examples");
    if !directory.exists() {
        return;
    }
    let frame = bytes(&read(&directory.join("frame.hex")));
    let explanation = explain(&frame, 0).expect("an accepted sheet");
    let chain = explanation.terms();
    let numbers: Vec<String> = chain.iter().map(u16::to_string).collect();
    let shown = read(&directory.join("README.md"));
    let words = section(&shown, "frame.hex").expect("a section");
    let listed = format!("tells the chain {}.", numbers.join(", "));
    assert!(words.contains(&listed), "{listed}");

    let print = block(section(&shown, "Why").expect("a section"), "text").expect("a print");
    let printed = print.lines().skip(2).map(|line| {
        let (number, _) = line.trim_start().split_once(": ").expect("a term");
        number.to_string()
    });
    assert_eq!(printed.collect::<Vec<String>>(), numbers);
    the_gate_asks_for_the_print_of("Why");

    const MARK: usize = 22;
    let sheet = decode(&frame).expect("a readable sheet");
    assert!(matches!(sheet.terms[MARK], Term::Function { ty: 3, .. }));
    let mut mended = frame.clone();
    let record = frame.len() - 8 * (sheet.terms.len() - MARK);
    mended[record + 3] = 2;
    let verdict = typecheck(&mended).expect("an accepted sheet");
    assert_eq!(verdict.needs, Set::EMPTY);
}

/// Terms of the frame have the types and needs that the readme prints.
#[test]
fn the_frame_has_the_judgements_shown() {
    let directory = repository().join("examples");
    if !directory.exists() {
        return;
    }
    let frame = bytes(&read(&directory.join("frame.hex")));
    let shown = read(&directory.join("README.md"));
    let (_, rest) = section(&shown, "Pieces")
        .expect("a section")
        .split_once("`frame.hex`")
        .expect("a word about the frame");
    let print = block(rest, "text").expect("a print");
    let mut lines = print.lines();
    assert!(typecheck(&frame).is_ok() && piece(&frame) == Ok(None));
    assert_eq!(lines.next(), Some("accepted"));
    assert_eq!(lines.next(), Some("no piece"));
    assert!(lines.clone().count() > 0);
    are_judgements_of(&frame, lines);
    let gate = repository().join(".ci/examples");
    assert!(!gate.exists() || read(&gate).contains(print));
}

/// Each after the term's number.
fn are_judgements_of<'a>(sheet: &[u8], lines: impl Iterator<Item = &'a str>) {
    for line in lines {
        let rest = line.strip_prefix("term ").expect("a term");
        let (number, judgement) = rest.split_once(": ").expect("a judgement");
        is_judgement_of(sheet, number.parse().expect("a number"), judgement);
    }
}

/// A cause is also told by a word, which the header has.
fn is_judgement_of(sheet: &[u8], number: u32, printed: &str) {
    let (begin, end) = match infer_term(sheet, number) {
        Ok(inferred) => {
            let principal = inferred.principal.unwrap_or(0);
            let (ty, needs) = (inferred.ty, inferred.needs.bits());
            let begin = format!("type {ty}, needs {needs:08X}, principal {principal}");
            (begin, String::new())
        }
        Err(Refusal { cause, place }) => {
            let begin = format!("refused, {} (", cause.number());
            (begin, format!(") at {place}"))
        }
    };
    let word = printed.strip_prefix(&begin).expect(&begin);
    let word = word.strip_suffix(&end).expect(&end);
    assert_eq!(word.is_empty(), end.is_empty(), "{printed}");
}

/// The draft's smallest faulty piece is the one that the readme prints, with the
/// records of its terms, and mended as the readme says the next one is told, and
/// in the end none.
#[test]
fn the_draft_has_the_piece_shown() {
    let directory = repository().join("examples");
    if !directory.exists() {
        return;
    }
    let mut draft = bytes(&read(&directory.join("draft.hex")));
    let shown = read(&directory.join("README.md"));
    let print = block(section(&shown, "Pieces").expect("a section"), "text").expect("a print");
    let found = piece(&draft).expect("a readable sheet").expect("a piece");
    let first = typecheck(&draft).expect_err("a refusal");
    let begin = format!(
        "refused, {} (needs of a body) at {}\n\
         smallest faulty piece: {} (argument) at {}, terms {}\n",
        first.cause.number(),
        first.place,
        found.fault.number(),
        found.term,
        found.count
    );
    let mut lines = print.strip_prefix(&begin).expect(&begin).lines();
    for line in lines.by_ref().take(found.count) {
        let (number, rest) = line.trim_start().split_once(": ").expect("a term");
        let (_, rest) = rest.split_once(", ").expect("its kind");
        let (record, judgement) = rest.split_once(": ").expect("its record");
        let number: TermId = number.parse().expect("a number");
        let below = 8 * usize::from(found.term - number);
        let place = found.record.start - below..found.record.end - below;
        assert_eq!(bytes(record), draft[place], "the record of {number}");
        is_judgement_of(&draft, number.into(), judgement);
    }
    are_judgements_of(&draft, lines);
    the_gate_asks_for_the_print_of("Pieces");

    let record = |number: TermId| found.record.start - 8 * usize::from(found.term - number);
    let mends = [
        (record(38), 0x0D, 0x0B, Some((34, 6, 10))),
        (record(31), 0x0B, 0x0D, Some((18, 9, 12))),
        (record(18) + 3, 2, 3, None),
    ];
    for (place, old, new, next) in mends {
        assert_eq!(draft[place], old);
        draft[place] = new;
        let found = piece(&draft).expect("a readable sheet");
        let found = found.map(|it| (it.term, it.count, it.fault.number()));
        assert_eq!(found, next);
    }
    let mended = report(&draft);
    assert!(mended.contains("\nneeds 00000000\n"), "{mended}");
    assert!(mended.contains("\nend num 99 "), "{mended}");
}

/// The lean form of the choice is the example beside it and what the readme
/// prints; and that of `needs.hex` ends on the empty stack, as the readme says.
#[test]
fn the_choice_has_the_lean_form_shown() {
    let directory = repository().join("examples");
    if !directory.exists() {
        return;
    }
    let sheet = |name| bytes(&read(&directory.join(name)));
    let lean = erase(&sheet("choice.hex")).expect("a lean form");
    assert_eq!(lean.bytes, sheet("choice-lean.hex"));
    // As the readme says of its terms.
    let numbers = (0..=9).chain(11..=16).chain(18..=20).zip(0..);
    for (old, new) in numbers {
        assert_eq!(lean.numbers[old], Some(new));
    }
    assert_eq!((lean.numbers[10], lean.numbers[17]), (None, None));

    let shown = read(&directory.join("README.md"));
    let print = block(section(&shown, "Lean").expect("a section"), "text").expect("a print");
    assert_eq!(bytes(print), lean.bytes);
    the_gate_asks_for_the_print_of("Lean");

    let needs = sheet("needs.hex");
    let lean = erase(&needs).expect("a lean form").bytes;
    assert!(report(&needs).contains("\nstop 17 at 2 "));
    assert!(report(&lean).contains("\nend num 7 "));
}

/// The readme's print tells which of its sheets name the release; and what it
/// says of `leftover.hex` is so.
#[test]
fn the_release_is_withdrawn_from_the_sheets_shown() {
    let directory = repository().join("examples");
    if !directory.exists() {
        return;
    }
    let sheet = |name: &str| bytes(&read(&directory.join(name)));
    let shown = read(&directory.join("README.md"));
    let section = section(&shown, "Withdrawing").expect("a section");
    let print = block(section, "text").expect("a print");
    let lines = print.lines().filter(|line| !line.starts_with(' '));
    for line in lines {
        let (path, printed) = line.split_once(": ").expect("a file");
        let name = path.strip_prefix("examples/").expect("an example");
        let naming = names(&sheet(name), 0).expect("a readable sheet");
        let expected = match naming {
            Naming::Unnamed => "no term names it".to_string(),
            Naming::By(term) => format!("term {term} names it"),
        };
        assert_eq!(printed, expected, "{name}");
    }
    the_gate_asks_for_the_print_of("Withdrawing");

    let leftover = sheet("leftover.hex");
    assert_eq!(names(&leftover, 1), Ok(Naming::By(4)));
    let ended_from = |start: &[u32]| {
        let request = Request {
            start,
            ..Request::LARGEST
        };
        let (mut cells, mut posts) = (vec![0; MAX_CELL_BYTES], vec![0; MAX_POSTS]);
        let run = run_eager(&leftover, &request, &mut cells, &mut posts).unwrap();
        (run.outcome, run.posts)
    };
    let end = |value, posts| (Outcome::End(Plain::Number(value)), posts);
    assert_eq!([&[0, 3], &[0, 2]].map(|it| ended_from(it)), [end(42, 2); 2]);
    assert_eq!([ended_from(&[0, 1]), ended_from(&[])], [end(40, 1); 2]);
}

/// 34 is told of no sheet. The record in the call is the example's, a byte short.
#[test]
fn the_refusal_of_a_record_is_that_of_the_call_shown() {
    let directory = repository();
    if !directory.join("docs").exists() || !directory.join("examples").exists() {
        return;
    }
    let shown = read(&directory.join("docs/REFUSALS.md"));
    let section = section(&shown, "34").expect("a section");
    let example = read(&directory.join("examples/c/compare.c"));
    let [office, dropped] = ["office", "dropped"].map(|name| record_in(&example, name));
    let short = dropped.len() - 1;
    let refusal = compare(&dropped[..short], &office).expect_err("a refusal");
    let office = office.len();
    let call = format!("sovzedal_compare(dropped, {short}, office, {office}, answer, 8);\n");
    assert_eq!(block(section, "c"), Some(&*call));
    assert_eq!(block(section, "text"), Some(&*refused(refusal)));
}

/// A run of the frame decides what the readme prints, by either runner, and so
/// is it held against itself; `needs.hex` is stopped at its last entry.
#[test]
fn the_frame_is_recorded_as_shown() {
    let directory = repository().join("examples");
    if !directory.exists() {
        return;
    }
    let recorded = |name| {
        let sheet = bytes(&read(&directory.join(name)));
        let (mut cells, mut posts) = (vec![0; MAX_CELL_BYTES], [0; MAX_POSTS]);
        let (mut frames, mut record) = (vec![0; FRAME_NUMBERS], vec![0; 4_000]);
        let result = record_lazy(
            &sheet,
            &Request::LARGEST,
            &mut cells,
            &mut posts,
            &mut frames,
            &mut record,
        );
        let result = result.expect("a run that starts");
        record.truncate(result.entries * ENTRY_BYTES);
        (result.run.outcome, record)
    };
    let (outcome, office) = recorded("frame.hex");
    let Outcome::End(Plain::Number(value)) = outcome else {
        panic!("{outcome:?}");
    };
    let mut print = format!("ended in {value}\n");
    let entries = office.chunks(ENTRY_BYTES);
    for (number, entry) in entries.clone().enumerate() {
        let term = u16::from_be_bytes([entry[0], entry[1]]);
        let yes = if entry[3] == 1 { "yes" } else { "no" };
        print += &format!(
            "entry {number}: term {term}, privilege {}, {yes}\n",
            entry[2]
        );
    }
    let mut unit = entries.step_by(2).collect::<Vec<_>>().concat();
    for name in ["every second entry dropped", "the last one turned"] {
        print += &match compare(&unit, &office) {
            Ok(Comparison::Fits { missing }) => format!("{name}: fits, {missing} missing\n"),
            Ok(Comparison::Diverges { entry }) => {
                format!("{name}: does not fit from entry {entry} on\n")
            }
            Err(refusal) => panic!("{refusal:?}"),
        };
        *unit.last_mut().expect("an entry") ^= 1;
    }
    let shown = read(&directory.join("README.md"));
    let section = section(&shown, "Recorded").expect("a section");
    assert_eq!(block(section, "text"), Some(&*print));
    the_gate_asks_for_the_print_of("Recorded");

    let (outcome, record) = recorded("needs.hex");
    let stop = Stop {
        cause: Cause::RefusedCheck,
        term: 2,
    };
    assert_eq!(outcome, Outcome::Stop(stop));
    assert_eq!(record, [0, 2, 1, 0]);
}

/// The records of the example in C are compared as the readme shows.
#[test]
fn the_records_are_compared_as_shown() {
    let directory = repository().join("examples");
    if !directory.exists() {
        return;
    }
    let example = read(&directory.join("c/compare.c"));
    let names = ["office", "dropped", "otherwise", "swapped"];
    let mut records = names.map(|name| record_in(&example, name)).to_vec();
    let office = records[0].clone();
    let mut cut = records[1].clone();
    cut.pop();
    records.push(cut);
    let results = records.iter().map(|unit| match compare(unit, &office) {
        Ok(Comparison::Fits { missing }) => format!("fits, {missing} missing"),
        Ok(Comparison::Diverges { entry }) => format!("does not fit from entry {entry} on"),
        Err(refusal) => format!("refused, {}", refusal.cause.number()),
    });
    let results = results.zip(&records);
    let results = results.map(|(result, unit)| format!("{} bytes: {result}", unit.len()));
    let shown = read(&directory.join("README.md"));
    let print = block(section(&shown, "Records").expect("a section"), "text").expect("a print");
    let printed = print.lines().map(|line| {
        let (_, rest) = line.split_once(", ").expect("a name");
        rest.to_string()
    });
    assert_eq!(
        results.collect::<Vec<String>>(),
        printed.collect::<Vec<String>>()
    );
    the_gate_asks_for_the_print_of("Records");
}

/// 35 and 36 are told of runs over ranges, which are shown with their sheets.
#[test]
fn the_runs_over_ranges_are_those_of_the_calls_shown() {
    let path = repository().join("docs/REFUSALS.md");
    if !path.exists() {
        return;
    }
    let shown = read(&path);
    for cause in [Cause::Ranges, Cause::Undecided] {
        let section = section(&shown, &cause.number().to_string()).expect("a section");
        let sheet = bytes(block(section, "hex").expect("a sheet"));
        let calls = block(section, "c").expect("a call");
        let (pairs, call) = calls.split_once(" };\n\n").expect("pairs");
        let pairs = pairs.strip_prefix("uint16_t pairs[] = { ").expect("pairs");
        let pairs: Vec<u16> = pairs.split(", ").map(|it| it.parse().unwrap()).collect();
        let query = format!(
            "sovzedal_run_ranges(sheet, {}, pairs, {}, start, 0, {MAX_CALLS}, {MAX_OPEN_CALLS}, 1, \
             cells, {MAX_CELL_BYTES}, posts, {MAX_POSTS}, answer, 8);\n",
            sheet.len(),
            pairs.len()
        );
        assert_eq!(call, query);
        let reply = Reply::from(over_ranges(&sheet, &pairs).0);
        assert_eq!(reply.answer[0], cause.number());
        assert_eq!(block(section, "text"), Some(&*in_words(reply)));
        // As is said of other pairs below the call.
        let mended = match cause {
            Cause::Ranges => vec![20, 24],
            _ => vec![20, 23, 24, 24],
        };
        let outcome = over_ranges(&sheet, &mended)
            .0
            .expect("a run that starts")
            .outcome;
        let [lowest, highest] = [20, 24];
        let expected = match cause {
            Cause::Ranges => Plain::Number(Range { lowest, highest }),
            _ => Plain::Bool(Truth::No),
        };
        assert_eq!(outcome, Outcome::End(expected));
    }
}

/// A run with the largest allowances and buffers, and its posts.
fn over_ranges(sheet: &[u8], pairs: &[u16]) -> (Result<RangeRun, Refusal>, Vec<u32>) {
    let (mut cells, mut posts) = (vec![0; MAX_CELL_BYTES], vec![0; MAX_POSTS]);
    let result = run_ranges(sheet, pairs, &Request::LARGEST, &mut cells, &mut posts);
    posts.truncate(result.map_or(0, |run| run.posts as usize));
    (result, posts)
}

/// The number of an undecided end.
fn undecided_value() -> usize {
    let run = RangeRun {
        outcome: Outcome::End(Plain::Bool(Truth::Undecided)),
        calls: 0,
        cells: 0,
        posts: 0,
    };
    Reply::from(run).answer[3] as usize
}

/// The frame is run before grading as the readme shows, by the limits in the
/// commands there.
#[test]
fn the_frame_is_graded_as_shown() {
    let directory = repository().join("examples");
    if !directory.exists() {
        return;
    }
    let sheet = bytes(&read(&directory.join("grading.hex")));
    let shown = read(&directory.join("README.md"));
    let mut rest = section(&shown, "Members").expect("a section");
    let mut prints = Vec::new();
    while let Some((_, command)) = rest.split_once("target/grading examples/grading.hex ") {
        let (limits, after) = command.split_once('\n').expect("a line");
        let print = block(after, "text").expect("a print");
        assert_eq!(graded(&sheet, limits), print);
        prints.push(print);
        rest = after;
    }
    assert_eq!(prints.len(), 2);
    let gate = repository().join(".ci/examples");
    if gate.exists() {
        let gate = read(&gate);
        assert!(prints.iter().all(|print| gate.contains(print)));
    }
    // As the readme says: 14 is enough.
    let better = graded(&sheet, "0=14-24 1=28-30 2=18-22");
    assert!(better.starts_with("within limits: ended in 0 to 16,"));
    let short_of_it = graded(&sheet, "0=13-24 1=28-30 2=18-22");
    assert!(short_of_it.starts_with("within limits: stopped, 36 "));
}

/// What the example in C prints for limits `TERM=LOWEST-HIGHEST`.
fn graded(sheet: &[u8], limits: &str) -> String {
    let terms = decode(sheet).expect("a readable sheet").terms;
    let is_number = |&id: &usize| matches!(terms[id], Term::Number(_));
    let numbered: Vec<usize> = (0..terms.len()).filter(is_number).collect();
    let [mut lowest, mut highest] = [numbers_of(sheet), numbers_of(sheet)];
    for argument in limits.split(' ') {
        let (term, range) = argument.split_once('=').expect("a term");
        let (low, high) = range.split_once('-').expect("limits");
        let place = numbered.iter().position(|id| id.to_string() == term);
        let place = place.expect("a number term");
        (lowest[place], highest[place]) = (low.parse().unwrap(), high.parse().unwrap());
    }
    let pairs = lowest.iter().zip(&highest);
    let pairs: Vec<u16> = pairs.flat_map(|(&low, &high)| [low, high]).collect();
    let (result, posts) = over_ranges(sheet, &pairs);
    let mut print = outcome_line("within limits", result.into(), &posts, |range| {
        match (range >> 16, range & 0xFFFF) {
            (low, high) if low == high => low.to_string(),
            (low, high) => format!("{low} to {high}"),
        }
    });
    for (name, numbers) in [("all lowest", lowest), ("all highest", highest)] {
        let (mut cells, mut posts) = (vec![0; MAX_CELL_BYTES], vec![0; MAX_POSTS]);
        let chosen = with_numbers(sheet, &numbers);
        let result = run_eager(&chosen, &Request::LARGEST, &mut cells, &mut posts);
        posts.truncate(result.map_or(0, |run| run.posts as usize));
        print += &outcome_line(name, result.into(), &posts, |number| number.to_string());
    }
    print
}

/// A line of that example, for an end in a number or a stop by 36.
fn outcome_line(name: &str, reply: Reply, posts: &[u32], number: fn(u32) -> String) -> String {
    let [cause, place, _, value, calls, cells, ..] = reply.answer;
    let outcome = match cause {
        0 => format!("ended in {}", number(value)),
        _ => format!("stopped, {cause} (undecided condition) at {place}"),
    };
    let posts: Vec<String> = posts.iter().map(|&post| number(post)).collect();
    let posts = posts.join(", ");
    format!("{name}: {outcome}, calls {calls}, cells {cells}, posts {posts}\n")
}

/// A record of the example in C.
fn record_in(example: &str, name: &str) -> Vec<u8> {
    let begin = format!("{name}[] = {{\n");
    let (_, table) = example.split_once(&*begin).expect("a record");
    let (table, _) = table.split_once("};").expect("its end");
    let entries = table.split("ENTRY(").skip(1);
    entries.flat_map(|text| entry(text).to_bytes()).collect()
}

/// From the three numbers at the beginning of `text`, with a parenthesis behind.
fn entry(text: &str) -> Entry {
    let (numbers, _) = text.split_once(')').expect("a parenthesis");
    let numbers = numbers
        .split(", ")
        .map(|number| number.parse().expect("a number"));
    let numbers: Vec<u16> = numbers.collect();
    Entry {
        term: numbers[0],
        privilege: numbers[1] as u8,
        yes: numbers[2] == 1,
    }
}

/// The bytes of a table in C, from `begin` on, without their comments.
fn table(text: &str, begin: &str) -> Vec<u8> {
    let (_, table) = text.split_once(begin).expect("a table");
    let (table, _) = table.split_once("};").expect("its end");
    let digits: String = table
        .lines()
        .flat_map(|line| line.split("/*").next())
        .flat_map(|line| line.split("0x").skip(1))
        .map(|byte| &byte[..2])
        .collect();
    bytes(&digits)
}

/// In the section of the readme whose heading begins with this word.
fn the_gate_asks_for_the_print_of(word: &str) {
    let shown = read(&repository().join("examples/README.md"));
    let section = section(&shown, word).expect("a section");
    let print = block(section, "text").expect("what it prints");
    let gate = repository().join(".ci/examples");
    if gate.exists() {
        assert!(read(&gate).contains(print), "the gate asks for this print");
    }
}

fn header() -> Option<String> {
    let path = repository().join("include/sovzedal.h");
    path.exists().then(|| read(&path))
}

fn read(path: &Path) -> String {
    fs::read_to_string(path).unwrap_or_else(|error| panic!("{}: {error}", path.display()))
}

/// The section whose heading begins with this word.
fn section<'a>(text: &'a str, word: &str) -> Option<&'a str> {
    text.split("\n## ")
        .skip(1)
        .find(|section| section.split_whitespace().next() == Some(word))
}

/// The first fenced block of this language, without its fences.
fn block<'a>(section: &'a str, language: &str) -> Option<&'a str> {
    let (_, rest) = section.split_once(&format!("```{language}\n"))?;
    let (block, _) = rest.split_once("```")?;
    Some(block)
}

/// The bytes of a .hex text: two digits a byte, blanks and comments skipped.
fn bytes(text: &str) -> Vec<u8> {
    let digits: Vec<u8> = text
        .lines()
        .flat_map(|line| line.chars().take_while(|&c| c != '#'))
        .filter(|c| !c.is_whitespace())
        .map(|c| c.to_digit(16).expect("a hexadecimal digit") as u8)
        .collect();
    assert!(digits.len().is_multiple_of(2), "half a byte");
    digits
        .chunks(2)
        .map(|pair| pair[0] << 4 | pair[1])
        .collect()
}

/// The program's print or, for a request that it never makes and a stop that
/// no accepted sheet has, the run in the same words.
fn print_of(case: &Smallest) -> String {
    match case.cause {
        14..=16 | 18 => run(case),
        _ => report(&case.sheet),
    }
}

fn run(case: &Smallest) -> String {
    let query = &case.request;
    let request = Request {
        start: &query.start,
        calls: query.calls,
        open_calls: query.open_calls,
        checks: Checks::Enforced,
    };
    let (mut cells, mut posts) = (vec![0; query.cell_bytes], vec![0; query.posts]);
    let run = run_eager(&case.sheet, &request, &mut cells, &mut posts);
    in_words(run.into())
}

/// A refusal or a stop, as the program prints it.
fn in_words(reply: Reply) -> String {
    let [cause, place, _, _, calls, cells, posts, held] = reply.answer;
    match reply.status {
        1 => format!(
            "stop {cause} at {place} calls {calls} cells {cells} posts {posts} held {held}\n"
        ),
        2 => format!("refused {cause} at {place}\n"),
        _ => panic!("the run ends: {reply:?}"),
    }
}
