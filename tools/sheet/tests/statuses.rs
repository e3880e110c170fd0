//! Exit statuses, messages, and what is written where.

mod common;

use std::ffi::OsStr;
use std::fs;
use std::io::{self, Write};
use std::os::unix::ffi::OsStrExt;
use std::process::Command;

use common::{ask, directory, example};
use sheet::library::MAX_SHEET;

const COMMANDS: [&str; 9] = [
    "show", "check", "run", "why", "names", "lean", "compare", "dump", "build",
];

#[test]
fn each_command_has_its_help() {
    for command in COMMANDS {
        for option in ["--help", "-h"] {
            let said = ask(&[command, option], b"");
            assert_eq!((said.status, said.errors.as_str()), (0, ""));
            assert!(
                said.text().starts_with(&format!("usage: sheet {command} ")),
                "{command}"
            );
        }
    }
    for word in ["--help", "-h", "help"] {
        let said = ask(&[word], b"");
        assert_eq!(said.status, 0);
        assert!(COMMANDS
            .iter()
            .all(|command| said.text().contains(&format!("\n  {command} "))));
    }
}

#[test]
fn help_is_not_wider_than_a_terminal() {
    for command in COMMANDS {
        let help = ask(&[command, "--help"], b"").text();
        assert!(
            help.lines().all(|line| line.chars().count() <= 80),
            "{command}"
        );
    }
}

#[test]
fn what_is_no_request_is_2() {
    let hello = example("hello.hex");
    let requests: [&[&str]; 16] = [
        &[],
        &["look"],
        &["show"],
        &["show", &hello, &hello],
        &["show", "--lazy", &hello],
        &["show", "--names"],
        &["run", "--calls", "many", &hello],
        &["run", "--calls", "-1", &hello],
        &["run", "--calls", "1", "--calls", "1", &hello],
        &["run", "--start", "stamp", &hello],
        &["run", "--start", "0:32", &hello],
        &["run", "--pairs", "-", "--lazy", &hello],
        &["why", &hello, "stamp"],
        &["lean", &hello],
        &["build", &hello],
        &["compare", "-", "-"],
    ];
    for words in requests {
        let said = ask(words, b"");
        assert_eq!((said.status, said.output.len()), (2, 0), "{words:?}");
        assert!(
            said.errors.starts_with("sheet") && said.errors.contains("--help"),
            "{words:?}: {}",
            said.errors
        );
    }
}

#[test]
fn a_file_that_cannot_be_read_is_2_and_named() {
    let files = directory("cannot_be_read");
    let text = files.join("text.hex");
    fs::write(&text, "01 0002\n00g1 # version\n").unwrap();
    let odd = files.join("odd.hex");
    fs::write(&odd, "01 0\n# end\n").unwrap();
    let names = files.join("names");
    fs::write(&names, "privilege 0 stamp\nprivilege 0 seal\n").unwrap();
    let errors_of = |words: &[&str]| {
        let said = ask(words, b"");
        assert_eq!((said.status, said.output.len()), (2, 0), "{words:?}");
        said.errors
    };
    let (text, odd, names) = (
        text.to_str().unwrap(),
        odd.to_str().unwrap(),
        names.to_str().unwrap(),
    );
    assert!(errors_of(&["show", "missing"]).starts_with("sheet show: missing: No such file"));
    assert!(errors_of(&["show", files.to_str().unwrap()]).contains("Is a directory"));
    assert!(
        errors_of(&["check", text]).ends_with("text.hex: line 2: 'g' is no hexadecimal digit\n")
    );
    assert!(errors_of(&["build", odd, "-o", "-"])
        .ends_with("odd.hex: line 1: the last byte has one digit of two\n"));
    assert!(errors_of(&["show", "--names", names, text])
        .ends_with("names: line 2: 0 has a name already\n"));
    assert!(
        errors_of(&["lean", &example("hello.hex"), "-o", "missing/out"])
            .contains("missing/out: No such file")
    );
}

#[test]
fn refused_or_stopped_is_1() {
    for command in ["show", "check"] {
        assert_eq!(ask(&[command, &example("unauthorised.hex")], b"").status, 1);
        assert_eq!(ask(&[command, &example("needs.hex")], b"").status, 0);
    }
    assert_eq!(ask(&["run", &example("needs.hex")], b"").status, 1);
    assert_eq!(
        ask(&["why", &example("unauthorised.hex"), "1"], b"").status,
        1
    );
    assert_eq!(ask(&["why", &example("needs.hex"), "1"], b"").status, 0);
    assert_eq!(ask(&["why", &example("hello.hex"), "1"], b"").status, 0);
}

#[test]
fn standard_input_is_a_sheet_or_hex() {
    let text = fs::read(example("hello.hex")).unwrap();
    assert_eq!(ask(&["check", "--hex", "-"], &text).status, 0);
    let bytes = ask(&["build", "-", "-o", "-"], &text).output;
    assert_eq!(bytes.len(), 78);
    assert_eq!(ask(&["check", "-"], &bytes).status, 0);
    let hint = "; it looks like hexadecimal text, which --hex reads\n";
    for text in [&text[..], b"\n01 0002", b"01 0002", b"fF 0002"] {
        let said = ask(&["check", "-"], text).text();
        assert!(said.starts_with("refused: 2, wrong tag\n"));
        assert!(said.ends_with(hint), "{said}");
    }
    for bytes in [&b"g1 0002"[..], &[1, 0, 2, 0, 1, b'0', b'3', b'#']] {
        let said = ask(&["check", "-"], bytes).text();
        assert!(said.starts_with("refused: 2, wrong tag\n"));
        assert!(!said.contains("hexadecimal"), "{said}");
    }
}

#[test]
fn the_ending_of_a_name_may_have_capitals() {
    let files = directory("capitals");
    let text = fs::read(example("hello.hex")).unwrap();
    for (name, status) in [
        ("a.hex", 0),
        ("a.HEX", 0),
        ("a.Hex", 0),
        ("ahex", 1),
        ("hex", 1),
    ] {
        let path = files.join(name);
        fs::write(&path, &text).unwrap();
        assert_eq!(ask(&["check", path.to_str().unwrap()], b"").status, status);
    }
}

#[test]
fn only_o_writes_over() {
    let files = directory("only_o");
    let record = files.join("record");
    let record = record.to_str().unwrap();
    let frame = example("frame.hex");
    assert_eq!(ask(&["run", "--record", record, &frame], b"").status, 0);
    let written = fs::read(record).unwrap();
    assert_eq!(written, [0, 4, 0, 1, 0, 33, 0, 0, 0, 20, 0, 0]);
    fs::write(record, "kept").unwrap();
    let said = ask(&["run", "--record", record, &frame], b"");
    assert_eq!((said.status, said.output.len()), (2, 0));
    assert!(said.errors.contains("record: it is there already"));
    assert_eq!(fs::read(record).unwrap(), b"kept");
    let said = ask(&["build", &frame, "-o", record], b"");
    assert_eq!(said.status, 0);
    assert_eq!(fs::read(record).unwrap()[..3], [1, 0, 2]);
}

/// A name that ends in .hex is that of text, written as well as read.
#[test]
fn no_bytes_go_into_a_file_of_text() {
    let files = directory("file_of_text");
    let path = |name: &str| files.join(name).to_str().unwrap().to_string();
    let source = path("choice.hex");
    let text = fs::read(example("choice.hex")).unwrap();
    fs::write(&source, &text).unwrap();
    for out in [&source, &path("out.hex"), &path("out.HEX")] {
        let said = ask(&["build", &source, "-o", out], b"");
        assert_eq!((said.status, said.output.len()), (2, 0));
        let why = ": a file of this name has hexadecimal text, and bytes are to be written\n";
        assert!(said.errors.ends_with(why), "{}", said.errors);
    }
    assert_eq!(fs::read(&source).unwrap(), text);
    assert!(!files.join("out.hex").exists() && !files.join("out.HEX").exists());
    let (lean, bytes) = (path("lean.hex"), path("lean"));
    for out in [&lean, &bytes] {
        let said = ask(&["lean", &source, "-o", out], b"");
        assert_eq!((said.status, said.errors.as_str()), (0, ""));
    }
    assert!(fs::read_to_string(&lean).unwrap().contains("# version\n"));
    let built = ask(&["build", &lean, "-o", "-"], b"").output;
    assert_eq!(built, fs::read(&bytes).unwrap());
}

#[test]
fn what_was_read_is_not_written_over() {
    let files = directory("was_read");
    let path = |name: &str| files.join(name).to_str().unwrap().to_string();
    let (sheet, text, names) = (path("sheet"), path("sheet.hex"), path("names"));
    fs::write(&text, fs::read(example("choice.hex")).unwrap()).unwrap();
    fs::write(&names, "privilege 0 stamp\n").unwrap();
    assert_eq!(ask(&["build", &text, "-o", &sheet], b"").status, 0);
    std::os::unix::fs::symlink(&sheet, path("link")).unwrap();
    let requests: [&[&str]; 5] = [
        &["lean", &sheet, "-o", &sheet],
        &["lean", &sheet, "-o", &path("./sheet")],
        &["lean", &sheet, "-o", &path("link")],
        &["lean", &text, "-o", &text],
        &["lean", "--names", &names, &sheet, "-o", &names],
    ];
    let kept = [&sheet, &text, &names].map(|path| fs::read(path).unwrap());
    for words in requests {
        let said = ask(words, b"");
        assert_eq!((said.status, said.output.len()), (2, 0), "{words:?}");
        assert!(
            said.errors
                .ends_with(": it was read, and is not written over\n"),
            "{}",
            said.errors
        );
    }
    let piped = Command::new(env!("CARGO_BIN_EXE_sheet"))
        .args(["lean", "-", "-o", &sheet])
        .stdin(fs::File::open(&sheet).unwrap())
        .output()
        .expect("it runs");
    assert_eq!(piped.status.code(), Some(2));
    assert_eq!(
        kept,
        [&sheet, &text, &names].map(|path| fs::read(path).unwrap())
    );
}

/// Where standard output has data, a refusal or stop is told on standard error.
#[test]
fn refusals_stay_out_of_data() {
    let frame = example("frame.hex");
    let refused: [&[&str]; 3] = [
        &["lean", &frame, "-o", "-"],
        &["lean", &example("unauthorised.hex"), "-o", "-"],
        &["run", "--calls", "5000", "--record", "-", &frame],
    ];
    for words in refused {
        let said = ask(words, b"");
        assert_eq!((said.status, said.output.len()), (1, 0), "{words:?}");
        assert!(said.errors.starts_with("refused: "), "{}", said.errors);
    }
    let stopped = ask(&["run", "--record", "-", &example("needs.hex")], b"");
    assert_eq!((stopped.status, stopped.output.len()), (1, 4));
    assert!(stopped.errors.starts_with("stopped: 17, "));
    let ended = ask(&["run", "--record", "-", &frame], b"");
    assert_eq!((ended.status, ended.output.len()), (0, 12));
    assert_eq!(ended.errors, "");
}

/// Of an input longer than any sheet no more is read than tells that.
#[test]
fn a_longer_input_is_not_counted() {
    for extra in [1, 2, 50_000] {
        let bytes = [&longest_version_2()[..], &vec![0; extra]].concat();
        let shown = ask(&["show", "-"], &bytes).text();
        let title = "standard input: more than 10913 bytes, version 2, 32 principals";
        assert!(shown.starts_with(title), "{shown}");
        assert!(shown.ends_with("=> the bytes from 10913 on are not read\n"));
        let page = ask(&["show", "--html", "-"], &bytes).text();
        assert!(page.contains(">more than 10913 bytes, "));
        assert!(page.contains("The bytes from 10913 on are not read."));
        assert!(page.contains("<p class=\"bytes\">00 …</p>"));
    }
    let foreign = ask(&["show", "-"], &[9; 20_000]).text();
    assert!(foreign.contains("more than 10913 bytes"));
    assert!(foreign.ends_with("=> the bytes from 0 on are not read\n"));
}

/// As long as a sheet can be, with terms that need not be in order.
fn longest_version_2() -> Vec<u8> {
    let counts = [(1, 2), (2, 128), (3, 2_560), (4, 8_192), (5, 16)];
    let mut bytes = Vec::new();
    for (tag, length) in counts {
        bytes.push(tag);
        bytes.extend(u16::to_be_bytes(length));
        match tag {
            1 => bytes.extend([0, 2]),
            _ => bytes.extend(vec![0; length.into()]),
        }
    }
    assert_eq!(bytes.len(), MAX_SHEET);
    bytes
}

/// A run that is refused leaves no record.
#[test]
fn nothing_is_written_of_a_refused_run() {
    let record = directory("refused_run").join("record");
    let said = ask(
        &[
            "run",
            "--calls",
            "5000",
            "--record",
            record.to_str().unwrap(),
            &example("frame.hex"),
        ],
        b"",
    );
    assert_eq!(said.status, 1);
    assert!(!record.exists());
}

#[test]
fn records_are_compared() {
    let files = directory("compared");
    let file = |name: &str, bytes: &[u8]| {
        let path = files.join(name);
        fs::write(&path, bytes).unwrap();
        path.to_str().unwrap().to_string()
    };
    let office = file("office", &[0, 4, 0, 1, 0, 33, 0, 0, 0, 20, 0, 0]);
    let dropped = file("dropped", &[0, 4, 0, 1, 0, 20, 0, 0]);
    let turned = file("turned", &[0, 4, 0, 1, 0, 33, 0, 1]);
    let cut = file("cut", &[0, 4, 0]);
    let said = |unit: &str, office: &str| ask(&["compare", unit, office], b"");
    assert_eq!(said(&office, &office).text(), "fits, 0 entries missing\n");
    assert_eq!(said(&dropped, &office).text(), "fits, 1 entry missing\n");
    assert_eq!(said(&dropped, &office).status, 0);
    let misfit = "does not fit from the unit's entry 1 on, counted from 0: at term 33, privilege 0 granted\n";
    assert_eq!(said(&turned, &office).text(), misfit);
    assert_eq!(said(&turned, &office).status, 1);
    for (unit, office) in [(&cut, &office), (&office, &cut)] {
        let said = said(unit, office);
        assert_eq!(said.status, 1);
        assert!(
            said.text().lines().next().unwrap().ends_with("/cut"),
            "{}",
            said.text()
        );
    }
}

/// Nobody reads the output any more: no panic and no message.
#[test]
fn a_closed_output_is_2() {
    struct Closed;
    impl Write for Closed {
        fn write(&mut self, _: &[u8]) -> io::Result<usize> {
            Err(io::ErrorKind::BrokenPipe.into())
        }
        fn flush(&mut self) -> io::Result<()> {
            Ok(())
        }
    }
    let words = ["show".into(), example("hello.hex").into()];
    let mut errors = Vec::new();
    assert_eq!(
        sheet::sheet(&words, &mut io::empty(), &mut Closed, &mut errors),
        2
    );
    assert_eq!(errors, b"");
}

/// The command itself, as a shell would call it.
#[test]
fn the_command_has_the_same_statuses() {
    let command = |words: &[&OsStr]| {
        let output = Command::new(env!("CARGO_BIN_EXE_sheet"))
            .args(words)
            .output()
            .expect("it runs");
        (output.status.code(), output.stdout, output.stderr)
    };
    let unauthorised = example("unauthorised.hex");
    let words = [OsStr::new("check"), OsStr::new(&unauthorised)];
    let expected = ask(&["check", &unauthorised], b"");
    assert_eq!(command(&words), (Some(1), expected.output, Vec::new()));
    assert_eq!(command(&[OsStr::new("--help")]).0, Some(0));
    let foreign = OsStr::from_bytes(b"\xFF\xFE");
    for words in [
        &[foreign][..],
        &[OsStr::new("show"), foreign],
        &[OsStr::new("why"), OsStr::new("x"), foreign],
    ] {
        let (status, output, errors) = command(words);
        assert_eq!((status, output.len()), (Some(2), 0));
        assert!(!errors.is_empty());
    }
}
