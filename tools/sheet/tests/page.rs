//! The page: one file, well formed, with a box for each term.

mod common;

use common::{ask, directory, example};
use sheets::extremes::longest;
use sheets::generate::sample;
use sheets::rng::Rng;
use sheets::seed;

/// Every tag but these is closed, in turn.
const ALONE: [&str; 2] = ["meta", "!DOCTYPE"];

fn is_well_formed(page: &str) {
    let mut open = Vec::new();
    for part in page.split('<').skip(1) {
        let (tag, text) = part.split_once('>').expect("a tag ends");
        let name = tag.split_whitespace().next().expect("a tag has a name");
        assert!(!text.contains('>') || name == "style", "{part}");
        match name.strip_prefix('/') {
            Some(name) => assert_eq!(open.pop(), Some(name)),
            None if ALONE.contains(&name) => {}
            None => open.push(name),
        }
    }
    assert_eq!(open, Vec::<&str>::new());
}

fn boxes(page: &str) -> usize {
    page.matches(" id=\"t").count()
}

#[test]
fn the_examples_and_the_largest() {
    for (name, terms) in [
        ("hello.hex", 5),
        ("page.hex", 12),
        ("page-unauthorised.hex", 12),
        ("frame.hex", 37),
    ] {
        let page = ask(&["show", "--html", &example(name)], b"").text();
        is_well_formed(&page);
        assert_eq!(boxes(&page), terms, "{name}");
    }
    let page = ask(&["show", "--html", "-"], &longest()).text();
    is_well_formed(&page);
    assert_eq!(boxes(&page), 1_024);
}

#[test]
fn random_sheets() {
    let seed = seed::given_or_fresh();
    println!("SOVZEDAL_SEED={seed}");
    for index in 0..500 {
        let bytes = sample(&mut Rng::for_item(seed, index)).bytes;
        is_well_formed(&ask(&["show", "--html", "-"], &bytes).text());
    }
}

/// No two of 32 principals have line and tint alike, and the next has another line.
#[test]
fn principals_are_distinguished() {
    let page = ask(&["show", "--html", "-"], &longest()).text();
    let part = |line: &str, name: &str| {
        let (_, rest) = line.split_once(name).expect("a style");
        rest.split(';').next().expect("its value").to_string()
    };
    let styles: Vec<[String; 2]> = page
        .lines()
        .filter(|line| line.starts_with(".p"))
        .map(|line| [part(line, "--style: "), part(line, "--tint: ")])
        .collect();
    assert_eq!(styles.len(), 32);
    for (number, style) in styles.iter().enumerate() {
        assert!(!styles[..number].contains(style), "{number}");
    }
    assert!(styles.windows(2).all(|pair| pair[0][0] != pair[1][0]));
}

/// It needs nothing but itself: no script, no other file, no host.
#[test]
fn the_page_stands_alone() {
    let page = ask(&["show", "--html", &example("page.hex")], b"").text();
    for word in ["<script", "src=", "href=", "url(", "@import", "://"] {
        assert!(!page.contains(word), "{word}");
    }
}

#[test]
fn names_are_no_markup() {
    let names = directory("names_are_no_markup").join("names");
    std::fs::write(
        &names,
        "privilege 0 <script>&\nprincipal 1 \"a' onclick=b\n",
    )
    .unwrap();
    let names = names.to_str().unwrap();
    let page = ask(
        &["show", "--html", "--names", names, &example("page.hex")],
        b"",
    )
    .text();
    is_well_formed(&page);
    assert!(page.contains("&lt;script&gt;&amp;") && page.contains("&quot;a&#39; onclick=b"));
}

#[test]
fn a_fault_is_marked() {
    let page = ask(&["show", "--html", &example("page-unauthorised.hex")], b"");
    assert_eq!(page.status, 1);
    let text = page.text();
    assert_eq!(text.matches("class=\"term p0 fault\" id=\"t3\"").count(), 1);
    assert_eq!(text.matches("class=\"note\"").count(), 1);
}
