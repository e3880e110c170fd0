//! What the sheets and runs have to do with channels and guards, and what has
//! to happen.

use differential::{Coverage, Entry, Query, ANSWER_NUMBERS};
use sheets::records::{CHANNELS, UNGUARDED};
use sheets::request::{MAX_CALLS, MAX_CELL_BYTES, MAX_OPEN_CALLS, MAX_POSTS};
use sheets::tree::Kind;
use sovzedal_reference::{decode, run_eager, start_frames, typecheck};
use sovzedal_reference::{Checks, Outcome, PrincipalId, Privilege, Refusal, Request, Set, Sheet};
use sovzedal_reference::{Stop, Term, TermId};

const DONE: u32 = 0;
const STOPPED: u32 = 1;
const REFUSED: u32 = 2;

const TERM_BYTES: usize = 8;
const POST: u8 = Kind::Post as u8;

/// Tag 5 with its header.
const FIELD_BYTES: usize = 3 + CHANNELS;

/// What has to happen, beside 31 by each entry, a post on each channel and what
/// each of the runners has to do.
const EXPECTED: [&str; 40] = [
    "1 for want of tag 5",
    "1 in the header of tag 5",
    "1 in the content of tag 5",
    "2 for another tag than 5",
    "2 for bytes after tag 5",
    "2 for a tag 5 in version 1",
    "3 with a tag 5",
    "4 of tag 5",
    "6 for channel 16",
    "6 for a higher channel",
    "6 for a channel in version 1",
    "5 where 31 would follow",
    "6 where 31 would follow",
    "7 where 31 would follow",
    "8 where 31 would follow",
    "31 at channel 0",
    "31 at channel 15",
    "31 where another guard is bad",
    "31 where 9 would follow",
    "31 where 10 would follow",
    "31 where 14 would follow",
    "31 where 15 would follow",
    "31 where 16 would follow",
    "version 1 accepted",
    "version 2 accepted",
    "accepted with a guarded post",
    "accepted, and needed for a guard alone",
    "accepted, and the need of a guard is taken out",
    "11 for a guard",
    "12 for a guard",
    "17 at a post after posts",
    "17 at a post where 22 would follow",
    "18 at a guarded post",
    "18 at a post where 17 would follow",
    "22 at a guarded post",
    "22 at a guarded post, passed over",
    "passed over, a post that 17 would stop",
    "passed over, 22 at a post that 17 would stop",
    "a guarded post among others",
    "a post of 65535 on a channel",
];

/// What each of the two runners has to do.
const EXPECTED_OF_RUNS: [&str; 4] = [
    "17 at a post",
    "a guarded post passes",
    "a guarded post is passed over",
    "a run of version 2 ends",
];

/// A question, and what both implementations told.
pub struct QueryResult<'a> {
    pub query: &'a Query<'a>,
    pub returned: u32,
    pub answer: &'a [u32; ANSWER_NUMBERS],
    /// The list of posts after a run.
    pub posts: &'a [u32],
}

impl QueryResult<'_> {
    pub fn cause(&self) -> u32 {
        self.answer[0]
    }

    pub fn place(&self) -> u32 {
        self.answer[1]
    }

    pub fn is_run(&self) -> bool {
        matches!(self.query.entry, Entry::RunEager | Entry::RunLazy)
    }

    /// The entries of the posts made.
    fn made(&self) -> &[u32] {
        &self.posts[..self.answer[6] as usize]
    }
}

#[derive(Default)]
pub struct Counts(pub Coverage);

impl Counts {
    pub fn count(&mut self, result: &QueryResult) {
        match (result.returned, result.cause()) {
            (REFUSED, 31) => self.count_bad_guard(result),
            (REFUSED, 1..=8) => self.count_unreadable(result),
            (REFUSED, 11 | 12) => self.count_needs(result),
            (DONE, _) if result.query.entry == Entry::Typecheck => self.count_accepted(result),
            (DONE | STOPPED, _) if result.is_run() => self.count_run(result),
            _ => {}
        }
    }

    /// What should have happened and never did.
    pub fn never(&self) -> Vec<String> {
        let channels = (0..CHANNELS).map(on_channel);
        let entries = [
            Entry::Decode,
            Entry::Typecheck,
            Entry::RunEager,
            Entry::RunLazy,
        ];
        let refusals = entries.map(|entry| by("31", entry)).into_iter();
        let runs = EXPECTED_OF_RUNS
            .into_iter()
            .flat_map(|what| [Entry::RunEager, Entry::RunLazy].map(|entry| by(what, entry)));
        let expected = EXPECTED.map(String::from).into_iter();
        self.0
            .never(expected.chain(channels).chain(refusals).chain(runs))
    }

    fn count_unreadable(&mut self, result: &QueryResult) {
        let (sheet, cause) = (result.query.sheet, result.cause());
        match cause {
            // Of several fields it may be another's fault that is told.
            1..=4 => match fault_of_tag_5(sheet) {
                Some((due, what)) if due == cause => self.0.count(format!("{cause} {what}")),
                _ => {}
            },
            _ => {
                let follows = guards(sheet).is_some_and(|guards| guards.iter().any(is_bad));
                self.0
                    .count_if(follows, &format!("{cause} where 31 would follow"));
            }
        }
        if cause == 6 {
            self.count_channel(sheet, result.place() as usize);
        }
    }

    /// Counts a faulty record that is a post, if it is for its channel.
    fn count_channel(&mut self, sheet: &[u8], place: usize) {
        let Some(fields) = fields(sheet) else {
            return;
        };
        let at = fields.terms + TERM_BYTES * place;
        let mut mended = sheet.to_vec();
        mended[at + 1] = 0;
        let is_other =
            |refusal: Refusal| (refusal.cause.number(), refusal.place) != (6, place as u32);
        if sheet[at] != POST || !decode(&mended).err().is_none_or(is_other) {
            return;
        }
        self.0.count(match (fields.version, sheet[at + 1]) {
            (1, _) => "6 for a channel in version 1",
            (_, 16) => "6 for channel 16",
            _ => "6 for a higher channel",
        });
    }

    fn count_bad_guard(&mut self, result: &QueryResult) {
        let coverage = &mut self.0;
        let Query {
            sheet,
            request,
            entry,
            ..
        } = result.query;
        coverage.count(by("31", *entry));
        coverage.count(format!("31 at channel {}", result.place()));
        let guards = guards(sheet).expect("a sheet with guards");
        let bad = guards.iter().filter(|guard| is_bad(guard)).count();
        coverage.count_if(bad > 1, "31 where another guard is bad");
        let mended = with_guards(sheet, |guard| if is_bad(&guard) { 0 } else { guard });
        match entry {
            Entry::Typecheck => {
                if let Err(Refusal { cause, .. }) = typecheck(&mended) {
                    coverage.count(format!("31 where {} would follow", cause.number()));
                }
            }
            Entry::RunEager | Entry::RunLazy => {
                let principals = decode(&mended).expect("a readable sheet").principals.len();
                let start = start_frames(&request.start, principals);
                coverage.count_if(start.is_none(), "31 where 14 would follow");
                let buffers = request.posts > MAX_POSTS || request.cell_bytes > MAX_CELL_BYTES;
                coverage.count_if(buffers, "31 where 15 would follow");
                let allowance = request.calls > MAX_CALLS || request.open_calls > MAX_OPEN_CALLS;
                coverage.count_if(allowance, "31 where 16 would follow");
            }
            Entry::Decode => {}
        }
    }

    /// Counts a need that is too much, if it is a guard's.
    fn count_needs(&mut self, result: &QueryResult) {
        let sheet = result.query.sheet;
        if guards(sheet).is_none() {
            return;
        }
        let twin = typecheck(&with_guards(sheet, |_| UNGUARDED));
        let same = twin.is_err_and(|refusal| {
            (refusal.cause.number(), refusal.place) == (result.cause(), result.place())
        });
        self.0
            .count_if(!same, &format!("{} for a guard", result.cause()));
    }

    fn count_accepted(&mut self, result: &QueryResult) {
        let coverage = &mut self.0;
        let bytes = result.query.sheet;
        if guards(bytes).is_none() {
            return coverage.count("version 1 accepted");
        }
        coverage.count("version 2 accepted");
        let sheet = decode(bytes).expect("an accepted sheet");
        let needs = result.answer[7];
        let guarded: Vec<_> = sheet
            .terms
            .iter()
            .filter_map(|&term| guard_of(&sheet, term))
            .collect();
        coverage.count_if(!guarded.is_empty(), "accepted with a guarded post");
        let needs_of = |privilege| Set::from_bits(needs).contains(privilege);
        let taken_out = guarded.iter().any(|&privilege| !needs_of(privilege));
        coverage.count_if(taken_out, "accepted, and the need of a guard is taken out");
        let twin = typecheck(&with_guards(bytes, |_| UNGUARDED));
        let less = twin.is_ok_and(|verdict| verdict.needs.bits() != needs);
        coverage.count_if(less, "accepted, and needed for a guard alone");
    }

    fn count_run(&mut self, result: &QueryResult) {
        if guards(result.query.sheet).is_none() {
            return;
        }
        let sheet = decode(result.query.sheet).expect("a sheet that runs");
        self.count_posts(result, &sheet);
        if result.returned == DONE {
            return self
                .0
                .count(by("a run of version 2 ends", result.query.entry));
        }
        let term = result.place() as TermId;
        if let Term::Post { .. } = sheet.term(term) {
            self.count_stop_at_post(result, &sheet, term);
        }
    }

    fn count_posts(&mut self, result: &QueryResult, sheet: &Sheet) {
        let coverage = &mut self.0;
        let is_guarded = |entry: &&u32| sheet.guard((**entry >> 16) as u8).is_some();
        for &entry in result.made() {
            coverage.count(on_channel((entry >> 16) as usize));
            let highest = entry >> 16 > 0 && entry & 0xFFFF == 0xFFFF;
            coverage.count_if(highest, "a post of 65535 on a channel");
        }
        let guarded = result.made().iter().filter(is_guarded).count();
        if guarded == 0 {
            return;
        }
        coverage.count_if(guarded < result.made().len(), "a guarded post among others");
        if result.query.enforce != 0 {
            return coverage.count(by("a guarded post passes", result.query.entry));
        }
        coverage.count(by("a guarded post is passed over", result.query.entry));
        let stops = refused_at_a_post(result.query, sheet);
        coverage.count_if(stops.is_some(), "passed over, a post that 17 would stop");
    }

    fn count_stop_at_post(&mut self, result: &QueryResult, sheet: &Sheet, term: TermId) {
        let coverage = &mut self.0;
        let enforced = result.query.enforce != 0;
        let guard = guard_of(sheet, sheet.term(term));
        let is_full = result.made().len() == result.posts.len();
        match result.cause() {
            17 => {
                coverage.count(by("17 at a post", result.query.entry));
                coverage.count_if(!result.made().is_empty(), "17 at a post after posts");
                coverage.count_if(is_full, "17 at a post where 22 would follow");
            }
            18 => {
                let Some(guard) = guard else {
                    return;
                };
                coverage.count("18 at a guarded post");
                let may_use = sheet.authorised(signer(sheet, term)).contains(guard);
                coverage.count_if(enforced && !may_use, "18 at a post where 17 would follow");
            }
            22 if guard.is_some() && enforced => coverage.count("22 at a guarded post"),
            22 if guard.is_some() => {
                coverage.count("22 at a guarded post, passed over");
                coverage.count_if(
                    refused_at_a_post(result.query, sheet) == Some(term),
                    "passed over, 22 at a post that 17 would stop",
                );
            }
            _ => {}
        }
    }
}

fn by(what: &str, entry: Entry) -> String {
    format!("{what}, by {entry:?}")
}

fn on_channel(channel: usize) -> String {
    format!("a post on channel {channel}")
}

fn is_bad(guard: &u8) -> bool {
    (32..UNGUARDED).contains(guard)
}

/// A sheet whose first four fields are whole.
struct Fields<'a> {
    version: u8,
    /// Where the terms stand.
    terms: usize,
    /// What is behind the terms.
    rest: &'a [u8],
}

/// `None` if there aren't four fields with the right tags, or the version is
/// above 255.
fn fields(sheet: &[u8]) -> Option<Fields<'_>> {
    let mut rest = sheet;
    let mut terms = 0;
    for tag in 1..=4 {
        let (&[found, high, low], behind) = rest.split_first_chunk()?;
        if found != tag {
            return None;
        }
        let length = usize::from(u16::from_be_bytes([high, low]));
        terms = sheet.len() - behind.len();
        rest = behind.get(length..)?;
    }
    match sheet[1..5] {
        [0, 2, 0, version] => Some(Fields {
            version,
            terms,
            rest,
        }),
        _ => None,
    }
}

/// The bytes of tag 5, where there is one and it is as it should be.
fn guards(sheet: &[u8]) -> Option<&[u8]> {
    match fields(sheet)? {
        Fields {
            version: 2,
            rest: [5, 0, 16, guards @ ..],
            ..
        } if guards.len() == CHANNELS => Some(guards),
        _ => None,
    }
}

/// The sheet with other guards.
fn with_guards(sheet: &[u8], other: impl Fn(u8) -> u8) -> Vec<u8> {
    let mut copy = sheet.to_vec();
    let at = copy.len() - CHANNELS;
    for guard in &mut copy[at..] {
        *guard = other(*guard);
    }
    copy
}

/// What is wrong with tag 5 of a sheet that has the four other fields, and the
/// number that it is told by.
fn fault_of_tag_5(sheet: &[u8]) -> Option<(u32, &'static str)> {
    let Fields { version, rest, .. } = fields(sheet)?;
    match (version, rest) {
        (1, [5, 0, 16, ..]) if rest.len() == FIELD_BYTES => Some((2, "for a tag 5 in version 1")),
        (1, _) => None,
        (2, []) => Some((1, "for want of tag 5")),
        (2, [_] | [_, _]) => Some((1, "in the header of tag 5")),
        (2, [5, 0, 16, ..]) if rest.len() < FIELD_BYTES => Some((1, "in the content of tag 5")),
        (2, [5, 0, 16, ..]) if rest.len() > FIELD_BYTES => Some((2, "for bytes after tag 5")),
        (2, [5, 0, 16, ..]) => None,
        (2, [5, ..]) => Some((4, "of tag 5")),
        (2, _) => Some((2, "for another tag than 5")),
        (_, [5, ..]) => Some((3, "with a tag 5")),
        _ => None,
    }
}

/// The privilege that a term takes for its channel, if it is a guarded post.
fn guard_of(sheet: &Sheet, term: Term) -> Option<Privilege> {
    match term {
        Term::Post { channel, .. } => sheet.guard(channel),
        _ => None,
    }
}

/// The principal of the nearest sign around a term that isn't the root.
fn signer(sheet: &Sheet, term: TermId) -> PrincipalId {
    let is_parent = |id: &TermId| sheet.term(*id).children().any(|child| child == term);
    let parent = (term..=sheet.root()).find(is_parent).expect("a parent");
    match sheet.term(parent) {
        Term::Sign { principal, .. } => principal,
        _ => signer(sheet, parent),
    }
}

/// The post that 17 stops, if the same is asked with checks in force.
fn refused_at_a_post(query: &Query, sheet: &Sheet) -> Option<TermId> {
    let request = Request {
        start: &query.request.start,
        calls: query.request.calls,
        open_calls: query.request.open_calls,
        checks: Checks::Enforced,
    };
    let mut cells = vec![0; query.request.cell_bytes];
    let mut posts = vec![0; query.request.posts];
    let run = run_eager(query.sheet, &request, &mut cells, &mut posts).ok()?;
    match run.outcome {
        Outcome::Stop(Stop { cause, term }) if cause.number() == 17 => {
            matches!(sheet.term(term), Term::Post { .. }).then_some(term)
        }
        _ => None,
    }
}
