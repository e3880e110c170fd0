//! What has been asked and run, and what has to be.

use crate::sentences::{By, Question};
use crate::starts::{Change, Pair};
use differential::{Coverage, Entry, RunMode, RunResult, ANSWER_NUMBERS};
use sovzedal_reference::TermId;

const DONE: u32 = 0;
const REFUSED: u32 = 2;
const UNFIT: u32 = 3;

/// What has to happen, beside each cause that the reader can tell, all pairs
/// of runners and all changes of a start.
const EXPECTED: [&str; 46] = [
    "30",
    "30 for one that is named, but for a multiple of 32",
    "30 for one that is named, but for a multiple of 256",
    "a longer answer",
    "a short answer",
    "a short answer, and 30 would follow",
    "a short answer, and the sheet is unreadable",
    "named by a check",
    "named by a guard",
    "named by a test",
    "named by Check alone",
    "named by Guard alone",
    "named by Test alone",
    "named by several terms",
    "named by the term before the root",
    "named in several ways",
    "named, and the sheet is refused by the rules",
    "not named, and a channel is guarded by it",
    "not named, and a latent set has it",
    "not named, and a principal may use it",
    "not named, and an enable of it has an effect",
    "not named, and an enable of it is in vain",
    "not named, and nothing has to do with it",
    "not named, and the sheet is refused by the rules",
    "pair: a boolean",
    "pair: a count of held results",
    "pair: a number",
    "pair: an enable of it has an effect",
    "pair: an enable of it is in vain",
    "pair: both grant it",
    "pair: neither grants it",
    "pair: nothing else is granted",
    "pair: one of them is the empty stack",
    "pair: others are asked for",
    "pair: posts made",
    "pair: something else is granted",
    "pair: stopped by 17",
    "pair: stopped by 18",
    "pair: stopped by 19",
    "pair: stopped by 20",
    "pair: stopped by 21",
    "pair: stopped by 22",
    "pair: the first grants it",
    "pair: the second grants it",
    "pair: the sheet is accepted",
    "pair: the sheet is refused by the rules",
];

/// How many pairs of runs at least have starts that really differ, and how
/// many of these at least are of a sheet that enables the privilege, with an
/// effect.
const ENOUGH_DIFFERING: usize = 40_000;
const ENOUGH_ENABLED: usize = 12_000;

/// How many at least come out differently where the privilege is named by
/// checks alone, by tests alone or by guards alone.
const ENOUGH_PLAYING_A_PART: usize = 300;

/// A question, and what both implementations told.
pub struct Answered {
    pub is_readable: bool,
    /// The privileges that the sheet names.
    pub named: u32,
    pub privilege: u32,
    /// The length of the answer that was lent.
    pub answer: usize,
    pub returned: u32,
    /// 0 if none was told.
    pub cause: u32,
}

/// Pairs of runs of sheets that don't name the privilege.
#[derive(Default)]
pub struct Pairs {
    pub all: usize,
    /// Whose starts really differ.
    pub differing: usize,
    /// Of which the sheet enables the privilege.
    pub enabled: usize,
    /// Where that has an effect.
    pub enabled_with_effect: usize,
}

#[derive(Default)]
pub struct Counts {
    pub coverage: Coverage,
    pub pairs: Pairs,
    /// Pairs of runs that come out differently, where the privilege is named
    /// by checks, by tests and by guards alone.
    pub playing_a_part: [usize; 3],
}

impl Counts {
    pub fn count(&mut self, answered: &Answered) {
        let coverage = &mut self.coverage;
        let above = answered.privilege > 31;
        if answered.returned == UNFIT {
            coverage.count("a short answer");
            coverage.count_if(
                !answered.is_readable,
                "a short answer, and the sheet is unreadable",
            );
            coverage.count_if(
                answered.is_readable && above,
                "a short answer, and 30 would follow",
            );
            return;
        }
        coverage.count_if(answered.answer > ANSWER_NUMBERS, "a longer answer");
        match (answered.returned, answered.cause) {
            (DONE, 0) => {}
            (REFUSED, 30) => {
                let named = |k: u32| answered.named >> k & 1 == 1;
                let low = answered.privilege % 256;
                coverage.count("30");
                coverage.count_if(
                    named(answered.privilege % 32),
                    "30 for one that is named, but for a multiple of 32",
                );
                coverage.count_if(
                    low < 32 && named(low),
                    "30 for one that is named, but for a multiple of 256",
                );
            }
            (REFUSED, cause) => coverage.count(refused_by(cause, above)),
            (returned, cause) => coverage.count(format!("{returned} returned, cause {cause}")),
        }
    }

    /// Counts what was told of a privilege that there is.
    pub fn count_naming(&mut self, question: &Question, is_accepted: bool) {
        match question.naming()[..] {
            [] => self.count_unnamed(question, is_accepted),
            ref naming => self.count_named(question, naming, is_accepted),
        }
    }

    fn count_named(&mut self, question: &Question, naming: &[(TermId, By)], is_accepted: bool) {
        let coverage = &mut self.coverage;
        let (lowest, by) = naming[0];
        coverage.count(match by {
            By::Check => "named by a check",
            By::Test => "named by a test",
            By::Guard => "named by a guard",
        });
        if let Some(by) = question.named_alone_by() {
            coverage.count(format!("named by {by:?} alone"));
        }
        coverage.count_if(naming.len() > 1, "named by several terms");
        coverage.count_if(
            naming.iter().any(|&(_, other)| other != by),
            "named in several ways",
        );
        coverage.count_if(
            lowest + 1 == question.sheet.root(),
            "named by the term before the root",
        );
        coverage.count_if(!is_accepted, "named, and the sheet is refused by the rules");
    }

    fn count_unnamed(&mut self, question: &Question, is_accepted: bool) {
        let coverage = &mut self.coverage;
        let [enables, guards] = [question.enables(), question.guards()];
        let [latent, authorised] = [question.is_latent(), question.is_authorised()];
        if enables {
            coverage.count(match question.enables_with_effect() {
                true => "not named, and an enable of it has an effect",
                false => "not named, and an enable of it is in vain",
            });
        }
        coverage.count_if(guards, "not named, and a channel is guarded by it");
        coverage.count_if(latent, "not named, and a latent set has it");
        coverage.count_if(authorised, "not named, and a principal may use it");
        coverage.count_if(
            !enables && !guards && !latent && !authorised,
            "not named, and nothing has to do with it",
        );
        coverage.count_if(
            !is_accepted,
            "not named, and the sheet is refused by the rules",
        );
    }

    /// Counts two runs that agree, of a sheet that doesn't name the privilege.
    pub fn count_pair(
        &mut self,
        question: &Question,
        is_accepted: bool,
        pair: &Pair,
        modes: [RunMode; 2],
        result: &RunResult,
    ) {
        let [enables, with_effect] = [question.enables(), question.enables_with_effect()];
        self.pairs.all += 1;
        self.coverage.count(match pair.grants {
            [true, true] => "pair: both grant it",
            [true, false] => "pair: the first grants it",
            [false, true] => "pair: the second grants it",
            [false, false] => "pair: neither grants it",
        });
        // The rest would be of no account where both grant the same.
        if !pair.differs() {
            return;
        }
        self.pairs.differing += 1;
        self.pairs.enabled += usize::from(enables);
        self.pairs.enabled_with_effect += usize::from(with_effect);
        self.count_differing(question, is_accepted, pair, modes);
        self.count_result(result);
    }

    fn count_differing(
        &mut self,
        question: &Question,
        is_accepted: bool,
        pair: &Pair,
        modes: [RunMode; 2],
    ) {
        let coverage = &mut self.coverage;
        coverage.count(changed(pair.change));
        coverage.count(runners(modes));
        if question.enables() {
            coverage.count(match question.enables_with_effect() {
                true => "pair: an enable of it has an effect",
                false => "pair: an enable of it is in vain",
            });
        }
        coverage.count_if(question.asks_for_others(), "pair: others are asked for");
        coverage.count(match pair.others.bits() {
            0 => "pair: nothing else is granted",
            _ => "pair: something else is granted",
        });
        coverage.count_if(
            pair.starts.iter().any(Vec::is_empty),
            "pair: one of them is the empty stack",
        );
        coverage.count(match is_accepted {
            true => "pair: the sheet is accepted",
            false => "pair: the sheet is refused by the rules",
        });
    }

    fn count_result(&mut self, result: &RunResult) {
        let coverage = &mut self.coverage;
        let [cause, _, ty, _, _, _, posts, held] = result.answer;
        coverage.count(match (result.stopped(), ty) {
            (true, _) => format!("pair: stopped by {cause}"),
            (false, 0) => "pair: a boolean".to_string(),
            (false, _) => "pair: a number".to_string(),
        });
        coverage.count_if(posts > 0, "pair: posts made");
        coverage.count_if(held > 0, "pair: a count of held results");
    }

    /// Counts two runs of a sheet that names the privilege, in one way alone.
    pub fn count_named_pair(&mut self, by: By, is_same: bool) {
        self.coverage.count(match is_same {
            true => format!("named by {by:?} alone, and the runs are the same"),
            false => format!("named by {by:?} alone, and the runs differ"),
        });
        self.playing_a_part[by as usize] += usize::from(!is_same);
    }

    /// What should have happened and didn't, or not often enough.
    pub fn missing(&self) -> Vec<String> {
        let refusals = (1..=8).chain([31]);
        let refusals =
            refusals.flat_map(|cause| [false, true].map(|above| refused_by(cause, above)));
        let runner = [Entry::RunEager, Entry::RunLazy];
        let modes = runner.map(|entry| RunMode { entry, enforce: 1 });
        let pairs = modes
            .iter()
            .flat_map(|&one| modes.map(|other| runners([one, other])));
        let changes = Change::ALL.map(changed);
        let expected = EXPECTED.map(String::from).into_iter();
        let expected = expected.chain(refusals).chain(pairs).chain(changes);
        let mut missing = self.coverage.never(expected);
        let Pairs {
            differing,
            enabled_with_effect,
            ..
        } = self.pairs;
        let [checks, tests, guards] = self.playing_a_part;
        let often = [
            ("starts that differ", differing, ENOUGH_DIFFERING),
            (
                "enables with an effect",
                enabled_with_effect,
                ENOUGH_ENABLED,
            ),
            ("checks that play a part", checks, ENOUGH_PLAYING_A_PART),
            ("tests that play a part", tests, ENOUGH_PLAYING_A_PART),
            ("guards that play a part", guards, ENOUGH_PLAYING_A_PART),
        ];
        let rare = often
            .into_iter()
            .filter(|(_, times, enough)| times < enough);
        missing.extend(rare.map(|(what, times, enough)| format!("{what}: {times} of {enough}")));
        missing
    }
}

fn refused_by(cause: u32, above: bool) -> String {
    let privilege = if above { ", privilege above 31" } else { "" };
    format!("refused by {cause:2}{privilege}")
}

fn changed(change: Change) -> String {
    format!("pair: {change:?}")
}

fn runners(modes: [RunMode; 2]) -> String {
    let [one, other] = modes.map(|mode| mode.entry);
    format!("pair: {one:?} and {other:?}")
}
