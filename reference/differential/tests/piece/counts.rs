//! What has been told of pieces, and what has to be.

use crate::sentences::{smallest, Fault, Signer, Standing};
use differential::{Coverage, ANSWER_NUMBERS};
use sovzedal_reference::{PrincipalId, Sheet, Term, TermId};

const DONE: u32 = 0;
const REFUSED: u32 = 2;
const UNFIT: u32 = 3;

/// What has to happen, beside each cause that the reader can tell.
const EXPECTED: [&str; 52] = [
    "a longer answer",
    "a short answer",
    "a short answer, and the sheet has a piece",
    "a short answer, and the sheet is unreadable",
    "no piece, accepted",
    "no piece, refused by 13",
    "piece: call, 24",
    "piece: call, 25",
    "piece: difference, 10",
    "piece: function, 10",
    "piece: function, 12",
    "piece: if, 10",
    "piece: if, 26",
    "piece: less, 10",
    "piece: letrec, 10",
    "piece: letrec, 12",
    "piece: post, 10",
    "piece: sign, 11",
    "piece: sum, 10",
    "piece: test, 26",
    "piece: variable,  9",
    "one fault",
    "two faults",
    "three faults or more",
    "the first fault is the piece",
    "the first fault is another",
    "the first fault is another, of more terms",
    "the first fault is another, of as many terms",
    "the first fault is another, of another number",
    "a tie",
    "a tie of three",
    "a tie of pieces of several terms",
    "of 1 term",
    "of 2 terms",
    "of 3 terms",
    "of 4 to 9 terms",
    "of 10 to 99 terms",
    "of 100 terms or more",
    "all terms but the root",
    "the root",
    "in a function's body",
    "in a letrec's body",
    "in a letrec's rest",
    "in three bindings or more",
    "under one sign",
    "under two signs",
    "under three signs or more",
    "under another principal than the root's",
    "if the root's principal signed all, another piece would be told",
    "if the root's principal signed all, none would be told",
    "of version 1",
    "of version 2",
];

/// A question, and what both implementations told.
pub struct Answered {
    /// What the type checker tells, 0 of an accepted sheet.
    pub judged: u32,
    pub is_readable: bool,
    /// The length of the answer that was lent.
    pub answer: usize,
    pub returned: u32,
    /// 0 if none was told.
    pub cause: u32,
    /// Whether a piece was told.
    pub has_piece: bool,
}

#[derive(Default)]
pub struct Counts {
    pub coverage: Coverage,
    /// Sheets with a piece.
    pub pieces: usize,
    /// Of which the first fault is another.
    pub not_first: usize,
    /// Of which another would be told if the root's principal signed all.
    pub by_principal: usize,
    /// Terms that were judged alone.
    pub alone: usize,
}

/// How many at least.
const ENOUGH_PIECES: usize = 12_000;
const ENOUGH_NOT_FIRST: usize = 3_000;
const ENOUGH_BY_PRINCIPAL: usize = 400;

impl Counts {
    pub fn count(&mut self, answered: &Answered) {
        let coverage = &mut self.coverage;
        if answered.returned == UNFIT {
            coverage.count("a short answer");
            coverage.count_if(
                !answered.is_readable,
                "a short answer, and the sheet is unreadable",
            );
            coverage.count_if(
                answered.is_readable && !matches!(answered.judged, 0 | 13),
                "a short answer, and the sheet has a piece",
            );
            return;
        }
        coverage.count_if(answered.answer > ANSWER_NUMBERS, "a longer answer");
        match (answered.returned, answered.cause) {
            (DONE, 0) if answered.has_piece => {}
            (DONE, 0) => coverage.count(match answered.judged {
                0 => "no piece, accepted".to_string(),
                cause => format!("no piece, refused by {cause}"),
            }),
            (REFUSED, cause) => coverage.count(refused_by(cause)),
            (returned, cause) => coverage.count(format!("{returned} returned, cause {cause}")),
        }
    }

    /// Counts a piece, among all terms that are refused where they stand.
    pub fn count_piece(
        &mut self,
        sheet: &Sheet,
        standing: &Standing,
        faults: &[Fault],
        piece: Fault,
        first: (u32, TermId),
    ) {
        self.pieces += 1;
        self.alone += sheet.terms.len();
        self.count_faults(faults, piece, first);
        self.count_size(sheet, piece);
        self.count_place(sheet, standing, piece);
        self.count_signs(sheet, standing, piece);
        self.coverage.count(match sheet.guards {
            None => "of version 1",
            Some(_) => "of version 2",
        });
        let otherwise = smallest(&standing.faults(Signer::Root));
        let other_term = otherwise.map(|it| it.term);
        if other_term != Some(piece.term) {
            self.by_principal += 1;
            self.coverage.count(match other_term {
                Some(_) => "if the root's principal signed all, another piece would be told",
                None => "if the root's principal signed all, none would be told",
            });
        }
    }

    fn count_faults(&mut self, faults: &[Fault], piece: Fault, (cause, first): (u32, TermId)) {
        let coverage = &mut self.coverage;
        let own = faults.iter().filter(|it| it.is_own).count();
        coverage.count(match own {
            0 | 1 => "one fault",
            2 => "two faults",
            _ => "three faults or more",
        });
        let as_many = faults.iter().filter(|it| it.count == piece.count).count();
        coverage.count_if(as_many > 1, "a tie");
        coverage.count_if(as_many > 2, "a tie of three");
        let of_several = as_many > 1 && piece.count > 1;
        coverage.count_if(of_several, "a tie of pieces of several terms");
        if first == piece.term {
            coverage.count("the first fault is the piece");
            return;
        }
        self.not_first += 1;
        let first_fault = faults.iter().find(|it| it.term == first);
        let as_many = first_fault.is_some_and(|it| it.count == piece.count);
        coverage.count("the first fault is another");
        coverage.count(match as_many {
            true => "the first fault is another, of as many terms",
            false => "the first fault is another, of more terms",
        });
        coverage.count_if(
            cause != piece.cause,
            "the first fault is another, of another number",
        );
    }

    fn count_size(&mut self, sheet: &Sheet, piece: Fault) {
        let coverage = &mut self.coverage;
        let name = name(sheet.term(piece.term));
        coverage.count(format!("piece: {name}, {:2}", piece.cause));
        coverage.count(match piece.count {
            1 => "of 1 term",
            2 => "of 2 terms",
            3 => "of 3 terms",
            4..=9 => "of 4 to 9 terms",
            10..=99 => "of 10 to 99 terms",
            _ => "of 100 terms or more",
        });
        let all = sheet.terms.len();
        coverage.count_if(piece.count + 1 == all, "all terms but the root");
    }

    fn count_place(&mut self, sheet: &Sheet, standing: &Standing, piece: Fault) {
        let coverage = &mut self.coverage;
        let mut bindings = 0;
        let mut below = piece.term;
        let (mut in_function, mut in_body, mut in_rest) = (false, false, false);
        for around in standing.above(piece.term) {
            match sheet.term(around) {
                Term::Function { .. } => {
                    bindings += 1;
                    in_function = true;
                }
                Term::Letrec { body, .. } if body == below => {
                    bindings += 2;
                    in_body = true;
                }
                Term::Letrec { .. } => {
                    bindings += 1;
                    in_rest = true;
                }
                _ => {}
            }
            below = around;
        }
        coverage.count_if(in_function, "in a function's body");
        coverage.count_if(in_body, "in a letrec's body");
        coverage.count_if(in_rest, "in a letrec's rest");
        coverage.count_if(bindings > 2, "in three bindings or more");
    }

    fn count_signs(&mut self, sheet: &Sheet, standing: &Standing, piece: Fault) {
        let coverage = &mut self.coverage;
        let above = standing.above(piece.term);
        let signers = above.iter().filter_map(|&id| signer(sheet.term(id)));
        let signers: Vec<PrincipalId> = signers.collect();
        coverage.count(match signers.len() {
            0 => "the root",
            1 => "under one sign",
            2 => "under two signs",
            _ => "under three signs or more",
        });
        coverage.count_if(
            signers.first() != signers.last(),
            "under another principal than the root's",
        );
    }

    /// What should have happened and didn't, or not often enough.
    pub fn missing(&self) -> Vec<String> {
        let refusals = (1..=8).chain([31]).map(refused_by);
        let expected = EXPECTED.map(String::from).into_iter().chain(refusals);
        let mut missing = self.coverage.never(expected);
        let often = [
            ("pieces", self.pieces, ENOUGH_PIECES),
            (
                "first faults that are others",
                self.not_first,
                ENOUGH_NOT_FIRST,
            ),
            (
                "pieces by their principal",
                self.by_principal,
                ENOUGH_BY_PRINCIPAL,
            ),
        ];
        let rare = often
            .into_iter()
            .filter(|(_, times, enough)| times < enough);
        missing.extend(rare.map(|(what, times, enough)| format!("{what}: {times} of {enough}")));
        missing
    }
}

fn refused_by(cause: u32) -> String {
    format!("refused by {cause:2}")
}

fn signer(term: Term) -> Option<PrincipalId> {
    match term {
        Term::Sign { principal, .. } => Some(principal),
        _ => None,
    }
}

fn name(term: Term) -> &'static str {
    match term {
        Term::Bool(_) => "boolean",
        Term::Number(_) => "number",
        Term::Variable(_) => "variable",
        Term::Function { .. } => "function",
        Term::Letrec { .. } => "letrec",
        Term::Call { .. } => "call",
        Term::If { .. } => "if",
        Term::Check { .. } => "check",
        Term::Enable { .. } => "enable",
        Term::Sign { .. } => "sign",
        Term::Test { .. } => "test",
        Term::Sum(..) => "sum",
        Term::Difference(..) => "difference",
        Term::Less(..) => "less",
        Term::Post { .. } => "post",
    }
}
