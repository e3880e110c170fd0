//! The terms of a sheet as nested boxes, with the needs of each as badges.

use crate::html::{escape, type_text};
use crate::kinds;
use crate::library::{Refusal, TermAnswer};
use crate::listing::{refused, Mark};
use crate::reading::Reading;
use crate::show::mark_of;
use crate::tree::Tree;

/// What the boxes mean.
pub fn legend(reading: &Reading) -> String {
    let badges = if reading.tells_terms() {
        " A need is <span class=\"need arises\">black</span> where it arises, <span class=\"need\">white</span> where it is \
         handed up, and <span class=\"need gone\">struck out</span> where it ends."
    } else {
        ""
    };
    format!(
        "<p class=\"hint\">A box is a term and has its parts inside. Its colour and line are those of the principal that signs \
         it; a sign has the ones of the principal that it names. A click on a term folds it.{badges}</p>\n"
    )
}

pub fn tree(reading: &Reading, tree: &Tree, fault: Option<Refusal>) -> String {
    let mark = mark_of(reading, fault);
    let boxes = Boxes {
        reading,
        tree,
        mark: mark.as_ref(),
    };
    tree.order
        .first()
        .map_or(String::new(), |&root| boxes.term(root))
}

struct Boxes<'a> {
    reading: &'a Reading<'a>,
    tree: &'a Tree,
    mark: Option<&'a Mark>,
}

impl Boxes<'_> {
    /// A term with all that is in it. Terms are nested at most 32 deep.
    fn term(&self, term: usize) -> String {
        let mark = self.mark.filter(|mark| mark.term == term);
        let class = format!(
            "term {}{}",
            self.colour(term),
            if mark.is_some() { " fault" } else { "" }
        );
        let note = mark.and_then(|mark| mark.note.as_ref());
        let note = note.map_or(String::new(), |note| {
            format!("<div class=\"note\">{}</div>\n", type_text(note))
        });
        let line = self.line(term);
        let children: String = kinds::child_numbers(&self.reading.sheet.terms[term])
            .map(|child| self.term(child))
            .collect();
        if children.is_empty() {
            return format!("<div class=\"{class} leaf\" id=\"t{term}\">{line}{note}</div>\n");
        }
        format!("<details open class=\"{class}\" id=\"t{term}\"><summary>{line}</summary>\n{note}{children}</details>\n")
    }

    fn colour(&self, term: usize) -> String {
        let record = &self.reading.sheet.terms[term];
        let signer = if record.kind == kinds::SIGN {
            Some(record.small)
        } else {
            self.tree.node(term).signer
        };
        signer.map_or("unsigned".to_string(), |signer| format!("p{signer}"))
    }

    fn line(&self, term: usize) -> String {
        let role = match self.tree.node(term).role {
            "" => String::new(),
            role => format!("<span class=\"role\">{role}:</span> "),
        };
        let words = type_text(&self.reading.in_words(term));
        format!(
            "<span class=\"number\">{term}</span>{role}<span class=\"kind\">{words}</span>{}{}",
            self.judged(term),
            self.needs(term)
        )
    }

    fn judged(&self, term: usize) -> String {
        match self.reading.answer(term) {
            TermAnswer::Judged { ty, .. } => {
                format!(
                    "<span class=\"type\">{}</span>",
                    type_text(&self.reading.types.short(ty as usize))
                )
            }
            TermAnswer::Refused(refusal) => {
                format!("<span class=\"type\">{}</span>", refused(refusal, term))
            }
            TermAnswer::Nothing => String::new(),
        }
    }

    /// The needs of a term, those that arise there before those of its parts, and what ends there.
    fn needs(&self, term: usize) -> String {
        let Some(needs) = self.reading.needs(term) else {
            return String::new();
        };
        let own = needs & self.own(term);
        let ended = self.children_needs(term) & !needs;
        let mut badges = self.badges(own, "need arises");
        badges.extend(self.badges(needs & !own, "need"));
        let mut text = String::new();
        if !badges.is_empty() {
            text = format!("<span class=\"needs\">needs {}</span>", badges.join(" "));
        }
        if ended != 0 {
            let gone = self.badges(ended, "need gone").join(" ");
            text.push_str(&format!(
                "<span class=\"needs\">{} {gone}</span>",
                self.ends(term)
            ));
        }
        text
    }

    /// What a term asks for itself.
    fn own(&self, term: usize) -> u32 {
        let record = &self.reading.sheet.terms[term];
        let latent = |ty: usize| self.reading.sheet.types.get(ty).map_or(0, |ty| ty.latent);
        match record.kind {
            kinds::CHECK => 1u32.checked_shl(record.small.into()).unwrap_or(0),
            kinds::POST => self
                .reading
                .sheet
                .guard(record.small)
                .map_or(0, |guard| 1u32.checked_shl(guard.into()).unwrap_or(0)),
            kinds::LETREC => latent(record.parts[0].into()),
            kinds::CALL => self.reading.ty(record.parts[0].into()).map_or(0, latent),
            _ => 0,
        }
    }

    fn children_needs(&self, term: usize) -> u32 {
        let children = kinds::child_numbers(&self.reading.sheet.terms[term]);
        children
            .filter_map(|child| self.reading.needs(child))
            .fold(0, |all, needs| all | needs)
    }

    /// How needs end at a term.
    fn ends(&self, term: usize) -> &'static str {
        match self.reading.sheet.terms[term].kind {
            kinds::ENABLE => "answers",
            kinds::TEST => "has tested",
            _ => "leaves to calls",
        }
    }

    fn badges(&self, set: u32, class: &str) -> Vec<String> {
        let members = (0..32).filter(|&privilege| set >> privilege & 1 == 1);
        let names =
            members.map(|privilege| escape(&self.reading.names.privilege_in_words(privilege)));
        names
            .map(|name| format!("<span class=\"{class}\">{name}</span>"))
            .collect()
    }
}
