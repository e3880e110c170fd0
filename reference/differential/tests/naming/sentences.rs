//! W11's words about a sheet that has been read.

use sovzedal_reference::{PrincipalId, Privilege, Sheet, Term, TermId, Type};

/// A way in which a term can name a privilege.
#[derive(Clone, Copy, Debug, PartialEq, Eq, PartialOrd, Ord)]
pub enum By {
    Check,
    Test,
    Guard,
}

/// A sheet, and the privilege that is asked about.
#[derive(Clone, Copy)]
pub struct Question<'a> {
    pub sheet: &'a Sheet,
    pub privilege: Privilege,
}

impl Question<'_> {
    /// "no check, test or guard names p".
    pub fn named_by(&self, id: TermId) -> Option<By> {
        let (by, named) = match self.sheet.term(id) {
            Term::Check { privilege, .. } => (By::Check, Some(privilege)),
            Term::Test { privilege, .. } => (By::Test, Some(privilege)),
            Term::Post { channel, .. } => (By::Guard, self.sheet.guard(channel)),
            _ => return None,
        };
        (named == Some(self.privilege)).then_some(by)
    }

    /// All terms that name it, from the lowest up, and how.
    pub fn naming(&self) -> Vec<(TermId, By)> {
        let named = |id| Some((id, self.named_by(id)?));
        (0..=self.sheet.root()).filter_map(named).collect()
    }

    /// The one way in which it is named, if there is one and no other.
    pub fn named_alone_by(&self) -> Option<By> {
        let mut ways: Vec<By> = self.naming().iter().map(|&(_, by)| by).collect();
        ways.sort();
        ways.dedup();
        match ways[..] {
            [only] => Some(only),
            _ => None,
        }
    }

    /// Whether an enable of it stands somewhere.
    pub fn enables(&self) -> bool {
        let terms = &mut self.sheet.terms.iter();
        terms.any(|&term| self.is_enable(term))
    }

    /// Whether one stands where the signing principal may use it, so that it
    /// grants something.
    pub fn enables_with_effect(&self) -> bool {
        self.has_effect_below(self.sheet.root(), 0)
    }

    fn has_effect_below(&self, id: TermId, signer: PrincipalId) -> bool {
        let term = self.sheet.term(id);
        let signer = match term {
            Term::Sign { principal, .. } => principal,
            _ => signer,
        };
        let may_use = self.sheet.authorised(signer).contains(self.privilege);
        let mut children = term.children();
        self.is_enable(term) && may_use
            || children.any(|child| self.has_effect_below(child, signer))
    }

    fn is_enable(&self, term: Term) -> bool {
        matches!(term, Term::Enable { privilege, .. } if privilege == self.privilege)
    }

    /// Whether it guards a channel, whatever is posted there.
    pub fn guards(&self) -> bool {
        let mut guards = self.sheet.guards.iter().flatten();
        guards.any(|&guard| guard == Some(self.privilege))
    }

    /// Whether a latent set holds it.
    pub fn is_latent(&self) -> bool {
        let mut types = self.sheet.types.iter();
        types.any(|ty| match ty {
            Type::Function(function) => function.latent.contains(self.privilege),
            Type::Bool | Type::Number => false,
        })
    }

    /// Whether a principal may use it.
    pub fn is_authorised(&self) -> bool {
        let mut principals = self.sheet.principals.iter();
        principals.any(|set| set.contains(self.privilege))
    }

    /// Whether a check, a test or a guard of another privilege stands
    /// somewhere.
    pub fn asks_for_others(&self) -> bool {
        self.sheet.terms.iter().any(|&term| {
            let query = match term {
                Term::Check { privilege, .. } | Term::Test { privilege, .. } => Some(privilege),
                Term::Post { channel, .. } => self.sheet.guard(channel),
                _ => None,
            };
            query.is_some_and(|query| query != self.privilege)
        })
    }
}
