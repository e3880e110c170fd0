//! Request W7's sentences about a chain, one by one, each asked of any list of
//! terms; that a guarded post is a cause is of W8.

use sovzedal_reference::{Accepted, ChannelId, Privilege, Set, Term, TermId, TypeId};

/// An accepted sheet and the privilege that is asked about.
pub struct Question<'a> {
    pub accepted: &'a Accepted,
    pub privilege: Privilege,
}

impl Question<'_> {
    /// The first sentence that is broken by a chain.
    pub fn broken_by(&self, chain: &[TermId]) -> Option<&'static str> {
        let sentences = [
            (
                self.starts_at_the_root(chain),
                "a chain of terms from the root",
            ),
            (
                self.of_children(chain),
                "each is a child of the one before",
            ),
            (
                self.of_needs(chain),
                "each has the privilege among its own needs",
            ),
            (
                self.to_a_cause(chain),
                "the last is a check that names it, or a call or recursive binder whose latent set holds it, or a post that it guards",
            ),
            (
                self.by_no_yes_branch(chain),
                "the yes-branch of a test of that privilege never qualifies",
            ),
            (
                self.by_lowest_positions(chain),
                "where several children qualify the lowest position is followed",
            ),
            (
                self.to_the_first_cause(chain),
                "a term that is a cause itself ends the chain",
            ),
        ];
        let mut broken = sentences.iter().filter(|(holds, _)| !holds);
        broken.next().map(|&(_, sentence)| sentence)
    }

    /// How many of all ways down from the root break none.
    pub fn unbroken(&self) -> usize {
        let mut ways = vec![vec![self.accepted.sheet.root()]];
        let mut unbroken = 0;
        while let Some(way) = ways.pop() {
            unbroken += usize::from(self.broken_by(&way).is_none());
            let last = way[way.len() - 1];
            let further = |child| [&way[..], &[child]].concat();
            ways.extend(self.term(last).children().map(further));
        }
        unbroken
    }

    pub fn term(&self, id: TermId) -> Term {
        self.accepted.sheet.term(id)
    }

    pub fn needs(&self, id: TermId) -> bool {
        self.has(self.accepted.judgement(id).needs)
    }

    pub fn is_cause(&self, id: TermId) -> bool {
        match self.term(id) {
            Term::Check { privilege, .. } => privilege == self.privilege,
            Term::Call { function, .. } => self.is_latent(self.accepted.judgement(function).ty),
            Term::Letrec { ty, .. } => self.is_latent(ty),
            Term::Post { channel, .. } => self.guards(channel),
            _ => false,
        }
    }

    /// The yes-branch of a term that tests for the privilege.
    pub fn yes_branch(&self, id: TermId) -> Option<TermId> {
        match self.term(id) {
            Term::Test { privilege, yes, .. } => (privilege == self.privilege).then_some(yes),
            _ => None,
        }
    }

    /// The children that the chain may go on with, from the lowest position
    /// up.
    pub fn qualifying(&self, id: TermId) -> Vec<TermId> {
        let mut children: Vec<TermId> = self.term(id).children().collect();
        children.retain(|&child| self.needs(child));
        children.retain(|&child| self.yes_branch(id) != Some(child));
        children
    }

    fn has(&self, set: Set) -> bool {
        set.contains(self.privilege)
    }

    fn is_latent(&self, ty: TypeId) -> bool {
        let function = self.accepted.sheet.function_type(ty);
        function.is_some_and(|function| self.has(function.latent))
    }

    /// Whether the privilege guards this channel.
    pub fn guards(&self, channel: ChannelId) -> bool {
        self.accepted.sheet.guard(channel) == Some(self.privilege)
    }

    fn starts_at_the_root(&self, chain: &[TermId]) -> bool {
        chain.first() == Some(&self.accepted.sheet.root())
    }

    fn of_children(&self, chain: &[TermId]) -> bool {
        steps(chain).all(|(term, next)| self.term(term).children().any(|child| child == next))
    }

    fn of_needs(&self, chain: &[TermId]) -> bool {
        chain.iter().all(|&term| self.needs(term))
    }

    fn to_a_cause(&self, chain: &[TermId]) -> bool {
        chain.last().is_some_and(|&term| self.is_cause(term))
    }

    fn by_lowest_positions(&self, chain: &[TermId]) -> bool {
        steps(chain).all(|(term, next)| self.qualifying(term).first() == Some(&next))
    }

    fn to_the_first_cause(&self, chain: &[TermId]) -> bool {
        steps(chain).all(|(term, _)| !self.is_cause(term))
    }

    fn by_no_yes_branch(&self, chain: &[TermId]) -> bool {
        steps(chain).all(|(term, next)| self.yes_branch(term) != Some(next))
    }
}

/// Each term of a chain but the last, with the one after it.
pub fn steps(chain: &[TermId]) -> impl Iterator<Item = (TermId, TermId)> + '_ {
    chain.windows(2).map(|pair| (pair[0], pair[1]))
}
