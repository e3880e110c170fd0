//! Terms as trees, and their assembly into records.

use crate::records::TermRecord;
use crate::rng::Rng;

#[derive(Clone, Copy, Debug, PartialEq, Eq)]
#[repr(u8)]
pub enum Kind {
    Bool,
    Number,
    Variable,
    Function,
    Letrec,
    Call,
    If,
    Check,
    Enable,
    Sign,
    Test,
    Sum,
    Difference,
    Less,
    Post,
}

impl Kind {
    pub const ALL: [Kind; 15] = [
        Kind::Bool,
        Kind::Number,
        Kind::Variable,
        Kind::Function,
        Kind::Letrec,
        Kind::Call,
        Kind::If,
        Kind::Check,
        Kind::Enable,
        Kind::Sign,
        Kind::Test,
        Kind::Sum,
        Kind::Difference,
        Kind::Less,
        Kind::Post,
    ];

    /// Whether the first part is a number of its own: a value, an index or a
    /// type. Children take the parts that follow.
    pub fn has_number(self) -> bool {
        matches!(
            self,
            Kind::Number | Kind::Variable | Kind::Function | Kind::Letrec
        )
    }

    /// Whether the first child is a body, which must be signed.
    pub fn has_body(self) -> bool {
        matches!(self, Kind::Function | Kind::Letrec)
    }
}

/// A term with its children. `small` and `number` are zero where the kind has
/// no use for them.
#[derive(Clone, Debug, PartialEq, Eq)]
pub struct Tree {
    pub kind: Kind,
    pub small: u8,
    pub number: u16,
    pub children: Vec<Tree>,
}

impl Tree {
    fn new(kind: Kind, small: u8, number: u16, children: Vec<Tree>) -> Self {
        Self {
            kind,
            small,
            number,
            children,
        }
    }

    /// How many terms it has.
    pub fn size(&self) -> usize {
        1 + self.children.iter().map(Tree::size).sum::<usize>()
    }

    /// How many terms stand on the longest way down.
    pub fn height(&self) -> usize {
        1 + self.children.iter().map(Tree::height).max().unwrap_or(0)
    }

    /// The `index`th term, counted from the top and from the left.
    pub fn nth_mut(&mut self, index: usize) -> &mut Tree {
        if index == 0 {
            return self;
        }
        let mut index = index - 1;
        for child in &mut self.children {
            let size = child.size();
            if index < size {
                return child.nth_mut(index);
            }
            index -= size;
        }
        panic!("a tree has no term past its size");
    }

    /// The way down to the term that [`Tree::assemble`] gives this number, by
    /// which child it goes on with: a term comes after all that is below it.
    pub fn way_to(&self, number: usize) -> Vec<usize> {
        let mut below = 0;
        for (place, child) in self.children.iter().enumerate() {
            let size = child.size();
            if number < below + size {
                let mut way = child.way_to(number - below);
                way.insert(0, place);
                return way;
            }
            below += size;
        }
        Vec::new()
    }

    /// The term at the end of a way down.
    pub fn at_mut(&mut self, way: &[usize]) -> &mut Tree {
        match way {
            [] => self,
            [place, rest @ ..] => self.children[*place].at_mut(rest),
        }
    }

    /// The record, its children not yet filled in.
    fn record(&self) -> TermRecord {
        TermRecord {
            kind: self.kind as u8,
            small: self.small,
            parts: [self.number, 0, 0],
        }
    }

    /// The records of all terms, each child's before its right neighbour's
    /// and its parent's.
    pub fn assemble(&self) -> Vec<TermRecord> {
        self.assemble_choosing(|waiting| waiting - 1)
    }

    /// The records of all terms in a random order. Only that children come
    /// before their parent is kept.
    pub fn assemble_shuffled(&self, rng: &mut Rng) -> Vec<TermRecord> {
        self.assemble_choosing(|waiting| rng.below(waiting))
    }

    /// Gives out numbers from the highest down. Of the terms whose parent has
    /// its number, `choose` says which is next.
    fn assemble_choosing(&self, mut choose: impl FnMut(usize) -> usize) -> Vec<TermRecord> {
        let mut records = vec![TermRecord::default(); self.size()];
        let mut waiting = vec![(self, None)];
        for number in (0..records.len()).rev() {
            let (tree, place) = waiting.swap_remove(choose(waiting.len()));
            records[number] = tree.record();
            if let Some((parent, part)) = place {
                let parent: &mut TermRecord = &mut records[parent];
                parent.parts[part] = number as u16;
            }
            let parts = usize::from(tree.kind.has_number())..;
            for (child, part) in tree.children.iter().zip(parts) {
                waiting.push((child, Some((number, part))));
            }
        }
        records
    }
}

pub fn boolean(value: bool) -> Tree {
    Tree::new(Kind::Bool, value.into(), 0, vec![])
}

pub fn number(value: u16) -> Tree {
    Tree::new(Kind::Number, 0, value, vec![])
}

pub fn variable(index: u16) -> Tree {
    Tree::new(Kind::Variable, 0, index, vec![])
}

pub fn function(ty: u16, body: Tree) -> Tree {
    Tree::new(Kind::Function, 0, ty, vec![body])
}

pub fn letrec(ty: u16, body: Tree, rest: Tree) -> Tree {
    Tree::new(Kind::Letrec, 0, ty, vec![body, rest])
}

pub fn call(function: Tree, argument: Tree) -> Tree {
    Tree::new(Kind::Call, 0, 0, vec![function, argument])
}

pub fn when(condition: Tree, yes: Tree, no: Tree) -> Tree {
    Tree::new(Kind::If, 0, 0, vec![condition, yes, no])
}

pub fn check(privilege: u8, inner: Tree) -> Tree {
    Tree::new(Kind::Check, privilege, 0, vec![inner])
}

pub fn enable(privilege: u8, inner: Tree) -> Tree {
    Tree::new(Kind::Enable, privilege, 0, vec![inner])
}

pub fn sign(principal: u8, inner: Tree) -> Tree {
    Tree::new(Kind::Sign, principal, 0, vec![inner])
}

pub fn test(privilege: u8, yes: Tree, no: Tree) -> Tree {
    Tree::new(Kind::Test, privilege, 0, vec![yes, no])
}

pub fn sum(left: Tree, right: Tree) -> Tree {
    Tree::new(Kind::Sum, 0, 0, vec![left, right])
}

pub fn difference(left: Tree, right: Tree) -> Tree {
    Tree::new(Kind::Difference, 0, 0, vec![left, right])
}

pub fn less(left: Tree, right: Tree) -> Tree {
    Tree::new(Kind::Less, 0, 0, vec![left, right])
}

/// A post to channel 0, the only one that version 1 has.
pub fn post(inner: Tree) -> Tree {
    post_to(0, inner)
}

pub fn post_to(channel: u8, inner: Tree) -> Tree {
    Tree::new(Kind::Post, channel, 0, vec![inner])
}

#[cfg(test)]
mod tests {
    use super::*;

    #[test]
    fn children_come_first_and_in_order() {
        let tree = sign(0, sum(number(3), post(number(4))));
        let kinds: Vec<u8> = tree.assemble().iter().map(|record| record.kind).collect();
        assert_eq!(kinds, [1, 1, 14, 11, 9]);
        assert_eq!(tree.assemble()[3].parts, [0, 2, 0]);
    }

    #[test]
    fn a_type_takes_the_first_part() {
        let tree = letrec(2, sign(0, number(1)), number(5));
        assert_eq!(tree.assemble()[3].parts, [2, 1, 2]);
    }

    #[test]
    fn shuffling_keeps_children_lower() {
        let tree = sign(0, sum(sum(number(1), number(2)), post(number(3))));
        let mut rng = Rng::new(7);
        for _ in 0..100 {
            for (place, record) in tree.assemble_shuffled(&mut rng).iter().enumerate() {
                let is_sum = record.kind == Kind::Sum as u8;
                assert!(
                    !is_sum
                        || record.parts[..2]
                            .iter()
                            .all(|&child| usize::from(child) < place)
                );
            }
        }
    }

    #[test]
    fn ways_lead_to_the_records_numbers() {
        let mut tree = sign(0, sum(sum(number(1), number(2)), post(number(3))));
        for (number, record) in tree.assemble().iter().enumerate() {
            let way = tree.way_to(number);
            assert_eq!(tree.at_mut(&way).record().kind, record.kind);
        }
        assert_eq!(tree.way_to(1), [0, 0, 1]);
    }

    #[test]
    fn nth_counts_from_the_top() {
        let mut tree = sign(0, sum(number(3), post(number(4))));
        let kinds: Vec<Kind> = (0..tree.size()).map(|n| tree.nth_mut(n).kind).collect();
        assert_eq!(
            kinds,
            [
                Kind::Sign,
                Kind::Sum,
                Kind::Number,
                Kind::Post,
                Kind::Number
            ]
        );
    }
}
