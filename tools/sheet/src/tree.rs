//! The terms of a readable sheet as the tree that they are.

use crate::kinds::{self, Child};
use crate::sheet::Sheet;

/// How deep a term may be nested.
const NESTING: usize = 32;

/// What a variable can stand for.
#[derive(Clone, Copy, Debug, PartialEq, Eq)]
pub enum Binding {
    /// The argument of a function or letrec.
    Argument(usize),
    /// The function of a letrec.
    Function(usize),
}

/// A term in its place.
#[derive(Clone, Debug)]
pub struct Node {
    pub parent: Option<usize>,
    /// What it is to its parent.
    pub role: &'static str,
    /// The root has depth 0.
    pub depth: usize,
    /// The principal of the nearest sign around it.
    pub signer: Option<u8>,
    /// How many bindings are around it.
    pub bindings: usize,
    /// What it stands for, if it is a variable that something binds.
    pub binding: Option<Binding>,
    /// How many terms are in it, itself counted.
    pub size: usize,
}

#[derive(Debug)]
pub struct Tree {
    nodes: Vec<Option<Node>>,
    /// The terms, each before its children.
    pub order: Vec<usize>,
}

/// What a walk hands down.
#[derive(Clone)]
struct Around {
    parent: Option<usize>,
    role: &'static str,
    depth: usize,
    signer: Option<u8>,
    bindings: Vec<Binding>,
}

impl Tree {
    /// The tree below the root; `None` if the terms are no tree of at most 32 levels.
    pub fn of(sheet: &Sheet) -> Option<Self> {
        let count = sheet.terms.len();
        let mut tree = Self {
            nodes: vec![None; count],
            order: Vec::with_capacity(count),
        };
        let around = Around {
            parent: None,
            role: "",
            depth: 0,
            signer: None,
            bindings: Vec::new(),
        };
        tree.enter(sheet, count.checked_sub(1)?, around)?;
        (tree.order.len() == count).then_some(tree)
    }

    fn enter(&mut self, sheet: &Sheet, number: usize, around: Around) -> Option<usize> {
        let term = sheet.terms.get(number)?;
        if self.nodes[number].is_some() || around.depth >= NESTING {
            return None;
        }
        self.order.push(number);
        self.nodes[number] = Some(Node {
            parent: around.parent,
            role: around.role,
            depth: around.depth,
            signer: around.signer,
            bindings: around.bindings.len(),
            binding: binding(&around.bindings, term.parts[0])
                .filter(|_| term.kind == kinds::VARIABLE),
            size: 1,
        });
        let mut size = 1;
        for child in kinds::children(term.kind) {
            let inside = inside(sheet, number, child, &around);
            size += self.enter(sheet, usize::from(term.parts[child.part]), inside)?;
        }
        self.nodes[number].as_mut()?.size = size;
        Some(size)
    }

    pub fn node(&self, number: usize) -> &Node {
        self.nodes[number]
            .as_ref()
            .expect("a tree has all terms of its sheet")
    }

    /// The terms from the root down to this one.
    pub fn path(&self, number: usize) -> Vec<usize> {
        let mut path = vec![number];
        while let Some(parent) = self.node(path[path.len() - 1]).parent {
            path.push(parent);
        }
        path.reverse();
        path
    }

    /// Whether a term is this one or stands below it.
    pub fn within(&self, number: usize, term: usize) -> bool {
        self.path(term).contains(&number)
    }
}

/// What is around a child.
fn inside(sheet: &Sheet, number: usize, child: &Child, around: &Around) -> Around {
    let term = &sheet.terms[number];
    let mut inside = around.clone();
    inside.parent = Some(number);
    inside.role = child.role;
    inside.depth += 1;
    match (term.kind, child.role) {
        (kinds::SIGN, _) => inside.signer = Some(term.small),
        (kinds::FUNCTION, _) => inside.bindings.push(Binding::Argument(number)),
        (kinds::LETREC, "body") => {
            inside
                .bindings
                .extend([Binding::Function(number), Binding::Argument(number)]);
        }
        (kinds::LETREC, _) => inside.bindings.push(Binding::Function(number)),
        _ => {}
    }
    inside
}

/// Variables count from the nearest binding outward.
fn binding(bindings: &[Binding], variable: u16) -> Option<Binding> {
    bindings.iter().rev().nth(usize::from(variable)).copied()
}
