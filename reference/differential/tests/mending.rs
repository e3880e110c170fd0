//! That a chain ends in what the need comes from, by the library's answers
//! alone: an author who puts an enable around the last term, and asks again as
//! long as the privilege is needed, gets rid of that need and of no other, and
//! could have left out none of the enables.

use differential::{settings, ExplainCall, Implementation, Library, ANSWER_NUMBERS};
use sheets::grow::accepted;
use sheets::hex;
use sheets::needy::needing_tree;
use sheets::records::Records;
use sheets::rng::Rng;
use sheets::tree::{enable, number, Tree};
use sheets::world::World;

const SHEETS: u64 = 10_000;

const DONE: u32 = 0;

/// How deep a tree may be, so that there is room for enables.
const LEVELS: usize = 16;
const MAX_NESTING: usize = 32;

/// How many needs were got rid of by one enable, by two and by more.
type Mended = [usize; 3];

#[test]
fn what_a_chain_ends_in_is_what_has_to_be_mended() {
    let mut mended = Mended::default();
    for batch in settings::batches(SHEETS) {
        for index in batch.items {
            let rng = &mut Rng::for_item(batch.seed.rotate_left(5), index);
            let author = Author::random(rng, settings::again(batch.seed, index));
            author.mend_all(rng, &mut mended);
        }
    }
    println!("needs mended by 1, 2 and more enables: {mended:?}");
    if settings::are_whole() {
        assert!(mended.iter().all(|&times| times >= 100), "{mended:?}");
    }
}

/// Has written a tree.
struct Author {
    world: World,
    tree: Tree,
    /// How to make it again.
    again: String,
}

impl Author {
    fn random(rng: &mut Rng, again: String) -> Self {
        let (world, tree) = if rng.percent(50) {
            let noise = rng.pick(&[0, 10, 30, 60]);
            let levels = rng.between(2, LEVELS);
            needing_tree(rng, noise, levels)
        } else {
            let world = World::random(rng);
            let size = rng.between(2, 40);
            let tree = accepted(rng, &world, size);
            (world, tree)
        };
        Self { world, tree, again }
    }

    /// Mends each need by itself.
    fn mend_all(&self, rng: &mut Rng, mended: &mut Mended) {
        let needs = needs(&self.sheet(&self.tree)).unwrap_or(0);
        for privilege in (0..32).filter(|privilege| needs >> privilege & 1 == 1) {
            let enables = self.mend(rng, privilege, needs);
            if let Some(fewer) = enables.checked_sub(1) {
                mended[fewer.min(2)] += 1;
            }
        }
    }

    /// Tells how many enables it took, 0 if there was no room for them.
    fn mend(&self, rng: &mut Rng, privilege: u8, needs: u32) -> usize {
        let mut ways = Vec::new();
        let mut tree = self.tree.clone();
        while let Some(cause) = cause(rng, &self.sheet(&tree), privilege) {
            // No cause told later is above or below one told before, so that
            // the enables leave the ways to the others as they are.
            ways.push(tree.way_to(cause));
            tree = self.with_enables(privilege, &ways);
            assert!(
                ways.len() <= tree.size(),
                "no end of causes; {}",
                self.again
            );
        }
        if tree.height() > MAX_NESTING {
            return 0;
        }
        self.is_left_with(&tree, needs & !(1 << privilege));
        for left_out in 0..ways.len() {
            let mut others = ways.clone();
            others.remove(left_out);
            self.is_left_with(&self.with_enables(privilege, &others), needs);
        }
        ways.len()
    }

    fn with_enables(&self, privilege: u8, ways: &[Vec<usize>]) -> Tree {
        let mut tree = self.tree.clone();
        for way in ways {
            let term = tree.at_mut(way);
            let inner = std::mem::replace(term, number(0));
            *term = enable(privilege, inner);
        }
        tree
    }

    fn is_left_with(&self, tree: &Tree, expected: u32) {
        let sheet = self.sheet(tree);
        let found = needs(&sheet);
        assert_eq!(found, Some(expected), "{}; {}", hex(&sheet), self.again);
    }

    fn sheet(&self, tree: &Tree) -> Vec<u8> {
        Records {
            format: self.world.format(),
            principals: self.world.principals.clone(),
            types: self.world.types.clone(),
            terms: tree.assemble(),
        }
        .to_bytes()
    }
}

/// What the library's judge tells, if it accepts the sheet.
fn needs(sheet: &[u8]) -> Option<u32> {
    let mut answer = [0; ANSWER_NUMBERS];
    (Library::typecheck(sheet, &mut answer) == DONE).then_some(answer[7])
}

/// What the chain ends in, if the privilege is needed and the sheet accepted.
fn cause(rng: &mut Rng, sheet: &[u8], privilege: u8) -> Option<usize> {
    let mut call = ExplainCall::fitting(rng);
    let returned = call.ask::<Library>(sheet, privilege.into());
    let chain = (returned == DONE).then(|| call.result())?;
    chain.last().map(|&term| usize::from(term))
}
