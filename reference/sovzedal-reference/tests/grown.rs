//! The generator's own idea of the rules, which it needs to grow sheets that
//! are accepted, is not wider than the judge's.

use sheets::generate::accepted_sample;
use sheets::rng::Rng;
use sovzedal_reference::{typecheck, Cause};

const SHEETS: u64 = 5_000;
const SEED: u64 = 2;

#[test]
fn grown_sheets_are_accepted_or_too_large() {
    for index in 0..SHEETS {
        let sample = accepted_sample(&mut Rng::for_item(SEED, index));
        let cause = typecheck(&sample.bytes).err().map(|refusal| refusal.cause);
        let too_large = matches!(
            cause,
            Some(Cause::WrongLength | Cause::TypeRecord | Cause::Nesting)
        );
        assert!(cause.is_none() || too_large, "item {index}: {cause:?}");
    }
}
