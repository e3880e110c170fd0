//! Holding the granted set and walking frames come to the same, on sheets
//! drawn at random.

use sheets::generate::sample;
use sheets::request::Request as Query;
use sheets::rng::Rng;
use sovzedal_reference::{run_eager, run_lazy, Checks, Request};

const SHEETS: u64 = 5_000;
const SEED: u64 = 1;

#[test]
fn eager_is_lazy() {
    for index in 0..SHEETS {
        let rng = &mut Rng::for_item(SEED, index);
        let sample = sample(rng);
        let query = Query::random(rng, &sample.world);
        for checks in [Checks::Enforced, Checks::Skipped] {
            let request = Request {
                start: &query.start,
                calls: query.calls,
                open_calls: query.open_calls,
                checks,
            };
            let (mut cells, mut posts) = (vec![1; query.cell_bytes], vec![1; query.posts]);
            let eager = run_eager(&sample.bytes, &request, &mut cells, &mut posts);

            let (mut lazy_cells, mut lazy_posts) =
                (vec![1; query.cell_bytes], vec![1; query.posts]);
            let mut frames = vec![1; Query::largest().frame_numbers];
            let lazy = run_lazy(
                &sample.bytes,
                &request,
                &mut lazy_cells,
                &mut lazy_posts,
                &mut frames,
            );
            assert_eq!(eager, lazy, "item {index}, {checks:?}");
            assert_eq!((cells, posts), (lazy_cells, lazy_posts), "item {index}");
        }
    }
}
