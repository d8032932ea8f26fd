//! Demand 3: sets that are yanked leave the compile answer as it was before them, and yanking that yank brings them back.

use twin::compile::compile;
use twin::library::MAX_WORDS;
use twin::make::{any_library, sets, Random};
use twin::run::run;

const CASES: usize = 3_000;
/// Room for all lines, or for few, so that refusals are compared too.
const ROOMS: [usize; 3] = [1 << 20, 910, 90];

#[test]
fn yanked_sets_leave_no_trace() {
    let mut random = Random::new(3);
    for _ in 0..CASES {
        let library = any_library(&mut random);
        let base = library.image();
        let (stream, mut names) = sets(&mut random, &library);
        random.shuffle(&mut names);
        let yanks: Vec<u8> = names.iter().flat_map(|name| [b"*YANK ", &name[..], b"\n"].concat()).collect();
        let new = run(&base, &stream, MAX_WORDS).expect("accepted sets");
        let yanked = run(&new, &[b"*IDENT BACK\n", &yanks[..]].concat(), MAX_WORDS).expect("accepted yanks");
        let restored = run(&yanked, b"*IDENT AGAIN\n*YANK BACK\n", MAX_WORDS).expect("an accepted yank");
        for room in ROOMS {
            assert_eq!(compile(&yanked, room), compile(&base, room));
            assert_eq!(compile(&restored, room), compile(&new, room));
        }
    }
}
