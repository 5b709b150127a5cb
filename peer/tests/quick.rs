//! The quick desk, the benchmark's measure, agrees with the oracle; and the comparison
//! meets every number of every call.

use peer::campaign::{Plan, campaign};
use peer::case::Call;
use peer::exhaustive::Extent;
use peer::quick::Quick;
use peer::referee::Referee;

#[test]
fn the_quick_desk_agrees_with_the_oracle() {
    let mut referee = Referee::new(vec![&Quick]);
    let plan = Plan { seed: 1, calls: 30_000, only: None, extent: Extent::SAMPLE };
    let outcome = campaign(&mut referee, &plan, |_, _| {});
    if let Err(difference) = outcome {
        panic!("{difference}");
    }
    println!("{}", referee.table());
    assert_eq!(referee.never_met(&Call::ALL), Vec::<String>::new());
}
