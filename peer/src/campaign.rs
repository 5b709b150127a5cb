//! A whole comparison: the trials, the short inputs, random cases and sessions.

use crate::case::Call;
use crate::exhaustive::{Extent, exhaustive};
use crate::random;
use crate::referee::{Difference, Referee};
use crate::rng::Rng;
use crate::session::session;
use crate::trials::trials;

pub struct Plan {
    pub seed: u64,
    /// Random calls, those in sessions included; trials and short inputs come on top.
    pub calls: u64,
    /// One call alone, which leaves out the sessions.
    pub only: Option<Call>,
    pub extent: Extent,
}

impl Plan {
    pub fn calls_named(&self) -> Vec<Call> {
        match self.only {
            Some(call) => vec![call],
            None => Call::ALL.to_vec(),
        }
    }
}

/// Runs the plan up to the first difference. `progress` hears of each part.
pub fn campaign(
    referee: &mut Referee,
    plan: &Plan,
    mut progress: impl FnMut(&str, &Referee),
) -> Result<(), Box<Difference>> {
    let calls = plan.calls_named();
    for trial in trials() {
        if calls.contains(&trial.case.call) {
            referee.compare(&trial.case)?;
        }
    }
    progress("document 01's trials", referee);
    exhaustive(referee, &calls, plan.extent)?;
    progress("short inputs", referee);
    // Sessions and single cases take turns, about one call in three being a session's.
    let mut rng = Rng::new(plan.seed);
    let before = referee.calls;
    let mut cases = 0;
    while referee.calls - before < plan.calls {
        let made = referee.calls - before;
        if plan.only.is_none() && 3 * cases >= 2 * made + 64 {
            session(&mut rng, referee)?;
        } else {
            let call = rng.pick(&calls);
            let case = random::case(&mut rng, call);
            referee.compare(&case)?;
            cases += 1;
        }
    }
    progress("random cases and sessions", referee);
    Ok(())
}
