//! A whole run: the cases at the limits, then random ones, until one fails.

use std::time::{Duration, Instant};

use super::case::{self, Case};
use super::coverage::Coverage;
use super::limits;
use super::play::{Failure, Player};
use super::rng::Rng;
use crate::calls::Calls;

#[derive(Clone, Debug)]
pub struct Options {
    /// How many random cases.
    pub cases: u64,
    pub seed: u64,
    /// The first of them.
    pub first: u64,
    /// The cases at the limits come first.
    pub limits: bool,
    /// Stops early after this time.
    pub longest: Option<Duration>,
    /// Says each case before it is played, for an implementation that does not come back.
    pub trace: bool,
}

/// What agreed, the cases at the limits and the random ones apart.
#[derive(Debug)]
pub struct Summary {
    pub limits: Part,
    pub random: Part,
}

#[derive(Debug, Default)]
pub struct Part {
    pub cases: u64,
    pub coverage: Coverage,
}

/// A failure and the case that it was met in.
#[derive(Debug)]
pub struct Found {
    /// `None` for a case at a limit.
    pub number: Option<u64>,
    pub case: Case,
    pub failure: Failure,
}

pub fn run(subject: &dyn Calls, options: &Options) -> Result<Summary, Box<Found>> {
    let start = Instant::now();
    let mut player = Player::new(subject);
    let mut limits = Part::default();
    if options.limits {
        for case in limits::all() {
            if options.trace {
                println!("{}", case.label);
            }
            let outcome = player.play(&case, &mut Rng::new(options.seed));
            outcome.map_err(|failure| Box::new(Found { number: None, case, failure }))?;
            limits.cases += 1;
        }
        limits.coverage = std::mem::take(&mut player.coverage);
    }
    let mut random = Part::default();
    for number in options.first..options.first.saturating_add(options.cases) {
        if options.longest.is_some_and(|longest| start.elapsed() > longest) {
            break;
        }
        let mut rng = Rng::for_case(options.seed, number);
        let case = case::random(&mut rng);
        if options.trace {
            println!(
                "case {number} {}: {:?}",
                case.label,
                case.steps.iter().map(|step| &step.call).collect::<Vec<_>>()
            );
        }
        let outcome = player.play(&case, &mut rng);
        outcome.map_err(|failure| Box::new(Found { number: Some(number), case, failure }))?;
        random.cases += 1;
    }
    random.coverage = player.coverage;
    Ok(Summary { limits, random })
}
