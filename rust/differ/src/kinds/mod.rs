//! The kinds of cases, each a fixed number in every round.

mod calls;
mod guests;
mod steps;
mod withheld;

use crate::pair::Pair;
use crate::rng::Rng;

/// One round of a kind.
type Round = fn(&mut Pair, &mut Rng);

/// The kinds by name, in the order of a round.
pub const ALL: [(&str, Round); 6] = [
    ("steps", steps::round),
    ("runs", guests::round),
    ("delivery", calls::deliveries),
    ("valid", calls::making_valid),
    ("refusals", calls::refusals),
    ("withheld", withheld::round),
];
