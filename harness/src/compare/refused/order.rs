//! Rows 12, 13, 15 and 16 alone and together: the first is the answer.

use crate::arrays::Arrays;
use crate::calls::Call;
use crate::cases::{arrivals, spoil_arrival, spoil_length, wild, MOST_STEPS};
use crate::compare::both::Both;
use crate::compare::Difference;
use crate::damages::{any_of, Damage, CASE, MARKS};
use crate::made::NOT_SOUND;
use crate::networks::network;
use crate::random::Random;
use crate::stored_case::CaseDraft;
use crate::study::{put_draft_at, speeds_for, words_for, Study, MOST_RUNS};

/// The rows in their order.
const ROWS: [u64; 4] = [NOT_SOUND, 13, 15, 16];

/// Every choice of rows in turn.
pub fn one(random: &mut Random, turn: u64) -> Result<(), Difference> {
    let chosen = turn % 15 + 1;
    let rows = (0..4).filter(|row| chosen >> row & 1 == 1);
    let rows: Vec<u64> = rows.map(|row| ROWS[row]).collect();
    let damage = any_of(&CASE, NOT_SOUND, None, random);
    let (mut draft, runs) = draft(random, rows.contains(&16), damage);
    let unsound = rows.contains(&NOT_SOUND).then_some(damage);
    let arrays = arrays(random, &mut draft, runs, unsound);
    let network = &draft.network;
    let mut arrivals = arrivals(random, network);
    if rows.contains(&15) {
        spoil_arrival(random, network, &mut arrivals);
    }
    if rows.contains(&13) {
        spoil_length(random, &mut arrivals);
    }
    let what = format!("rows {rows:?}, {} arrivals", arrivals.len());
    let step = Both::new(arrays).expect(Call::Step(arrivals.into()), rows[0]);
    step.map_err(|difference| difference.of(&what))?;
    Ok(())
}

/// A live case that the damage can be done to and a run count that have a step
/// left; or none is left on the line, in all, or either way.
fn draft(random: &mut Random, used_up: bool, damage: &Damage<CaseDraft>) -> (CaseDraft, u64) {
    let network = network(random, damage.shape());
    let mut live = wild(random, &network);
    let mut runs = random.below(MOST_RUNS);
    let way = if used_up { random.between(1, 3) } else { 0 };
    if way & 1 == 1 {
        live.steps = MOST_STEPS;
    }
    if way & 2 == 2 {
        runs = MOST_RUNS;
    }
    (CaseDraft::new(network, live, random), runs)
}

/// The study in arrays, sound or with something that makes it unsound: an
/// array too short, any damage to marks, or this one to the case.
fn arrays(
    random: &mut Random,
    draft: &mut CaseDraft,
    runs: u64,
    unsound: Option<&Damage<CaseDraft>>,
) -> Arrays {
    let mut way = 0;
    if let Some(damage) = unsound {
        way = random.between(1, 6);
        if way > 3 {
            let place = damage.place(&draft.network, random);
            (damage.apply)(draft, place, random);
        }
    }
    let study = Study::live(draft.network.clone(), runs, draft.case.clone());
    let n = draft.n();
    let mut arrays = study.laid(random);
    put_draft_at(0, draft, &mut arrays);
    match way {
        1 => arrays.lent_words = words_for(n) - 1,
        2 => arrays.lent_speeds = speeds_for(n) - 1,
        3 => (any_of(&MARKS, NOT_SOUND, None, random).apply)(&mut arrays, 0, random),
        _ => {}
    }
    arrays
}
