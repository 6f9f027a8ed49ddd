//! The arguments of a call for a scene.

use super::source::{any_list, out_of, Source};
use super::Scene;
use crate::calls::{figures_of, Call, Question, RUN_FIGURES};
use crate::cases::{arrivals, spoil_arrival, spoil_length};
use crate::damages::{in_turn, SURVEY};
use crate::draft::{record_length, CURVE, HEAD};
use crate::random::Random;
use crate::surveys::{any_survey, Day};
use oracle::book::SLOTS;
use oracle::case::Setting;
use oracle::network::Origin;

impl Scene<'_> {
    /// Bytes of the network's file.
    pub fn file_length(&self) -> usize {
        let record = record_length(self.network.version);
        HEAD + CURVE * self.network.curves.len() + record * self.network.segments.len()
    }

    pub(super) fn sign(&self, from: &mut Source) -> Call {
        Call::Sign {
            segment: self.segment(from),
            limit: from.limit(),
            compliance: from.compliance(),
        }
    }

    /// `setting` makes it for a ramp that releases so many mv at most.
    pub(super) fn meter(
        &self,
        from: &mut Source,
        setting: fn(&mut Source, u64) -> Setting,
    ) -> Call {
        let segment = self.ramp(from);
        let place = segment.clamp(1, self.network.segments.len() as u64) as usize - 1;
        let most = u64::from(self.network.segments[place].most_released);
        let setting = setting(from, most);
        Call::Meter { segment, setting }
    }

    pub(super) fn arrivals(&self, from: &mut Source) -> Box<[u32]> {
        let (random, wrong) = match from {
            Source::Any(next) => return any_list(next, self.network.segments.len()).into(),
            Source::Suited { random, wrong } => (random, wrong.next()),
        };
        let mut arrivals = arrivals(random, self.network);
        let spoilt = if wrong { random.between(1, 3) } else { 0 };
        if spoilt & 1 == 1 {
            spoil_arrival(random, self.network, &mut arrivals);
        }
        if spoilt & 2 == 2 {
            spoil_length(random, &mut arrivals);
        }
        arrivals.into()
    }

    /// A run of right rows; else a row is refused, the file is damaged, or
    /// there is too little room.
    pub(super) fn run(&self, from: &mut Source) -> Call {
        let file = match from {
            Source::Any(next) => any_survey(next, self.network.segments.len()),
            Source::Suited { random, wrong } => {
                let [damaged, spoilt] = [wrong.next(), wrong.next()];
                let mut day = Day::some(random, self.network);
                if spoilt {
                    day.spoil_row(random, self.network);
                }
                let mut file = day.file();
                if damaged {
                    (in_turn(&SURVEY, random.number()).apply)(&mut file, 0, random);
                }
                file
            }
        };
        Call::Run {
            file: file.into(),
            room: from.room(RUN_FIGURES),
        }
    }

    /// A question about a case; `own` draws all that the question has beside
    /// the case and the room.
    pub(super) fn ask(&self, from: &mut Source, own: impl FnOnce(&mut Source) -> Question) -> Call {
        let case = self.case(from);
        let question = own(from);
        let room = from.room(figures_of(&question));
        Call::Question {
            case,
            question,
            room,
        }
    }

    /// Case 0 or a filled slot; else an empty slot, or none at all.
    fn case(&self, from: &mut Source) -> u64 {
        from.draw(
            |random| match random.once_in(2) {
                true => 0,
                false => self.slot_where(random, true).unwrap_or(0),
            },
            |random| match self.slot_where(random, false) {
                Some(slot) if random.once_in(2) => slot,
                _ => out_of(random, 0, SLOTS as u64),
            },
        )
    }

    /// A slot that is filled as asked for, wherever there is one; else one
    /// that is not, or none of the six.
    pub(super) fn slot(&self, from: &mut Source, filled: bool) -> u64 {
        let some = |random: &mut Random, filled| {
            let slot = self.slot_where(random, filled);
            slot.unwrap_or_else(|| random.between(1, SLOTS as u64))
        };
        from.draw(
            |random| some(random, filled),
            |random| match random.once_in(2) {
                true => out_of(random, 1, SLOTS as u64),
                false => some(random, !filled),
            },
        )
    }

    fn slot_where(&self, random: &mut Random, filled: bool) -> Option<u64> {
        let fits = |&slot: &u64| self.filled[slot as usize - 1] == filled;
        one_of(random, (1..=SLOTS as u64).filter(fits).collect())
    }

    /// A segment 1..n; else one outside.
    pub(super) fn segment(&self, from: &mut Source) -> u64 {
        from.within(1, self.network.segments.len() as u64)
    }

    /// A segment whose ramp can be metered, wherever there is one; else one
    /// without such a ramp, or outside 1..n.
    pub(super) fn ramp(&self, from: &mut Source) -> u64 {
        let n = self.network.segments.len() as u64;
        from.draw(
            |random| {
                let ramp = self.segment_where(random, true);
                ramp.unwrap_or_else(|| random.edge(1, n))
            },
            |random| match self.segment_where(random, false) {
                Some(segment) if random.once_in(2) => segment,
                _ => out_of(random, 1, n),
            },
        )
    }

    fn segment_where(&self, random: &mut Random, ramp: bool) -> Option<u64> {
        let places = 0..self.network.segments.len();
        let fits = places.filter(|&place| (self.network.origin(place) == Origin::Ramp) == ramp);
        one_of(random, fits.map(|place| place as u64 + 1).collect())
    }
}

fn one_of(random: &mut Random, numbers: Vec<u64>) -> Option<u64> {
    match numbers.is_empty() {
        true => None,
        false => Some(random.one_of(&numbers)),
    }
}
