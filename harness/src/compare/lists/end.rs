//! The end of a list: network, run count, marks, every case and every
//! segment, as the arrays hold them and as reports give them.

use super::List;
use crate::calls::{figures_of, Call, Question};
use crate::compare::Difference;
use crate::random::Random;
use oracle::book::SLOTS;

impl List {
    /// The study is the book's. Where asked for, every report is made too.
    pub(super) fn end(&mut self, random: &mut Random, reports: bool) -> Result<(), Difference> {
        if self.followed.book().is_none() {
            return Err(self.followed.differs("no Start was accepted"));
        }
        self.followed.end()?;
        self.followed.take(Call::Sound)?;
        if reports {
            self.reports()?;
            let room = self.scene().file_length() - random.below(2) as usize;
            self.followed.take(Call::Write { room })?;
        }
        Ok(())
    }

    fn reports(&mut self) -> Result<(), Difference> {
        let segments = self.scene().network.segments.len() as u64;
        self.followed.take(Call::RunCount { room: 1 })?;
        for case in 0..=SLOTS as u64 {
            self.ask(case, Question::Case)?;
            for segment in 1..=segments {
                self.ask(case, Question::Segment(segment))?;
                self.ask(case, Question::Drain(segment))?;
            }
        }
        Ok(())
    }

    fn ask(&mut self, case: u64, question: Question) -> Result<(), Difference> {
        let question = Call::Question {
            case,
            room: figures_of(&question),
            question,
        };
        self.followed.take(question).map(|_| ())
    }
}
