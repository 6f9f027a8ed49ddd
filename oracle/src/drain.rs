//! How long a queue takes to drain if nothing more arrives and each step
//! releases the rate R, or all that is left.

/// The queue never drains, or has gone after so many steps.
#[derive(Clone, Copy, Debug, PartialEq, Eq)]
pub enum Drain {
    Never,
    Steps(u64),
}

impl Drain {
    /// Of that many mv at that many mv per step. Where the rate divides the
    /// queue, the paper leaves two numbers; this is the greater one, as
    /// docs/DECISIONS.md says.
    pub fn of(queue: u64, rate: u64) -> Drain {
        match (queue, rate) {
            (0, _) => Drain::Steps(0),
            (_, 0) => Drain::Never,
            _ => Drain::Steps(queue / rate + 1),
        }
    }

    /// 1 where it never drains, else 0; then the steps, 0 where it never does.
    pub fn figures(self) -> [u64; 2] {
        match self {
            Drain::Never => [1, 0],
            Drain::Steps(steps) => [0, steps],
        }
    }
}
