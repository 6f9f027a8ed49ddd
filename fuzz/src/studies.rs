//! Arrays of any content, lent to calls on a study.

use crate::arrays::Made;
use crate::calls;
use crate::files::valid;
use crate::input::Input;
use harness::arrays::Arrays;
use harness::compare::followed::Followed;
use harness::compare::Difference;
use harness::made::{self, any_study};
use harness::study::{speeds_for, words_for};
use oracle::file::Network;

/// Most calls of an input.
const CALLS: usize = 16;

/// Calls on a study, as many as the input has bytes for.
pub fn calls(input: &mut Input) -> Result<(), Difference> {
    let mut random = input.random();
    if input.below(4) == 0 {
        // As the tests of the harness make them, one range's end after another.
        let index = u64::from(input.byte()) << 8 | u64::from(input.byte());
        let mut made = made::any(&mut random, index);
        let (words, speeds) = made.arrays.lent();
        let exact = Arrays::lend_all(words.to_vec(), speeds.to_vec());
        return list(input, exact, &made.study.network);
    }
    let network = valid(input, &mut random);
    let arrays = any_study(&mut random, network.clone()).laid(&mut random);
    let n = network.segments.len();
    let mut made = Made {
        words: arrays.words.into(),
        speeds: arrays.speeds.into(),
        n,
    };
    made.fill(input, &mut random);
    made.cut(input, words_for(n), speeds_for(n));
    made.patch(input);
    list(input, Arrays::lend_all(made.words, made.speeds), &network)
}

fn list(input: &mut Input, arrays: Arrays, network: &Network) -> Result<(), Difference> {
    let mut followed = Followed::new(arrays);
    for _ in 0..CALLS {
        let call = calls::next(input, &followed, network);
        followed.take(call)?;
        if input.is_over() {
            break;
        }
    }
    followed.end()
}
