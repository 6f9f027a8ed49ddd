//! The survey file and runs of its rows.

use crate::laid::LIVE;
use crate::lent::Lent;
use crate::study::{ask, book, step};
use oracle::book::{Call, Question};
use oracle::survey::{read, rows, write};

/// Two rows of two segments.
const FILE: [u8; 24] = [
    b'F', b'W', b'D', 0, 1, 2, 0, 2, 0, 0, 0, 5, 0, 0, 1, 0, 0, 15, 66, 65, 255, 255, 255, 255,
];
const LIST: [u32; 4] = [5, 256, 1_000_001, u32::MAX];

fn changed(at: usize, byte: u8) -> Vec<u8> {
    let mut file = FILE.to_vec();
    file[at] = byte;
    file
}

/// The file of rows for three segments.
fn three(rows: &[[u32; 3]]) -> Vec<u8> {
    write(3, rows.as_flattened(), usize::MAX).expect("whole rows")
}

#[test]
fn read_and_written_back() {
    assert_eq!(read(&FILE, 2, 4), Ok((2, LIST.into())));
    assert_eq!(write(2, &LIST, 24), Ok(FILE.into()));
    let taken: Vec<Vec<u32>> = rows(&FILE, 2).expect("accepted").collect();
    assert_eq!(taken, [LIST[..2].to_vec(), LIST[2..].to_vec()]);
    let none = [b'F', b'W', b'D', 0, 1, 40, 0, 0];
    assert_eq!(read(&none, 40, 0), Ok((0, vec![])));
    assert_eq!(write(40, &[], 8), Ok(none.into()));
}

/// 25, then 26, then 24.
#[test]
fn the_reader_refuses() {
    assert_eq!(read(&FILE[..7], 41, 0), Err(25));
    for (at, byte) in [(0, b'f'), (2, b'N'), (3, 1), (4, 2)] {
        assert_eq!(read(&changed(at, byte), 3, 0), Err(25));
    }
    for n in [0, 1, 3, 41, 258, u64::MAX] {
        assert_eq!(read(&FILE, n, 4), Err(26));
    }
    assert_eq!(read(&changed(5, 41), 41, 4), Err(26));
    assert_eq!(read(&changed(7, 1), 2, 4), Err(26));
    assert_eq!(read(&changed(7, 3), 2, 4), Err(26));
    assert_eq!(read(&FILE[..23], 2, 0), Err(26));
    assert_eq!(read(&FILE, 2, 3), Err(24));
}

/// 20,000 rows are accepted and 20,001 are not, on either side.
#[test]
fn the_most_rows() {
    let list = vec![7; 20_001];
    let mut file = write(1, &list[1..], 80_008).expect("20,000 rows");
    assert_eq!(read(&file, 1, 20_000), Ok((20_000, list[1..].to_vec())));
    assert_eq!(write(1, &list, usize::MAX), Err(26));
    file[7] += 1;
    file.extend([0; 4]);
    assert_eq!(read(&file, 1, 20_001), Err(26));
}

/// 26, then 24.
#[test]
fn the_writer_refuses() {
    for n in [0, 41, u64::MAX] {
        assert_eq!(write(n, &[], 0), Err(26));
    }
    assert_eq!(write(3, &LIST, 0), Err(26));
    assert_eq!(write(2, &LIST, 23), Err(24));
    assert_eq!(write(2, &[], 7), Err(24));
}

/// The listing as one run of two rows.
#[test]
fn the_listing() {
    let mut lent = Lent::tallies();
    let file = write(1, &[4_000, 0], 16).expect("two rows");
    assert_eq!(lent.call(&Call::Run { file: &file }), Ok(vec![2, 0]));
    let report = lent.call(&ask(0, &Question::Case));
    assert_eq!(report, Ok(vec![2, 10_556, 0, 4_000, 18_444, 440_000]));
    assert_eq!(lent.call(&Call::RunCount), Ok(vec![2]));
}

/// A run ends at the first refused row, and is that many single steps, in the
/// book and in the arrays.
#[test]
fn a_run_is_single_steps() {
    let (mut run, mut lent) = (book(), Lent::started());
    let (mut singles, mut stepped) = (book(), Lent::started());
    let rows = [[9_000, 2_500, 0], [0, 0, 0], [1, 0, 2], [7, 7, 0]];
    let file = three(&rows);
    let call = Call::Run { file: &file };
    assert_eq!(run.call(&call), Ok(vec![2, 15]));
    assert_eq!(lent.call(&call), Ok(vec![2, 15]));
    for row in &rows[..2] {
        assert_eq!(singles.call(&step(row)), Ok(vec![]));
        assert_eq!(stepped.step(row), 0);
    }
    assert_eq!(lent.bits(), stepped.bits());
    assert_eq!(run.live().items(), singles.live().items());
    assert_eq!((run.runs(), run.live().case()), (2, singles.live().case()));
    lent.assert_past();
}

/// A refused first row, and a file without rows, are accepted runs that leave
/// everything.
#[test]
fn runs_of_no_rows() {
    let mut lent = Lent::started();
    let before = lent.bits();
    let (bad, none) = (three(&[[0, 0, 1]]), three(&[]));
    assert_eq!(lent.call(&Call::Run { file: &bad }), Ok(vec![0, 15]));
    assert_eq!(lent.call(&Call::Run { file: &none }), Ok(vec![0, 0]));
    assert_eq!(book().call(&Call::Run { file: &bad }), Ok(vec![0, 15]));
    assert_eq!(lent.bits(), before);
}

/// 12, then 25, then 26; nothing changes.
#[test]
fn refused_runs() {
    let mut lent = Lent::started();
    let (two, good) = (FILE.to_vec(), three(&[[0; 3]]));
    lent.words[2560] = 1_000_001;
    assert_eq!(lent.number(&Call::Run { file: &good[..7] }), 12);
    lent.words[2560] = 0;
    let before = lent.bits();
    for (file, number) in [(&good[..7], 25), (&two, 26), (&good[..19], 26)] {
        assert_eq!(lent.number(&Call::Run { file }), number);
        assert_eq!(book().call(&Call::Run { file }), Err(number));
    }
    assert_eq!(lent.bits(), before);
}

/// 16 on the line and in the run count, after a row each.
#[test]
fn no_more_steps() {
    let file = three(&[[0; 3]; 3]);
    for (word, most) in [(LIVE + 48, 20_000), (2560, 1_000_000)] {
        let mut lent = Lent::started();
        lent.words[word] = most - 1;
        assert_eq!(lent.call(&Call::Run { file: &file }), Ok(vec![1, 16]));
        assert_eq!(lent.words[word], most);
    }
}

/// A study written by hand at a bound: the first row passes it, and the second
/// meets 12.
#[test]
fn a_row_meets_twelve() {
    const MOST: u64 = 1_000_000_000_000;
    let file = three(&[[1, 0, 0]; 5]);
    // All mv in the queue of segment 1; then arrivals, exits and time.
    let bounds: [&[(usize, u64)]; 4] = [
        &[(0, 0), (16, 0), (17, 0), (32, 0), (1, MOST)],
        &[(49, MOST)],
        &[(50, MOST)],
        &[(51, 1_000_000 * MOST)],
    ];
    for figures in bounds {
        let mut lent = Lent::started();
        for &(word, figure) in figures {
            lent.words[LIVE + word] = figure;
        }
        let mut stepped = lent.clone();
        assert_eq!(lent.call(&Call::Run { file: &file }), Ok(vec![1, 12]));
        assert_eq!(stepped.step(&[1, 0, 0]), 0);
        assert_eq!(stepped.step(&[1, 0, 0]), 12);
        assert_eq!(lent.bits(), stepped.bits());
    }
}
