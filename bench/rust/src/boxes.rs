//! The boxes: keys of 8 bytes with rows of 30 bytes, each key with one or several Put records, and for the calls that
//! end a lock some keys locked besides.

use paper::restore::{Image, RawLock, RawRecord};
use paper::store::Bytes;

/// The table of every key.
pub const TABLE: u32 = 1;
/// Reads look above every record and below every lock.
pub const MOMENT: u64 = 1_000;
/// The transaction that locks and changes.
pub const TRANSACTION: u64 = 7;
pub const START: u64 = 2_000;
pub const COMMIT: u64 = 2_001;
pub const TIME_TO_LIVE: u64 = 1;

/// So many keys, each with so many records.
#[derive(Clone, Copy)]
pub struct Size {
    pub keys: usize,
    pub records: usize,
}

pub const SIZES: [Size; 4] = [
    Size { keys: 10, records: 1 },
    Size { keys: 100, records: 1 },
    Size { keys: 900, records: 1 },
    Size { keys: 110, records: 8 },
];

/// With so many keys locked besides, all four rooms are full: 1,024 lines and rows, 256 locks and 49,152 live bytes.
pub const FULL: Size = Size { keys: 768, records: 1 };
pub const LOCKED: usize = 256;

/// A season's box: every line and every row is taken, by two records a key.
pub const SEASON: Size = Size { keys: 512, records: 2 };
/// Above the first record of each key and below the second.
pub const BETWEEN: u64 = 200;

impl Size {
    pub fn name(self) -> String {
        if self.records == 1 { self.keys.to_string() } else { format!("{}x{}", self.keys, self.records) }
    }

    /// As many keys as there are, but at most `most`, spread evenly.
    pub fn spread(self, most: usize) -> Vec<usize> {
        let many = most.min(self.keys);
        (0..many).map(|i| i * self.keys / many).collect()
    }
}

/// The key with this number; the boxes hold the even ones.
fn numbered(number: usize) -> Bytes {
    [TABLE.to_be_bytes(), (number as u32).to_be_bytes()].concat()
}

pub fn key(place: usize) -> Bytes {
    numbered(2 * place)
}

/// The key that would stand after the one at this place, and is in no box.
pub fn missing(place: usize) -> Bytes {
    numbered(2 * place + 1)
}

/// A row of one integer, one text and no bones, 30 bytes.
pub fn row(number: usize) -> Bytes {
    let mut row = vec![1];
    row.extend_from_slice(&(number as u64).to_be_bytes());
    row.extend_from_slice(&[1, 18]);
    row.resize(29, number as u8);
    row.push(0);
    row
}

/// The image of a box, the keys at these places locked besides by a Put.
pub fn image(size: Size, locked: &[usize]) -> Bytes {
    let mut image = Image { table: TABLE, ..Image::default() };
    for place in 0..size.keys {
        for record in 1..=size.records as u64 {
            let (start, commit) = (100 * record, 100 * record + 50);
            image.defaults.push((key(place), start, row(place)));
            image.writes.push((key(place), commit, RawRecord { start, commit, kind: 1 }));
        }
    }
    for &place in locked {
        let lock = RawLock {
            transaction: TRANSACTION,
            primary: key(locked[0]),
            start: START,
            time_to_live: TIME_TO_LIVE,
            kind: 1,
        };
        image.locks.push((key(place), lock));
        image.defaults.push((key(place), START, row(place + 1)));
    }
    image.write()
}
