//! Files of rows that rise by their numbers: which rows some records refer to,
//! and these rows as a file of their own.

use super::input::Chain;
use crate::stop::Stop;
use std::ops::Range;

/// A number by which a row is found; 0 is none.
pub type Number = u32;

/// A file of rows, of which the numbers are known.
pub struct Rows {
    chain: Chain,
    numbers: Vec<Number>,
    /// For each stretch of numbers the place of its first row, so that a search
    /// begins in the right one.
    starts: Vec<u32>,
    /// How many bits of a number tell its place in its stretch.
    shift: u32,
}

/// About how many rows a stretch has where the numbers have no gaps.
const STRETCH: usize = 16;

impl Rows {
    /// Reads the numbers of all rows. Equal ones stand side by side.
    pub fn read(chain: Chain, number: fn(&[u8]) -> Number) -> Result<Rows, Stop> {
        let mut numbers = Vec::with_capacity(chain.records() as usize);
        chain.each_block(|block| {
            numbers.extend(block.chunks_exact(chain.kind.record).map(number));
            Ok(())
        })?;
        let highest = numbers.last().map_or(0, |last| *last as usize);
        let stretches = numbers.len() / STRETCH + 1;
        let shift = (0..).find(|shift| highest >> shift < stretches);
        let shift = shift.expect("a number ends");
        let starts = starts(&numbers, shift);
        Ok(Rows {
            chain,
            numbers,
            starts,
            shift,
        })
    }

    /// How many rows there are.
    pub fn count(&self) -> usize {
        self.numbers.len()
    }

    /// The places of the rows of a number.
    pub fn of(&self, number: Number) -> Range<usize> {
        let stretch = (number >> self.shift) as usize;
        let Some([first, behind]) = self.starts.get(stretch..stretch + 2) else {
            return 0..0;
        };
        let some = &self.numbers[*first as usize..*behind as usize];
        let start = some.partition_point(|other| *other < number);
        let same = some[start..].iter().take_while(|other| **other == number);
        let start = *first as usize + start;
        start..start + same.count()
    }

    /// Marks for these rows, none of them set.
    pub fn marks(&self) -> Marks {
        Marks {
            bits: vec![0; self.numbers.len().div_ceil(WORD)],
            count: 0,
        }
    }

    /// The marked rows as a file of their own.
    pub fn file_of(&self, marks: &Marks) -> Result<Vec<u8>, Stop> {
        let record = self.chain.kind.record;
        let mut file = self.chain.header.clone();
        file.reserve((marks.count + 1) * record);
        let mut some = Vec::new();
        for (word, start) in marks.bits.iter().zip((0..).step_by(WORD)) {
            if *word == 0 {
                continue;
            }
            let (first, behind) = (word.trailing_zeros(), WORD as u32 - word.leading_zeros());
            some.clear();
            let places = start + first as u64..start + u64::from(behind);
            self.chain.read(places, &mut some)?;
            let rows = some.chunks_exact(record).zip(first..);
            rows.filter(|(_, bit)| word >> bit & 1 == 1)
                .for_each(|(row, _)| file.extend(row));
        }
        file.extend(self.chain.trailer(marks.count + 2));
        Ok(file)
    }
}

/// The place of the first row of each stretch of numbers, and behind them how many
/// rows there are.
fn starts(numbers: &[Number], shift: u32) -> Vec<u32> {
    let mut starts = Vec::new();
    for (place, number) in numbers.iter().enumerate() {
        let stretch = (number >> shift) as usize;
        starts.resize(starts.len().max(stretch + 1), place as u32);
    }
    starts.push(numbers.len() as u32);
    starts
}

/// How many marks stand in a word.
const WORD: usize = 64;

/// Marks on the rows of a file.
pub struct Marks {
    bits: Vec<u64>,
    /// How many are set.
    pub count: usize,
}

impl Marks {
    pub fn set(&mut self, place: usize) {
        let (word, bit) = (&mut self.bits[place / WORD], 1 << (place % WORD));
        self.count += usize::from(*word & bit == 0);
        *word |= bit;
    }

    pub fn is_set(&self, place: usize) -> bool {
        self.bits[place / WORD] >> (place % WORD) & 1 == 1
    }
}
