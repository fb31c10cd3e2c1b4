//! Files of any length, read in blocks of whole records. What is damaged is told
//! with its record: each block is lent to the library as a file of its own, with a
//! header, the record before it and a trailer, so that order and organisation
//! records are judged as in the whole.

use crate::files::name_of;
use crate::kind::{count, Kind, WIDTH};
use crate::progress::Progress;
use crate::stop::Stop;
use std::fs::File;
use std::io;
use std::ops::Range;
use std::os::unix::fs::FileExt;
use std::path::Path;
use ttw::ask::Refusal;

/// How many records are read at a time, fewer than the library accepts of any
/// kind.
const BLOCK: u64 = 1 << 14;

/// The refusal of a trailer.
const TRAILER: u8 = 3;

/// The line ends that some programs add when they transfer a file.
const LINE_ENDS: [(&[u8], &str); 2] = [(b"\r\n", "CR LF"), (b"\n", "LF")];

/// One file, opened.
pub struct Input {
    kind: &'static Kind,
    name: String,
    file: File,
    /// Bytes behind each record.
    line_end: &'static [u8],
    records: u64,
    /// The records between header and trailer, 0 being the first of the file.
    body: Range<u64>,
}

impl Input {
    /// Opens a file of whole records. Line ends are told, unless they may be
    /// taken out.
    pub fn open(path: &Path, kind: &'static Kind, line_ends: bool) -> Result<Input, Stop> {
        let name = name_of(path);
        let cannot = |why: &str| Stop::could_not(format!("cannot read {name}: {why}"));
        let file = File::open(path).map_err(|why| cannot(&why.to_string()))?;
        let there = file.metadata().map_err(|why| cannot(&why.to_string()))?;
        if !there.is_file() {
            return Err(cannot("it is not a plain file"));
        }
        let found = line_end_in(&file, kind).map_err(|why| cannot(&why.to_string()))?;
        if let Some((_, shown)) = found.filter(|_| !line_ends) {
            return Err(Stop::Refused(format!(
                "{name}: a line end, {shown}, stands behind record 1: --line-ends takes such out"
            )));
        }
        let line_end = found.map_or(&[][..], |found| found.0);
        let stride = (kind.record + line_end.len()) as u64;
        let records = whole_records(there.len(), stride);
        let records = records.map_err(|why| Stop::Refused(format!("{name}: {why} (refusal 1)")))?;
        Ok(Input {
            kind,
            name,
            file,
            line_end,
            records,
            body: 1..records - 1,
        })
    }

    /// Puts so many records from a place on behind these bytes, without line
    /// ends.
    fn read(&self, from: u64, records: u64, bytes: &mut Vec<u8>) -> Result<(), Stop> {
        let stride = self.kind.record + self.line_end.len();
        let start = bytes.len();
        bytes.resize(start + records as usize * stride, 0);
        self.file
            .read_exact_at(&mut bytes[start..], from * stride as u64)
            .map_err(|why| Stop::could_not(format!("cannot read {}: {why}", self.name)))?;
        if !self.line_end.is_empty() {
            let kept = self.without_line_ends(from, &mut bytes[start..])?;
            bytes.truncate(start + kept);
        }
        Ok(())
    }

    /// Moves the records together over their line ends, and says how many bytes
    /// they then have.
    fn without_line_ends(&self, from: u64, bytes: &mut [u8]) -> Result<usize, Stop> {
        let (record, stride) = (self.kind.record, self.kind.record + self.line_end.len());
        let records = bytes.len() / stride;
        for index in 0..records {
            let behind = index * stride + record;
            if bytes[behind..][..self.line_end.len()] != *self.line_end {
                let (name, number) = (&self.name, from + 1 + index as u64);
                return Err(Stop::Refused(format!(
                    "{name}: record {number} has not the line end of record 1 behind it (refusal 1)"
                )));
            }
            bytes.copy_within(index * stride..behind, index * record);
        }
        Ok(records * record)
    }

    /// The record at a place.
    fn record(&self, at: u64) -> Result<Vec<u8>, Stop> {
        let mut record = Vec::new();
        self.read(at, 1, &mut record)?;
        Ok(record)
    }

    fn first(&self) -> Result<Vec<u8>, Stop> {
        self.record(0)
    }

    fn last(&self) -> Result<Vec<u8>, Stop> {
        self.record(self.records - 1)
    }

    /// The first record that is no header.
    fn beginning(&self) -> Result<Vec<u8>, Stop> {
        let first = self.first()?;
        match self.kind.begins(&first) {
            true => self.record(1),
            false => Ok(first),
        }
    }

    /// A refusal of this file, said with its name.
    fn refused(&self, why: &Refusal) -> Stop {
        Stop::Refused(format!("{}: {}", self.name, self.kind.words(why)))
    }

    /// Fails unless the first record is a header.
    fn check_header(&self) -> Result<(), Stop> {
        let [_, trailer] = self.kind.ends();
        let ends = [self.first()?, trailer].concat();
        self.kind.check(&ends).map_err(|why| self.refused(&why))
    }

    /// Fails unless the last record is a trailer that counts so many.
    fn check_trailer(&self, counted: u64) -> Result<(), Stop> {
        let [header, _] = self.kind.ends();
        let trailer = self.last()?;
        let says = &trailer[self.kind.at..self.kind.at + WIDTH];
        let ends = [header, self.kind.counted(&trailer, 2)].concat();
        if says == count(counted).as_bytes() && self.kind.check(&ends).is_ok() {
            return Ok(());
        }
        Err(self.refused(&Refusal {
            number: TRAILER,
            file: self.kind.file,
            second: 0,
            detail: self.records,
        }))
    }
}

/// How many records of so many bytes there are, a header and a trailer at least;
/// what is wrong about the length, in words.
fn whole_records(length: u64, record: u64) -> Result<u64, String> {
    let (records, rest) = (length / record, length % record);
    match rest {
        0 if records < 2 => Err("there are no two records, a header and a trailer".to_string()),
        0 => Ok(records),
        _ => {
            let last = records + 1;
            Err(format!(
                "record {last}, the last, has {rest} bytes of {record}"
            ))
        }
    }
}

/// The line end behind the first record of a file, if there is one: no record
/// begins with such a byte.
fn line_end_in(file: &File, kind: &Kind) -> io::Result<Option<(&'static [u8], &'static str)>> {
    let mut behind = [0; 2];
    let got = file.read_at(&mut behind, kind.record as u64)?;
    let found = |end: &&(&[u8], &str)| behind[..got].starts_with(end.0);
    Ok(LINE_ENDS.iter().find(found).copied())
}

/// Files in a row that stand for one: a header in the first, a trailer in the
/// last, and between two of them both or neither.
pub struct Chain {
    pub kind: &'static Kind,
    inputs: Vec<Input>,
    pub header: Vec<u8>,
    trailer: Vec<u8>,
}

impl Chain {
    /// The chain of these files, one or more, in this order; headers, trailers
    /// and counts are as they have to be.
    pub fn new(mut inputs: Vec<Input>) -> Result<Chain, Stop> {
        let mut counted = 0;
        let last = inputs.len() - 1;
        let mut begins = true;
        for index in 0..inputs.len() {
            let ends = index == last || is_gap(&inputs[index], &inputs[index + 1])?;
            let input = &mut inputs[index];
            counted += input.records;
            input.body = u64::from(begins)..input.records - u64::from(ends);
            if begins {
                input.check_header()?;
            }
            if ends {
                input.check_trailer(counted)?;
                counted = 0;
            }
            begins = ends;
        }
        Ok(Chain {
            kind: inputs[0].kind,
            header: inputs[0].first()?,
            trailer: inputs[last].last()?,
            inputs,
        })
    }

    /// The chain of these files, in the order of the first record that each has
    /// behind its header.
    pub fn in_order(inputs: Vec<Input>) -> Result<Chain, Stop> {
        let begun = |input: Input| Ok((input.beginning()?, input));
        let mut begun: Vec<(Vec<u8>, Input)> =
            inputs.into_iter().map(begun).collect::<Result<_, Stop>>()?;
        begun.sort_by(|one, other| one.0.cmp(&other.0));
        Chain::new(begun.into_iter().map(|(_, input)| input).collect())
    }

    /// A trailer for so many records, header and trailer counted.
    pub fn trailer(&self, records: usize) -> Vec<u8> {
        self.kind.counted(&self.trailer, records)
    }

    /// How many records stand between headers and trailers.
    pub fn records(&self) -> u64 {
        let bodies = self.inputs.iter().map(|input| &input.body);
        bodies.map(|body| body.end - body.start).sum()
    }

    /// Puts records of a chain of one file behind these bytes, place 0 being the
    /// first behind the header.
    pub fn read(&self, places: Range<u64>, bytes: &mut Vec<u8>) -> Result<(), Stop> {
        let input = &self.inputs[0];
        let first = input.body.start + places.start;
        input.read(first, places.end - places.start, bytes)
    }

    /// Hands on all records between headers and trailers in blocks that the
    /// library accepts. No block ends between a record and the one that belongs
    /// to it.
    pub fn each_block(&self, mut take: impl FnMut(&[u8]) -> Result<(), Stop>) -> Result<(), Stop> {
        let blocks: u64 = self
            .inputs
            .iter()
            .map(|input| input.records.div_ceil(BLOCK))
            .sum();
        let mut progress = Progress::new(blocks as usize);
        let mut window = Window::new(self);
        let done = self.inputs.iter().try_for_each(|input| {
            window.move_to(input.body.start);
            while window.read(input)? {
                progress.step(&format!("reading the {} file", self.kind.name));
                take(window.judged(input)?)?;
            }
            Ok(())
        });
        progress.clear();
        done
    }
}

/// Whether one file ends and the next begins anew between these two.
fn is_gap(one: &Input, next: &Input) -> Result<bool, Stop> {
    let has_trailer = !one.last()?[0].is_ascii_uppercase();
    Ok(has_trailer || one.kind.begins(&next.first()?))
}

/// What is lent to the library of a chain: its header, what was accepted last,
/// what was read behind it, and a trailer.
struct Window<'a> {
    chain: &'a Chain,
    bytes: Vec<u8>,
    /// Where the records begin that were read behind those accepted.
    fresh: usize,
    /// What was read and waits for the next block.
    held: Vec<u8>,
    /// The places in the file of the first fresh record, and of the next one to
    /// be read.
    first: u64,
    next: u64,
}

impl Window<'_> {
    fn new(chain: &Chain) -> Window<'_> {
        Window {
            chain,
            bytes: chain.header.clone(),
            fresh: chain.header.len(),
            held: Vec::new(),
            first: 0,
            next: 0,
        }
    }

    /// Goes on with the records of another file.
    fn move_to(&mut self, first: u64) {
        (self.first, self.next) = (first, first);
    }

    /// Reads the next block of a file; whether there is one.
    fn read(&mut self, input: &Input) -> Result<bool, Stop> {
        self.carry();
        self.bytes.append(&mut self.held);
        let records = BLOCK.min(input.body.end - self.next);
        input.read(self.next, records, &mut self.bytes)?;
        self.next += records;
        if self.next < input.body.end {
            let behind_first = self.fresh + self.chain.kind.record;
            let cut = self.last_beginning(behind_first);
            self.held = self.bytes.split_off(cut.unwrap_or(self.bytes.len()));
        }
        Ok(self.bytes.len() > self.fresh)
    }

    /// Leaves the last record that was accepted, with what belongs to it, behind
    /// the header.
    fn carry(&mut self) {
        let record = self.chain.kind.record;
        self.first += ((self.bytes.len() - self.fresh) / record) as u64;
        if let Some(tail) = self.last_beginning(record) {
            self.bytes.drain(record..tail);
        }
        self.fresh = self.bytes.len();
    }

    /// Where the last record begins that belongs to none before it, from a place
    /// on.
    fn last_beginning(&self, from: usize) -> Option<usize> {
        let kind = self.chain.kind;
        let mut places = (from..self.bytes.len()).step_by(kind.record).rev();
        places.find(|at| !kind.follows(&self.bytes[*at..]))
    }

    /// The fresh records, where the library accepts them.
    fn judged(&mut self, input: &Input) -> Result<&[u8], Stop> {
        let (length, record) = (self.bytes.len(), self.chain.kind.record);
        let trailer = self.chain.trailer(length / record + 1);
        self.bytes.extend(trailer);
        self.chain.kind.check(&self.bytes).map_err(|why| {
            let before = (self.fresh / record) as u64;
            let detail = self.first + why.detail.saturating_sub(before);
            input.refused(&Refusal { detail, ..why })
        })?;
        self.bytes.truncate(length);
        Ok(&self.bytes[self.fresh..])
    }
}
