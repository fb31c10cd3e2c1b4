//! Document 01, "Numbered refusals": an answer is a value, or a refusal that
//! holds a reason with its own detail inside.

/// Why a call is refused. A detail that document 01 does not name is 0.
#[derive(Clone, Copy, PartialEq, Eq, Debug)]
pub struct Refusal {
    /// Document 01's number, 1 to 12, or document 02's.
    pub number: u8,
    /// The file to blame: 1 the table file, 2 the point file; 1 to 7 in a
    /// Mainfile set; 0 none.
    pub file: u8,
    /// The byte of the record where 4 is given, the field of the row where 14
    /// is, the view number where building gives 8 or 9, how many labels stand
    /// before where a run of labels stops, otherwise 0.
    pub second: u64,
    /// The detail of document 01's table.
    pub detail: u64,
}

impl Refusal {
    /// A refusal that blames no file.
    pub fn new(number: u8, detail: u64) -> Refusal {
        Refusal::of_file(0, number, detail)
    }

    /// A refusal of the file of that number.
    pub fn of_file(file: u8, number: u8, detail: u64) -> Refusal {
        Refusal {
            number,
            file,
            second: 0,
            detail,
        }
    }

    /// Refusal 4: a record of a file, and the byte of it at which its first
    /// fault stands, both counted from 1.
    pub fn malformed(file: u8, record: usize, byte: usize) -> Refusal {
        Refusal {
            second: byte as u64,
            ..Refusal::of_file(file, 4, record as u64)
        }
    }

    /// Refusal 14: a row of a CSV file, and its first malformed field, both
    /// counted from 1.
    pub fn malformed_row(row: usize, field: usize) -> Refusal {
        Refusal {
            second: field as u64,
            ..Refusal::new(14, row as u64)
        }
    }

    /// The refusal as one number: its own number from bit 56, the file from
    /// bit 52, the second detail from bit 32, the last 32 bits of the detail
    /// from bit 0.
    pub fn packed(&self) -> u64 {
        let detail = self.detail % (1 << 32);
        u64::from(self.number) << 56 | u64::from(self.file) << 52 | self.second << 32 | detail
    }
}

/// An answer as one number: the value where there is one, else the refusal.
pub fn packed(answer: Result<u64, Refusal>) -> u64 {
    match answer {
        Ok(value) => value,
        Err(refusal) => refusal.packed(),
    }
}
