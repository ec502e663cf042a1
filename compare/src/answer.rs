//! The list of answers.

/// What a call is refused for. `DONE` (0) is no refusal and has no variant.
#[derive(Clone, Copy, Debug, PartialEq, Eq)]
pub enum Reason {
    Buffer = 1,
    Damaged = 2,
    Reset = 3,
    Frozen = 4,
    TooLong = 5,
    Line = 6,
    Place = 7,
    List = 8,
    Room = 9,
    Overlap = 10,
    Arg = 11,
    Range = 12,
    Duplicate = 13,
    Table = 14,
    Name = 15,
    Out = 16,
    // Request 3/14 parts these from 6: faults of a line, told with a column.
    Fields = 17,
    Number = 18,
    Symbol = 19,
    Marker = 20,
    Type = 21,
    /// Request 5/14: a piece that is too long, or a call that does not fit what is open.
    Feed = 23,
}

/// A refused call: the reason, and the line and the column of the file that it is told at (0 where none is named).
#[derive(Clone, Copy, Debug, PartialEq, Eq)]
pub struct Refusal {
    pub reason: Reason,
    /// Short, so that a result with a refusal in it is no larger than it was without a column: every line read makes one.
    pub column: u32,
    pub line: u64,
}

impl Refusal {
    pub fn at(reason: Reason, line: u64) -> Refusal {
        Refusal { reason, line, column: 0 }
    }

    pub fn number(self) -> u64 {
        self.reason as u64
    }

    /// Whether a LOAD refused like this was refused for what is in its file, and so sets the broken mark.
    pub fn breaks(self) -> bool {
        let number = self.number();
        let reading_and_walk = Reason::Line as u64..=Reason::Table as u64;
        let parted_from_6 = Reason::Fields as u64..=Reason::Type as u64;
        reading_and_walk.contains(&number) || parted_from_6.contains(&number)
    }
}

impl From<Reason> for Refusal {
    fn from(reason: Reason) -> Refusal {
        Refusal::at(reason, 0)
    }
}
