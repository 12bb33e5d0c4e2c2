//! The numbers that a call gives back, each with what it means.
use std::fmt;

/// Why a start or a run was refused.
#[derive(Clone, Copy, Debug, PartialEq)]
pub enum Error {
    /// 1: a box length is out of range or not finite. Nothing was started.
    Length,
    /// 2: a count is out of range, or a table is shorter than the counts need. Nothing is changed.
    Count,
    /// 3: the sync rate is out of range or not finite. Nothing is changed.
    Rate,
    /// 4: a start number of a grain, its radius too, is out of range or not finite. Nothing was started.
    Grain {
        /// The lowest such grain.
        lowest: u64,
    },
    /// 5 to 9: the run has halted, or an earlier start or run had. All that came before the refused act is
    /// done, and later runs answer the same number.
    Halted {
        by: Halt,
        /// The time of the refused event; 0 where the halt came before this run.
        clock: f64,
        /// The whole events done; 0 where the halt came before this run.
        events: u64,
    },
    /// 10: the tables break a standing fact. Nothing is changed.
    Fact,
}

/// What a halted run was stopped by.
#[derive(Clone, Copy, Debug, PartialEq, Eq)]
pub enum Halt {
    /// 5: a number about to be stored is not finite, or an event's time is not below `f64::MAX`.
    NotFinite,
    /// 6: an event is to be inserted, and the cell holds its full number.
    EventsFull,
    /// 7: a 33rd grain in a cell, or a 9th cell of a grain.
    ListFull,
    /// 8: a grain enters a cell that lists it already.
    ListedAlready,
    /// 9: a grain would leave its only cell.
    OnlyCell,
}

impl Halt {
    /// The halt of a number from 5 to 9.
    pub fn of(number: u64) -> Option<Halt> {
        Some(match number {
            5 => Halt::NotFinite,
            6 => Halt::EventsFull,
            7 => Halt::ListFull,
            8 => Halt::ListedAlready,
            9 => Halt::OnlyCell,
            _ => return None,
        })
    }

    /// The rules' number, from 5 to 9.
    pub fn number(self) -> u64 {
        match self {
            Halt::NotFinite => 5,
            Halt::EventsFull => 6,
            Halt::ListFull => 7,
            Halt::ListedAlready => 8,
            Halt::OnlyCell => 9,
        }
    }
}

impl Error {
    /// The rules' number, from 1 to 10.
    pub fn number(self) -> u64 {
        match self {
            Error::Length => 1,
            Error::Count => 2,
            Error::Rate => 3,
            Error::Grain { .. } => 4,
            Error::Halted { by, .. } => by.number(),
            Error::Fact => 10,
        }
    }
}

impl fmt::Display for Halt {
    fn fmt(&self, out: &mut fmt::Formatter) -> fmt::Result {
        out.write_str(match self {
            Halt::NotFinite => "a number to be stored is not finite, or an event is too late",
            Halt::EventsFull => "a cell holds its full number of events, and one more is due",
            Halt::ListFull => "a cell lists 32 grains or a grain 8 cells, and one more is to come",
            Halt::ListedAlready => "a grain enters a cell that lists it already",
            Halt::OnlyCell => "a grain would leave its only cell",
        })
    }
}

impl fmt::Display for Error {
    fn fmt(&self, out: &mut fmt::Formatter) -> fmt::Result {
        write!(out, "refused by {}: ", self.number())?;
        match self {
            Error::Length => write!(out, "a box length is not from 9 to 48"),
            Error::Count => write!(out, "a count is out of range, or a table is too short for the counts"),
            Error::Rate => write!(out, "the sync rate is not from 2^-20 to 2^20"),
            Error::Grain { lowest } => write!(out, "a start number of grain {lowest} is out of range"),
            Error::Halted { by, clock, events } => {
                write!(out, "{by}; halted at {clock} after {events} events of this run")
            }
            Error::Fact => write!(out, "the tables break a standing fact"),
        }
    }
}

impl std::error::Error for Error {}
