//! Every answer has a number, an index, a second index and a tick.

/// An answer. Fields that the rules do not name are 0.
#[derive(Clone, Copy, Debug, Default, PartialEq, Eq)]
pub struct Answer {
    pub number: u32,
    pub index: u32,
    pub second: u32,
    pub tick: u64,
}

impl Answer {
    /// Done, or clean.
    pub const DONE: Answer = Answer {
        number: 0,
        index: 0,
        second: 0,
        tick: 0,
    };

    /// Done, with a value as the index.
    pub fn done_with(index: u32) -> Answer {
        Answer {
            index,
            ..Answer::DONE
        }
    }

    /// A number that names no index.
    pub fn plain(number: u32) -> Answer {
        Answer {
            number,
            ..Answer::DONE
        }
    }

    /// A number that names a probe or a block.
    pub fn at(number: u32, place: usize) -> Answer {
        Answer {
            number,
            index: place as u32,
            ..Answer::DONE
        }
    }

    pub fn is_done(self) -> bool {
        self.number == 0
    }
}

/// The answer of a run of checks: the first refusal, or done.
pub fn answer_of(result: Result<(), Answer>) -> Answer {
    match result {
        Ok(()) => Answer::DONE,
        Err(refusal) => refusal,
    }
}
