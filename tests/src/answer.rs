//! The 64-bit number that an entry answers, and its two halves.

/// What the entry for one tap answers.
#[derive(Clone, Copy, Debug, PartialEq, Eq)]
pub struct TapAnswer {
    /// 0 for none.
    pub refusal: u32,
    /// 0 when turned down.
    pub coefficient: i32,
}

/// What any other entry answers. The values are in the memory lent to it.
#[derive(Clone, Copy, Debug, PartialEq, Eq)]
pub struct Answer {
    /// 0 for none.
    pub refusal: u32,
    /// 0 for none.
    pub place: u32,
}

pub const ACCEPTED: Answer = Answer {
    refusal: 0,
    place: 0,
};

impl Answer {
    pub fn refused(refusal: u32, place: usize) -> Self {
        Answer {
            refusal,
            place: place as u32,
        }
    }
}

/// Those checks of a table that apply, in its order: refusal number, and the lowest place.
pub fn applying<const N: usize>(table: [(u32, Option<usize>); N]) -> Vec<Answer> {
    let refusal = |(refusal, place): (u32, Option<usize>)| Some(Answer::refused(refusal, place?));
    table.into_iter().filter_map(refusal).collect()
}

/// Place 0 where a check applies.
pub fn when(applies: bool) -> Option<usize> {
    applies.then_some(0)
}

impl TapAnswer {
    pub fn accepted(coefficient: i32) -> Self {
        TapAnswer {
            refusal: 0,
            coefficient,
        }
    }

    pub fn refused(refusal: u32) -> Self {
        TapAnswer {
            refusal,
            coefficient: 0,
        }
    }

    /// For a tap that is rounded to this number.
    pub fn of_whole(number: i64) -> Self {
        i32::try_from(number).map_or(Self::refused(6), Self::accepted)
    }
}

impl From<u64> for TapAnswer {
    fn from(packed: u64) -> Self {
        TapAnswer {
            refusal: (packed >> 32) as u32,
            coefficient: packed as u32 as i32,
        }
    }
}

impl From<u64> for Answer {
    fn from(packed: u64) -> Self {
        Answer {
            refusal: (packed >> 32) as u32,
            place: packed as u32,
        }
    }
}
