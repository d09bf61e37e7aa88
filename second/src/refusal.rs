//! The answer of a call: done, or a refusal with its number and name.
//! Follows document 01, 'Refusal numbers', and document 02, requests 1, 5 and 7.

#[derive(Clone, Copy, Debug, PartialEq, Eq)]
#[repr(u8)]
pub enum Answer {
    Done = 0,
    CipherNumber = 1,
    KeyLength = 2,
    FirstBlockLength = 3,
    Direction = 4,
    BadSchedule = 5,
    BadState = 6,
    Closed = 7,
    OverLimit = 8,
    NoRoom = 9,
    BytesHeld = 10,
    BlockLength = 11,
    BadCard = 12,
    BadRecord = 13,
    NoSlot = 14,
    BadReading = 15,
    OtherSchedule = 16,
    BlankKey = 17,
}

impl Answer {
    pub fn number(self) -> u8 {
        self as u8
    }

    /// The first refusal of the list whose cause applies.
    pub fn first(causes: &[(Answer, bool)]) -> Answer {
        let refusal = causes.iter().find(|(_, applies)| *applies);
        refusal.map_or(Answer::Done, |&(answer, _)| answer)
    }
}
