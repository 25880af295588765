//! Why a call is refused, by the numbers of document 01, "Answers", and of document 02.

/// The cases stand in the order in which a call tests them: a number of document 02 has the place
/// that its request gives it.
#[derive(Clone, Copy, Debug, PartialEq, Eq)]
pub enum Refusal {
    /// A position's hold under 2 or over 30. It is tested before the reads and so before all that they
    /// test.
    Hold = 14,
    /// A lent buffer of another length. No call of the peer meets it, since nothing that it is lent can
    /// have another; those of `tests/duties` do.
    Length = 1,
    /// More items than one call maps, or not as many answers as items.
    Items = 12,
    Rules = 2,
    Place = 3,
    Frame = 4,
    Rights = 5,
    Offset = 6,
    /// A device's part of a page with no words, or with words past the last offset.
    Part = 13,
    Mapped = 7,
    Unmapped = 8,
    Full = 9,
    ReadOnly = 10,
    /// A fetch through rights other than 3.
    NoFetch = 17,
    /// The frame is busy with a transfer that this processor access, or any new transfer, must wait for.
    Busy = 15,
    /// A word of a transfer, or its end, without that transfer, or a word in the wrong direction.
    NotBegun = 16,
    Sheet = 11,
}

impl Refusal {
    pub fn number(self) -> u8 {
        self as u8
    }
}
