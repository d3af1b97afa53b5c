//! Why a call is refused.
use std::fmt;

/// What a refused call answers. It has changed nothing.
///
/// All numbers of the five calls are here, so that it also names what [`lent`](crate::lent) answers. A
/// [`Machine`](crate::Machine) owns buffers of the right lengths that nobody else writes: it never answers
/// [`ShortBuffer`](Refusal::ShortBuffer) nor [`Unsound`](Refusal::Unsound).
#[derive(Clone, Copy, Debug, PartialEq, Eq)]
pub enum Refusal {
    NoSuchSeat,
    NotVacant,
    ImageTooLong,
    /// The place is an offset in the image.
    BadImage {
        place: usize,
    },
    SlotsOverShare,
    BadShares,
    ShortBuffer,
    Unsound,
    BadSchedule,
    ShortAnswers,
    VacantSeat,
}

impl Refusal {
    /// The scope document's number.
    pub fn number(self) -> u32 {
        match self {
            Refusal::NoSuchSeat => 20,
            Refusal::NotVacant => 21,
            Refusal::ImageTooLong => 22,
            Refusal::BadImage { .. } => 23,
            Refusal::SlotsOverShare => 24,
            Refusal::BadShares => 30,
            Refusal::ShortBuffer => 31,
            Refusal::Unsound => 32,
            Refusal::BadSchedule => 33,
            Refusal::ShortAnswers => 34,
            Refusal::VacantSeat => 35,
        }
    }

    /// What a call's number says, 0 being that it went through. The place counts with 23 only.
    ///
    /// # Panics
    /// With a number that no call answers. The archive's contracts rule it out, so a caller has no use for a case of
    /// its own: whoever sees this panic has linked something else.
    pub fn told(number: u32, place: u64) -> Result<(), Refusal> {
        Err(match number {
            0 => return Ok(()),
            20 => Refusal::NoSuchSeat,
            21 => Refusal::NotVacant,
            22 => Refusal::ImageTooLong,
            23 => Refusal::BadImage {
                place: place as usize,
            },
            24 => Refusal::SlotsOverShare,
            30 => Refusal::BadShares,
            31 => Refusal::ShortBuffer,
            32 => Refusal::Unsound,
            33 => Refusal::BadSchedule,
            34 => Refusal::ShortAnswers,
            35 => Refusal::VacantSeat,
            _ => unreachable!("no call answers {number}"),
        })
    }
}

impl fmt::Display for Refusal {
    fn fmt(&self, f: &mut fmt::Formatter) -> fmt::Result {
        f.write_str(match self {
            Refusal::NoSuchSeat => "no such seat",
            Refusal::NotVacant => "the seat is not vacant",
            Refusal::ImageTooLong => "the image is over 4,096 bytes",
            Refusal::BadImage { place } => return write!(f, "bad image at offset {place}"),
            Refusal::SlotsOverShare => "the root frame has more slots than the seat has cells",
            Refusal::BadShares => "counts or shares out of range",
            Refusal::ShortBuffer => "a buffer below its least length",
            Refusal::Unsound => "the buffers hold no state of the machine",
            Refusal::BadSchedule => "a schedule of odd length or over the limit",
            Refusal::ShortAnswers => "fewer bytes for answers than entries",
            Refusal::VacantSeat => "the seat is vacant",
        })
    }
}

impl std::error::Error for Refusal {}
