//! A refusal, and its sentence.
use crate::models::numbered;
use crate::raw;
use std::fmt;

numbered!(
    /// Why a call is refused; the header's table says more.
    Refusal from 1: FieldCut, FieldUnknown, FieldAgain, TagMissing, OutOfRange, NoTransit, NoSunrise, NoSunset, BufferShort, InstantBeyond,
        NoneInForce, LogSecondShort, LogOutOfTurn, LogCountOutside, BothForms, QueueFull, JobUnfit, NotFirstOfRamadan
);

/// A refusal and where it is: a tag, an offset, a day, a page, a count or a job's id. It is displayed as the library's sentence.
#[derive(Clone, Copy, Debug, PartialEq, Eq)]
pub struct Refused {
    pub refusal: Refusal,
    pub place: u32,
}

impl Refused {
    /// The refusal that a sentence says.
    pub fn from_sentence(sentence: &str) -> Result<Refused, Refused> {
        let said = unsafe { raw::katchidul_read_sentence(sentence.as_ptr(), sentence.len()) };
        refused_or(said.number, said.place, ())?;
        Ok(Refused { refusal: known(said.of_number), place: said.of_place })
    }
}

impl fmt::Display for Refused {
    fn fmt(&self, to: &mut fmt::Formatter) -> fmt::Result {
        let mut words = [0; crate::SENTENCE_MAX];
        let said = unsafe { raw::katchidul_write_sentence(self.refusal.number(), self.place, words.as_mut_ptr(), words.len()) };
        to.write_str(std::str::from_utf8(&words[..said.length as usize]).map_err(|_| fmt::Error)?)
    }
}

impl std::error::Error for Refused {}

fn known(number: u32) -> Refusal {
    Refusal::from_number(number).expect("the crate and the archive are of one version")
}

/// The value of a call that succeeded.
pub(crate) fn refused_or<T>(number: u32, place: u32, value: T) -> Result<T, Refused> {
    if number == 0 {
        return Ok(value);
    }
    Err(Refused { refusal: known(number), place })
}
