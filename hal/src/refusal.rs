//! The numbered questions that a call asks, and the sentence for each no.

use core::fmt;

macro_rules! refusals {
    ($($name:ident = $number:literal, $sentence:literal;)*) => {
        /// Why a call was refused: which of its questions said no. A refused call changed nothing.
        ///
        /// ```
        /// use polvihe_hal::Refusal;
        ///
        /// assert_eq!(Refusal::MalformedLog.number(), 10);
        /// assert_eq!(Refusal::numbered(10), Some(Refusal::MalformedLog));
        /// assert!(Refusal::MalformedLog.to_string().starts_with("refused 10: "));
        /// ```
        #[derive(Clone, Copy, Debug, PartialEq, Eq, Hash)]
        #[non_exhaustive]
        pub enum Refusal {
            $(#[doc = concat!(stringify!($number), ": ", $sentence, ".")] $name = $number,)*
        }

        impl Refusal {
            /// Every refusal, by its number.
            pub const ALL: &'static [Refusal] = &[$(Refusal::$name,)*];

            /// Which question said no.
            pub const fn sentence(self) -> &'static str {
                match self {
                    $(Refusal::$name => $sentence,)*
                }
            }
        }
    };
}

refusals! {
    BufferTooShort = 1, "a lent buffer is shorter than the call asks for";
    UnsoundBlock = 2, "the endpoint block is not sound";
    OutOfTurn = 3, "another call is due";
    TransferTooLong = 4, "a transfer length has more than 17 bits";
    TooManyHeld = 5, "more TRBs would be held than a block has places";
    OutsideGuestMemory = 6, "the data lies outside guest memory";
    TooMuchCollected = 7, "more bytes would be collected than a control OUT transfer has";
    DeviceResultMismatch = 8, "a device result is given and none is awaited, or the other way round";
    DataTooLong = 9, "the device's data is longer than the TRBs of a block can take";
    MalformedLog = 10, "the log is no multiple of 32 bytes, or a record's kind is none of 1, 2 and 3";
    WriteOutOfRange = 11, "a write lies outside the device's data or guest memory";
    IdOutOfRange = 12, "the endpoint id is not 1 to 31, or the slot id is 0";
    RegionsOverlap = 13, "the two regions of guest memory share an address";
    OutputTooShort = 14, "the output buffer cannot take the whole result";
    MalformedRow = 15, "the row is too long, does not split into whole TDs, or does not match its results and data";
    LengthOutOfRange = 16, "the length is not 2 to 12";
    NotACapture = 17, "the capture is truncated, of another format, or has a length that does not fit";
    NotConvertible = 18, "a record is isochronous, or has an added field that is not zero";
    LinkTypesDiffer = 19, "the captures have different link types";
    TimesGoBackwards = 20, "the times of a capture go backwards";
    ImmediateInput = 21, "immediate data is for sending only";
    UnknownCapture = 22, "the capture is none that the product writes";
    NotEncodable = 23, "an Isoch or Unrecognized TRB has no fields to encode";
    CaptureOutOfRange = 24, "the microseconds are above 999,999, or the record is longer than the snap length";
}

impl Refusal {
    /// The question's number.
    pub const fn number(self) -> u32 {
        self as u32
    }

    /// The refusal with this number.
    pub fn numbered(number: u32) -> Option<Self> {
        Self::ALL.iter().copied().find(|refusal| refusal.number() == number)
    }
}

/// `refused N: WHY`.
impl fmt::Display for Refusal {
    fn fmt(&self, f: &mut fmt::Formatter<'_>) -> fmt::Result {
        write!(f, "refused {}: {}", self.number(), self.sentence())
    }
}

impl core::error::Error for Refusal {}

#[cfg(test)]
mod tests {
    use super::Refusal;

    #[test]
    fn numbers_are_1_to_24() {
        assert!(Refusal::ALL.iter().map(|refusal| refusal.number()).eq(1..=24));
        assert_eq!(Refusal::numbered(0), None);
        assert_eq!(Refusal::numbered(25), None);
    }
}
