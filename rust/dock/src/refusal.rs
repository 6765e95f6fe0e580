//! The results other than 0, by name, number and words.

use std::{error::Error, fmt};

/// Makes the enum and all that speaks of each of its variants from one list.
macro_rules! refusals {
    ($($(#[$explained:meta])* $name:ident = $number:literal, $words:literal;)*) => {
        /// Why a request or a call was refused. The words are those of `dock_result_name` in include/dock.h.
        #[derive(Clone, Copy, Debug, PartialEq, Eq, Hash)]
        #[non_exhaustive]
        #[repr(u16)]
        pub enum Refusal {
            $($(#[$explained])* $name = $number,)*
        }

        impl Refusal {
            /// Every refusal, by number.
            pub const ALL: &'static [Refusal] = &[$(Refusal::$name),*];

            /// The refusal of this number; nothing for 0, and for numbers that are no result.
            pub fn from_number(number: u16) -> Option<Refusal> {
                match number {
                    $($number => Some(Refusal::$name),)*
                    _ => None,
                }
            }

            fn words(self) -> &'static str {
                match self {
                    $(Refusal::$name => $words,)*
                }
            }
        }
    };
}

refusals! {
    /// Pad above 3 or program above 7.
    NoProgram = 1, "no such pad or program";
    /// Operation outside 1 to 6.
    NoOperation = 2, "no such operation";
    /// A used field is out of range, or an unused one is not 0.
    Field = 3, "a field out of range, or an unused one not 0";
    /// The asker has no live ticket of that number.
    NoTicket = 4, "no live ticket of that number";
    /// The operation is not for this kind of ticket.
    WrongKind = 5, "the wrong kind of ticket";
    /// Sheets beyond the ticket's.
    Beyond = 6, "beyond the ticket's sheets";
    /// The ticket lacks a right.
    RightLacking = 7, "a right is lacking";
    /// A pass to the asker itself.
    ToOneself = 8, "the recipient is the asker";
    /// Asker or recipient has no free place.
    NoPlace = 9, "no free place for a ticket";
    /// Asker's or recipient's numbers are spent.
    NoNumber = 10, "no number left";
    /// No run of sheets is free that is long enough.
    NoRun = 11, "no run of so many free sheets";
    /// The dock has no entry of the ticket's dock name: it was recalled.
    NoEntry = 12, "the dock has no entry for the ticket";
    /// A buffer has another length.
    Length = 13, "a buffer has another length";
    /// The bytes are no tables, or the tables are not in order.
    NotInOrder = 14, "the tables are not in order";
    /// Only in traces: a line or text of another form.
    OtherForm = 15, "a line or text of another form";
    /// The scratch of a report has another length.
    Scratch = 16, "the scratch has another length";
    /// The output is too short.
    TooShort = 17, "the output is too short";
    /// A text of another form or order.
    BadText = 18, "the text has another form or order";
}

impl Refusal {
    /// The number that the library answers with.
    pub fn number(self) -> u16 {
        self as u16
    }

    /// What the library's number says of a call: accepted, or refused.
    pub(crate) fn of_result(result: u16) -> Result<(), Refusal> {
        match result {
            0 => Ok(()),
            number => Err(Refusal::from_number(number).expect("the library answers with its own numbers")),
        }
    }
}

impl fmt::Display for Refusal {
    fn fmt(&self, out: &mut fmt::Formatter<'_>) -> fmt::Result {
        out.pad(self.words())
    }
}

impl Error for Refusal {}
