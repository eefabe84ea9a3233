//! Why a call is refused.

use melfjits_sys as sys;
use std::fmt;

/// Why a call was refused. Nothing has changed then, except for `NotHandled`.
#[derive(Clone, Copy, Debug, PartialEq, Eq, Hash)]
#[non_exhaustive]
pub enum Error {
    /// Memory ran out before any effect. The same call can be made again.
    OutOfMemory,
    /// The message is in the inbox, and memory ran out before it was handled. [`Channel::work`](crate::Channel::work) handles it.
    NotHandled,
    /// The plant file is not TOML.
    NotToml,
    /// A required key of the plant file is missing.
    MissingKey,
    /// A value of the plant file has another type or is out of range.
    BadValue,
    /// Slices of two operators of the plant file overlap.
    SlicesOverlap,
    /// SID ranges of two operators overlap.
    SidsOverlap,
    /// SFID ranges of two operators overlap.
    SfidsOverlap,
    /// The plant file lists the address of a modem twice.
    ModemTwice,
    /// The operators have more elements than a MAP can hold.
    TooManyElements,
    /// The budget of an operator of the plant file is more than its slice.
    PlantBudgetOverSlice,
    /// The provisioned flows of an operator do not fit.
    ProvisionedOver,
    /// No operator has this modem.
    UnknownModem,
    /// There is no operator at this place.
    UnknownOperator,
    /// The last frame number is used.
    FramesSpent,
    /// The operator has no frame that was not collected.
    NothingToCollect,
    /// A slice change needs one row for each operator.
    RowCount,
    /// A slice change has to start at a later frame.
    NotPast,
    /// An earlier slice change is still pending.
    Unfinished,
    /// A new slice is empty, or not after the head and within the frame.
    OffFrame,
    /// New slices of two operators overlap.
    NewSlicesOverlap,
    /// A new budget is more than its slice.
    BudgetOverSlice,
    /// More minislots are committed than a new budget.
    Unfit,
    /// A frame of an operator is not collected yet.
    FrameWaits,
    /// An operator is before another frame than the first one.
    NotAtFrame,
    /// What all operators share would change.
    ConstantsDiffer,
    /// An operator's state does not fit its row of the plant file.
    StateRefused,
    /// The operators' frames or slices do not go together.
    NotTogether,
    /// The text is not a snapshot.
    NotASnapshot,
    /// The plant file has no operator of a saved name.
    UnknownName,
    /// The library returned a number that the header does not name for this call.
    Unknown(u32),
}

/// Each error with the number of the header and its text.
const TEXTS: [(Error, u32, &str); 30] = [
    (Error::OutOfMemory, sys::MELFJITS_NO_MEMORY, "out of memory, nothing has changed"),
    (Error::NotHandled, sys::MELFJITS_RECEIVED, "out of memory before the message was handled: it is in the inbox, call work()"),
    (Error::NotToml, sys::MELFJITS_NOT_TOML, "the plant file is not TOML"),
    (Error::MissingKey, sys::MELFJITS_MISSING_KEY, "a required key of the plant file is missing"),
    (Error::BadValue, sys::MELFJITS_BAD_VALUE, "a value of the plant file has another type or is out of range"),
    (Error::SlicesOverlap, sys::MELFJITS_SLICES_OVERLAP, "slices of two operators overlap"),
    (Error::SidsOverlap, sys::MELFJITS_SIDS_OVERLAP, "SID ranges of two operators overlap"),
    (Error::SfidsOverlap, sys::MELFJITS_SFIDS_OVERLAP, "SFID ranges of two operators overlap"),
    (Error::ModemTwice, sys::MELFJITS_MODEM_TWICE, "the address of a modem is listed twice"),
    (Error::TooManyElements, sys::MELFJITS_TOO_MANY_ELEMENTS, "the operators have more elements than a MAP can hold"),
    (Error::PlantBudgetOverSlice, sys::MELFJITS_PLANT_BUDGET_OVER_SLICE, "the budget of an operator is more than its slice"),
    (Error::ProvisionedOver, sys::MELFJITS_PROVISIONED_OVER, "the provisioned flows of an operator do not fit"),
    (Error::UnknownModem, sys::MELFJITS_UNKNOWN_MODEM, "no operator has this modem"),
    (Error::UnknownOperator, sys::MELFJITS_UNKNOWN_OPERATOR, "there is no operator at this place"),
    (Error::FramesSpent, sys::MELFJITS_FRAMES_SPENT, "the last frame number is used"),
    (Error::NothingToCollect, sys::MELFJITS_NOTHING_TO_COLLECT, "the operator has no frame that was not collected"),
    (Error::RowCount, sys::MELFJITS_ROW_COUNT, "a slice change needs one row for each operator"),
    (Error::NotPast, sys::MELFJITS_NOT_PAST, "a slice change has to start at a later frame"),
    (Error::Unfinished, sys::MELFJITS_UNFINISHED, "an earlier slice change is still pending"),
    (Error::OffFrame, sys::MELFJITS_OFF_FRAME, "a new slice is empty, or not after the head and within the frame"),
    (Error::NewSlicesOverlap, sys::MELFJITS_NEW_SLICES_OVERLAP, "new slices of two operators overlap"),
    (Error::BudgetOverSlice, sys::MELFJITS_BUDGET_OVER_SLICE, "a new budget is more than its slice"),
    (Error::Unfit, sys::MELFJITS_UNFIT, "more minislots are committed than a new budget"),
    (Error::FrameWaits, sys::MELFJITS_FRAME_WAITS, "a frame of an operator is not collected yet"),
    (Error::NotAtFrame, sys::MELFJITS_NOT_AT_FRAME, "an operator is before another frame than the first one"),
    (Error::ConstantsDiffer, sys::MELFJITS_CONSTANTS_DIFFER, "what all operators share would change"),
    (Error::StateRefused, sys::MELFJITS_STATE_REFUSED, "an operator's state does not fit its row of the plant file"),
    (Error::NotTogether, sys::MELFJITS_NOT_TOGETHER, "the operators' frames or slices do not go together"),
    (Error::NotASnapshot, sys::MELFJITS_NOT_A_SNAPSHOT, "the text is not a snapshot"),
    (Error::UnknownName, sys::MELFJITS_UNKNOWN_NAME, "the plant file has no operator of a saved name"),
];

impl Error {
    /// Returns the number of the header.
    pub fn code(self) -> u32 {
        match (self, TEXTS.iter().find(|row| row.0 == self)) {
            (Error::Unknown(code), _) => code,
            (_, Some(row)) => row.1,
            (_, None) => unreachable!("each error has a row"),
        }
    }
}

impl fmt::Display for Error {
    fn fmt(&self, formatter: &mut fmt::Formatter<'_>) -> fmt::Result {
        match TEXTS.iter().find(|row| row.0 == *self) {
            Some(row) => formatter.write_str(row.2),
            None => write!(formatter, "the library returned {}", self.code()),
        }
    }
}

impl std::error::Error for Error {}

/// Returns the error of a number that a call returned, unless it is `MELFJITS_DONE`.
pub(crate) fn check(code: u32) -> Result<(), Error> {
    if code == sys::MELFJITS_DONE {
        return Ok(());
    }
    Err(TEXTS.iter().find(|row| row.1 == code).map_or(Error::Unknown(code), |row| row.0))
}
