//! The numbers of the answers (house) and their names, and the one check that every routine begins with.

/// Why a call is refused. Success is `Ok`, and number 0 outside.
#[derive(Clone, Copy, Debug, PartialEq, Eq)]
pub enum Refusal {
    SequenceError = 1,
    KeyNotAvailable = 2,
    KeyInvalid = 3,
    KeyEmpty = 4,
    NoSecureBoot = 5,
    KeyWriteProtected = 6,
    KeyUpdateError = 7,
    RngSeed = 8,
    GeneralError = 12,
}

impl Refusal {
    pub fn name(self) -> &'static str {
        match self {
            Refusal::SequenceError => "SEQUENCE_ERROR",
            Refusal::KeyNotAvailable => "KEY_NOT_AVAILABLE",
            Refusal::KeyInvalid => "KEY_INVALID",
            Refusal::KeyEmpty => "KEY_EMPTY",
            Refusal::NoSecureBoot => "NO_SECURE_BOOT",
            Refusal::KeyWriteProtected => "KEY_WRITE_PROTECTED",
            Refusal::KeyUpdateError => "KEY_UPDATE_ERROR",
            Refusal::RngSeed => "RNG_SEED",
            Refusal::GeneralError => "GENERAL_ERROR",
        }
    }
}

pub type Answer<T> = Result<T, Refusal>;

pub fn number<T>(answer: &Answer<T>) -> u8 {
    match answer {
        Ok(_) => 0,
        Err(refusal) => *refusal as u8,
    }
}

/// Refuses for `reason` unless the condition holds. A chain of these with `?` is an order of checks as the paper gives it.
pub fn demand(holds: bool, reason: Refusal) -> Answer<()> {
    if holds {
        Ok(())
    } else {
        Err(reason)
    }
}

/// A lent buffer as an array, or 12 for a wrong length.
pub fn exactly<T: Copy, const N: usize>(lent: &[T]) -> Answer<[T; N]> {
    lent.try_into().map_err(|_| Refusal::GeneralError)
}
