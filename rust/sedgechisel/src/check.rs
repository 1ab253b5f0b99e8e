//! The check of frames: generator x^16 + x^12 + x^5 + 1, register preset to ones, no inversion at the end (CCSDS
//! 232.0-B-4, 4.1.4.2; 132.0-B-3, 4.1.6.2).

use crate::ffi;

reasons! {
    /// Why octets have no check.
    CheckFault {
        WrongCount = 254, "not the number of octets that the call needs";
    }
}

/// Returns the check of the octets (CCSDS 232.0-B-4, 4.1.4.2).
///
/// ```
/// assert_eq!(sedgechisel::check(b"123456789"), 0x29b1);
/// ```
#[must_use]
pub fn check(octets: &[u8]) -> u16 {
    ffi::check(octets)
}

/// Sets the last two octets to the check of those before them (CCSDS 232.0-B-4, 4.1.4.2).
///
/// # Errors
///
/// Refused with 254 [`WrongCount`](CheckFault::WrongCount) for fewer than two octets, with nothing written.
pub fn check_append(octets: &mut [u8]) -> Result<(), CheckFault> {
    ffi::check_append(octets).then_some(()).ok_or(CheckFault::WrongCount)
}

/// Returns whether the last two octets are the check of those before them; false for fewer than two octets (CCSDS
/// 232.0-B-4, 4.1.4.3).
#[must_use]
pub fn check_holds(octets: &[u8]) -> bool {
    ffi::check_holds(octets)
}
