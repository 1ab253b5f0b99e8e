//! The communications link control word (CLCW), of four octets (CCSDS 232.0-B-4, 4.2).

use crate::ffi;

faults! {
    /// Why a CLCW is refused (CCSDS 232.0-B-4).
    ClcwFault {
        Kind = 1, "the control word type is not 0 (4.2.1.2)";
        Version = 2, "the version number is not 00 (4.2.1.3)";
        Cop = 3, "the COP in effect is not 01, COP-1 (4.2.1.5)";
        Spare = 4, "a spare bit is not 0";
        Range = 5, "a field is too large for its bits, or a flag bit has no name";
    }
}

/// A communications link control word, CLCW (CCSDS 232.0-B-4, 4.2).
#[derive(Clone, Copy, Debug, Default, PartialEq, Eq, Hash)]
pub struct Clcw {
    /// The status field, 3 bits, carried and not interpreted.
    pub status: u8,
    /// The virtual channel that the CLCW reports on, 6 bits.
    pub vcid: u8,
    /// The radio frequency channel is not available (4.2.1.8).
    pub no_rf: bool,
    /// The receiver has no bit lock.
    pub no_bit_lock: bool,
    /// The receiver is in its state Lockout.
    pub lockout: bool,
    /// There is no room for a further frame.
    pub wait: bool,
    /// Frames must be retransmitted, from the report value on.
    pub retransmit: bool,
    /// The FARM-B counter, 2 bits.
    pub farm_b: u8,
    /// The report value, V(R) of the receiver.
    pub value: u8,
}

impl Clcw {
    /// Reads four octets as a CLCW.
    ///
    /// # Errors
    ///
    /// Refused with the first of [`ClcwFault`] 1 to 4.
    pub fn decode(octets: &[u8; 4]) -> Result<Self, ClcwFault> {
        let mut word = ffi::Clcw::default();
        ClcwFault::judge(ffi::clcw_decode(octets, &mut word))?;
        Ok(Self::from_raw(word))
    }

    /// Returns the four octets of the CLCW.
    ///
    /// # Errors
    ///
    /// Refused with 5 [`Range`](ClcwFault::Range) if a field is too large for its bits.
    pub fn encode(&self) -> Result<[u8; 4], ClcwFault> {
        let mut octets = [0; 4];
        ClcwFault::judge(ffi::clcw_encode(&self.raw(), &mut octets))?;
        Ok(octets)
    }

    pub(crate) fn from_raw(word: ffi::Clcw) -> Self {
        let has = |flag| word.flags & flag != 0;
        Self {
            status: word.status,
            vcid: word.vcid,
            no_rf: has(ffi::SEDGE_CLCW_NO_RF),
            no_bit_lock: has(ffi::SEDGE_CLCW_NO_BIT_LOCK),
            lockout: has(ffi::SEDGE_CLCW_LOCKOUT),
            wait: has(ffi::SEDGE_CLCW_WAIT),
            retransmit: has(ffi::SEDGE_CLCW_RETRANSMIT),
            farm_b: word.farm_b,
            value: word.value,
        }
    }

    pub(crate) fn raw(&self) -> ffi::Clcw {
        let flags = [
            (self.no_rf, ffi::SEDGE_CLCW_NO_RF),
            (self.no_bit_lock, ffi::SEDGE_CLCW_NO_BIT_LOCK),
            (self.lockout, ffi::SEDGE_CLCW_LOCKOUT),
            (self.wait, ffi::SEDGE_CLCW_WAIT),
            (self.retransmit, ffi::SEDGE_CLCW_RETRANSMIT),
        ];
        ffi::Clcw {
            status: self.status,
            vcid: self.vcid,
            flags: flags.iter().filter(|(is_set, _)| *is_set).fold(0, |all, (_, flag)| all | flag),
            farm_b: self.farm_b,
            value: self.value,
        }
    }
}
