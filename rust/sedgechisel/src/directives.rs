//! The directives to a sender (CCSDS 232.1-B-2, 5.2.4), which `Fop`, `Ground` and `Link` all have.

// enum sedge_directive
pub const SEDGE_INIT_WITHOUT_CHECK: u8 = 1;
pub const SEDGE_INIT_WITH_CHECK: u8 = 2;
pub const SEDGE_INIT_UNLOCK: u8 = 3;
pub const SEDGE_INIT_SET_VR: u8 = 4;
pub const SEDGE_TERMINATE: u8 = 5;
pub const SEDGE_SET_VS: u8 = 6;
pub const SEDGE_SET_WINDOW: u8 = 7;
pub const SEDGE_SET_LIMIT: u8 = 8;
pub const SEDGE_SET_TIMER: u8 = 9;

/// The method of each directive. `direct` gives the sender a directive by its number and its value.
macro_rules! directives {
    () => {
        /// The directive (232.1-B-2, 5.2.4) to initiate without CLCW check: S6 to S1.
        ///
        /// # Errors
        ///
        /// Refused with 8 [`WrongState`](CopFault::WrongState) unless in S6.
        pub fn init_without_check(&mut self) -> Result<(), CopFault> {
            self.direct($crate::directives::SEDGE_INIT_WITHOUT_CHECK, 0)
        }

        /// The directive (232.1-B-2, 5.2.4) to initiate with CLCW check: S6 to S4, until a CLCW agrees.
        ///
        /// # Errors
        ///
        /// Refused with 8 [`WrongState`](CopFault::WrongState) unless in S6.
        pub fn init_with_check(&mut self) -> Result<(), CopFault> {
            self.direct($crate::directives::SEDGE_INIT_WITH_CHECK, 0)
        }

        /// The directive (232.1-B-2, 5.2.4) to initiate with Unlock: S6 to S5, and Unlock is sent.
        ///
        /// # Errors
        ///
        /// Refused with 8 [`WrongState`](CopFault::WrongState) unless in S6.
        pub fn init_unlock(&mut self) -> Result<(), CopFault> {
            self.direct($crate::directives::SEDGE_INIT_UNLOCK, 0)
        }

        /// The directive (232.1-B-2, 5.2.4) to initiate with Set V(R): S6 to S5, V(S) and NN(R) are set to `vr`, and
        /// Set V(R) is sent.
        ///
        /// # Errors
        ///
        /// Refused with 8 [`WrongState`](CopFault::WrongState) unless in S6.
        pub fn init_set_vr(&mut self, vr: u8) -> Result<(), CopFault> {
            self.direct($crate::directives::SEDGE_INIT_SET_VR, vr.into())
        }

        /// The directive (232.1-B-2, 5.2.4) to terminate: to S6 with the alert Terminated, which discards all units.
        ///
        /// # Errors
        ///
        /// Refused with 8 [`WrongState`](CopFault::WrongState) in S6.
        pub fn terminate(&mut self) -> Result<(), CopFault> {
            self.direct($crate::directives::SEDGE_TERMINATE, 0)
        }

        /// The directive (232.1-B-2, 5.2.4) to set both V(S) and NN(R) to `vs`.
        ///
        /// # Errors
        ///
        /// Refused with 8 [`WrongState`](CopFault::WrongState) unless in S6.
        pub fn set_vs(&mut self, vs: u8) -> Result<(), CopFault> {
            self.direct($crate::directives::SEDGE_SET_VS, vs.into())
        }

        /// The directive (232.1-B-2, 5.2.4) to set the window K to `window`.
        ///
        /// # Errors
        ///
        /// Refused with 2 [`Window`](CopFault::Window) unless it is 1 to half the receiver's window width.
        pub fn set_window(&mut self, window: u8) -> Result<(), CopFault> {
            self.direct($crate::directives::SEDGE_SET_WINDOW, window.into())
        }

        /// The directive (232.1-B-2, 5.2.4) to set the transmission limit to `limit`.
        ///
        /// # Errors
        ///
        /// Refused with 3 [`Limit`](CopFault::Limit) if it is 0.
        pub fn set_limit(&mut self, limit: u8) -> Result<(), CopFault> {
            self.direct($crate::directives::SEDGE_SET_LIMIT, limit.into())
        }

        /// The directive (232.1-B-2, 5.2.4) to set the timer to `timer`, in ticks.
        ///
        /// # Errors
        ///
        /// Refused with 4 [`Timer`](CopFault::Timer) if it is 0.
        pub fn set_timer(&mut self, timer: u16) -> Result<(), CopFault> {
            self.direct($crate::directives::SEDGE_SET_TIMER, timer)
        }
    };
}
