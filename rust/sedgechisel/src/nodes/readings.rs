//! What is read of a ground: of a `Ground`, and of the ground of a `Commander`.

/// The methods that read a ground by `read_ground`.
macro_rules! ground_readings {
    () => {
        /// The number of submissions of the session; they are numbered from 0, in order. This number,
        /// [`sent_whole`](Self::sent_whole) and [`acknowledged_whole`](Self::acknowledged_whole) count modulo 2^64,
        /// remain valid after an alert, and become 0 when V(S) is set.
        #[must_use]
        pub fn submitted(&self) -> u64 {
            self.read_ground().submitted
        }

        /// How many of the session's submissions, from the first on, were sent whole, each to its last segment.
        #[must_use]
        pub fn sent_whole(&self) -> u64 {
            self.read_ground().sent_whole
        }

        /// How many of the session's submissions, from the first on, are acknowledged whole, so that they are on board.
        #[must_use]
        pub fn acknowledged_whole(&self) -> u64 {
            self.read_ground().acknowledged_whole
        }

        /// The sender's state.
        #[must_use]
        pub fn state(&self) -> FopState {
            FopState::of(self.read_ground().state)
        }

        /// V(S), the number of the next segment to be sent for the first time.
        #[must_use]
        pub fn vs(&self) -> u8 {
            self.read_ground().vs
        }

        /// NN(R), the number that the spacecraft was last known to expect.
        #[must_use]
        pub fn nn(&self) -> u8 {
            self.read_ground().nn
        }

        /// The number of segments that were submitted and are not acknowledged.
        #[must_use]
        pub fn outstanding(&self) -> usize {
            self.read_ground().outstanding
        }

        /// The number of outstanding segments that wait to be sent for the first time.
        #[must_use]
        pub fn unsent(&self) -> usize {
            self.read_ground().unsent
        }

        /// The number of outstanding segments that are to be retransmitted.
        #[must_use]
        pub fn due(&self) -> usize {
            self.read_ground().due
        }

        /// The number of bypass packets that wait to be sent.
        #[must_use]
        pub fn bypassed(&self) -> usize {
            self.read_ground().bypassed
        }

        /// The ticks that are left while the timer runs, and 0 while it is off.
        #[must_use]
        pub fn ticks(&self) -> u16 {
            self.read_ground().ticks
        }

        /// The transmission count, at least 1.
        #[must_use]
        pub fn count(&self) -> u8 {
            self.read_ground().count
        }

        /// The length of a telemetry frame in octets.
        #[must_use]
        pub fn frame_length(&self) -> usize {
            self.read_ground().frame_length
        }
    };
}
