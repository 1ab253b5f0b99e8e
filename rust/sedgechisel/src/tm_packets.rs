//! Packets in telemetry frames, for one virtual channel: built into frames and extracted from them (CCSDS 132.0-B-3, 4.2
//! and 4.3).

use crate::ffi;
use crate::memory::Memory;
use crate::tm::{Pointer, TmFault, TmFrame};
use core::iter::FusedIterator;

/// Builds the frames of one virtual channel, all of one length, from packets. The packets wait in memory that the
/// caller lends or, with the feature `nodes`, that the builder owns (CCSDS 132.0-B-3, 4.2).
///
/// ```
/// use sedgechisel::{Pointer, TmBuilder, TmFrame};
///
/// let (mut memory, mut room) = ([0; 4096], [0; TmFrame::LONGEST]);
/// let mut builder = TmBuilder::new(1, 0, 20, &mut memory)?;
/// builder.queue(&[0x00, 0x05, 0xc0, 0x00, 0x00, 0x00, 0xaa])?;
/// let frame = TmFrame::decode(builder.build([0x01, 0x08, 0x00, 0x00], &mut room)?, 20)?;
/// assert_eq!((frame.pointer, frame.data), (Pointer::At(0), &[0x00, 0x05, 0xc0, 0x00, 0x00, 0x00, 0xaa, 0x07][..]));
/// # Ok::<(), sedgechisel::TmFault>(())
/// ```
#[derive(Debug)]
pub struct TmBuilder<'m> {
    kept: ffi::TmBuilder,
    memory: Memory<'m>,
}

impl<'m> TmBuilder<'m> {
    /// Begins a builder of frames of `length` octets, 16 to 2,048, whose counts begin at 0. The memory must have as
    /// many octets as the packets that may wait.
    ///
    /// # Errors
    ///
    /// Refused with 10 [`FieldRange`](TmFault::FieldRange).
    pub fn new(scid: u16, vcid: u8, length: usize, memory: &'m mut [u8]) -> Result<Self, TmFault> {
        Ok(Self { kept: ffi::TmBuilder::opened(scid, vcid, length)?, memory: Memory::Lent(memory) })
    }

    /// The octets that are to be sent: the rest of the packet that was begun, and the packets that wait.
    #[must_use]
    pub fn waiting(&self) -> &[u8] {
        ffi::Part { from: self.kept.from, count: self.kept.count }.of(&self.memory)
    }

    /// Queues a packet, given as all of its octets.
    ///
    /// # Errors
    ///
    /// Refused with the first of 8 [`NotAPacket`](TmFault::NotAPacket), for octets that are not exactly one packet or
    /// are an idle one, and 7 [`Memory`](TmFault::Memory).
    pub fn queue(&mut self, packet: &[u8]) -> Result<(), TmFault> {
        TmFault::judge(ffi::tm_builder_queue(&mut self.kept, packet, &mut self.memory))
    }

    /// Writes the next frame, with this operational control field, to the beginning of `out`, and returns its octets.
    /// If packets run out within the frame, an idle packet fills it; if no packets are left, the frame has only idle
    /// data.
    ///
    /// # Errors
    ///
    /// Refused with 9 [`Room`](TmFault::Room), with nothing written.
    pub fn build<'o>(&mut self, ocf: [u8; 4], out: &'o mut [u8]) -> Result<&'o mut [u8], TmFault> {
        let mut total = 0;
        TmFault::judge(ffi::tm_builder_build(&mut self.kept, &ocf, &self.memory, out, &mut total))?;
        Ok(&mut out[..total])
    }
}

#[cfg(feature = "nodes")]
#[cfg_attr(docsrs, doc(cfg(feature = "nodes")))]
impl TmBuilder<'static> {
    /// Begins a builder as [`new`](TmBuilder::new) does, but one that owns its memory: `room` octets of packets may
    /// wait. The builder can be moved to another thread, and releases its memory when it is dropped.
    ///
    /// # Errors
    ///
    /// Refused with the first of 10 [`FieldRange`](TmFault::FieldRange) and, if there is no memory, 7
    /// [`Memory`](TmFault::Memory).
    pub fn owning(scid: u16, vcid: u8, length: usize, room: usize) -> Result<Self, TmFault> {
        let kept = ffi::TmBuilder::opened(scid, vcid, length)?;
        Ok(Self { kept, memory: Memory::own(room).ok_or(TmFault::Memory)? })
    }
}

impl ffi::TmBuilder {
    /// The fields of a builder that has sent nothing.
    fn opened(scid: u16, vcid: u8, length: usize) -> Result<Self, TmFault> {
        let mut kept = Self::default();
        TmFault::judge(ffi::sedge_tm_builder_open(&mut kept, scid, vcid, length))?;
        Ok(kept)
    }
}

/// Extracts packets from the frames of one virtual channel; any of the frames may be missing. The part of a packet that
/// has not ended is in memory that the caller lends or, with the feature `nodes`, that the extractor owns (CCSDS
/// 132.0-B-3, 4.3).
///
/// Pass packets on before you take the next frame, which may overwrite them. So this does not compile:
///
/// ```compile_fail,E0499
/// # use sedgechisel::{TmExtractor, TmFrame};
/// # let mut memory = [0; 4096];
/// # let octets = [0; 20];
/// # let frame = TmFrame::decode(&octets, 20)?;
/// # let mut extractor = TmExtractor::new(&mut memory);
/// let first = extractor.take(&frame)?;
/// let second = extractor.take(&frame)?;
/// first.packets.for_each(|it| println!("{it:?}"));
/// # Ok::<(), sedgechisel::TmFault>(())
/// ```
#[derive(Debug)]
pub struct TmExtractor<'m> {
    kept: ffi::TmExtractor,
    memory: Memory<'m>,
}

impl<'m> TmExtractor<'m> {
    /// The number of octets of memory that is enough for all packets: those of the longest packet and of the longest
    /// data field together.
    pub const ENOUGH: usize = 67_578;

    /// Begins an extractor that has seen no frame. The memory is large enough if it has as many octets as the longest
    /// packet and the data of a frame have together; [`ENOUGH`](Self::ENOUGH) octets are enough for all packets.
    #[must_use]
    pub fn new(memory: &'m mut [u8]) -> Self {
        Self { kept: ffi::TmExtractor::default(), memory: Memory::Lent(memory) }
    }

    /// The part of a packet that has not ended; no octets if there is none.
    #[must_use]
    pub fn part(&self) -> &[u8] {
        ffi::Part { from: self.kept.from, count: self.kept.count }.of(&self.memory)
    }

    /// Takes the next received frame of its spacecraft and channel. If frames are missing before it, the part is
    /// dropped.
    ///
    /// # Errors
    ///
    /// Refused with the first of 10 [`FieldRange`](TmFault::FieldRange) (a pointer after the data) and 7
    /// [`Memory`](TmFault::Memory); the frame then counts as missing.
    pub fn take<'t>(&'t mut self, frame: &TmFrame<'t>) -> Result<Extracted<'t>, TmFault> {
        let (kept, memory, mut extracted) = (&mut self.kept, &mut self.memory, ffi::TmExtracted::default());
        TmFault::judge(ffi::tm_extractor_frame(kept, &frame.raw(), frame.data, memory, &mut extracted))?;
        let joined = (extracted.joined > 0).then(|| &self.memory[..extracted.joined]);
        let lost = (extracted.first == 0).then_some(extracted.lost);
        Ok(Extracted { packets: TmPackets { joined, data: frame.data, last: extracted.packets }, lost })
    }

    /// Takes consecutive frames of `length` octets, each as [`TmFrame::decode`] and then [`take`](Self::take) do, in
    /// about the time of both. The frames are taken before the call returns, so the packets of all these frames may be
    /// used together. Packets within one frame are borrowed from the octets. `records` receives 19 octets for each
    /// frame, and `packets` receives the packets that began in an earlier frame.
    ///
    /// It stops when one of these buffers has no room left, or when no whole frame is left. For each frame `packets`
    /// must have as many octets left as the memory and the frame have together. [`len`](ExactSizeIterator::len) returns
    /// how many frames were taken, and [`rest`](TakenFrames::rest) the octets after them. Call again with these octets
    /// until no frame is taken; the octets that are then left do not form a whole frame. The call is fastest if these
    /// buffers stay in the processor's cache, with about 100 frames per call.
    ///
    /// # Errors
    ///
    /// Refused with 1 [`Length`](TmFault::Length), for a length outside 16 to 2,048, or with 9 [`Room`](TmFault::Room),
    /// if `records` has fewer than 19 octets, or `packets` fewer than the memory and a frame have. No frame is taken
    /// then, and nothing has changed.
    ///
    /// ```
    /// use sedgechisel::{TmExtractor, TmFault};
    ///
    /// let (octets, mut memory) = ([0; 60], [0; 4096]);
    /// let (mut records, mut packets) = ([0; 19 * 2], [0; 5000]);
    /// let mut extractor = TmExtractor::new(&mut memory);
    /// let mut rest = &octets[..];
    /// loop {
    ///     let frames = extractor.take_all(rest, 20, &mut records, &mut packets)?;
    ///     if frames.len() == 0 {
    ///         break;
    ///     }
    ///     rest = frames.rest();
    ///     for frame in frames {
    ///         match frame {
    ///             Ok(taken) => taken.packets.for_each(|it| println!("{it:?}")),
    ///             Err((fault, octets)) => assert_eq!((fault, octets.len()), (TmFault::Check, 20)),
    ///         }
    ///     }
    /// }
    /// assert!(rest.is_empty());
    /// # Ok::<(), TmFault>(())
    /// ```
    pub fn take_all<'o: 't, 't>(
        &mut self, octets: &'o [u8], length: usize, records: &'t mut [u8], packets: &'t mut [u8],
    ) -> Result<TakenFrames<'o, 't>, TmFault> {
        if !(16..=TmFrame::LONGEST).contains(&length) {
            return Err(TmFault::Length);
        }
        if records.len() < RECORD || packets.len() < self.memory.len() + length {
            return Err(TmFault::Room);
        }
        let (mut rest, mut count, mut end) = (octets, 0, 0);
        for record in records.chunks_exact_mut(RECORD) {
            if rest.len() < length || packets.len() - end < self.memory.len() + length {
                break;
            }
            let (whole, later) = rest.split_at(length);
            end += self.take_whole(whole, record, &mut packets[end..]);
            (rest, count) = (later, count + 1);
        }
        let octets = &octets[..count * length];
        Ok(TakenFrames { octets, rest, length, records: &records[..RECORD * count], joined: &packets[..end] })
    }

    /// Takes the frame in the octets, if they form one. Writes its record, and the packet that began before the frame
    /// and ends in it. Returns the length of this packet.
    fn take_whole(&mut self, octets: &[u8], record: &mut [u8], out: &mut [u8]) -> usize {
        let (mut frame, mut data) = (ffi::TmFrame::default(), ffi::Part::default());
        let (mut taken, mut dropped) = (ffi::TmExtracted::default(), false);
        let mut fault = ffi::tm_decode(octets, octets.len(), &mut frame, &mut data);
        if fault == ffi::SEDGE_OK {
            let (begun, data) = (Begun::of(self.part()), data.of(octets));
            fault = ffi::tm_extractor_frame(&mut self.kept, &frame, data, &mut self.memory, &mut taken);
            dropped = fault == ffi::SEDGE_OK && begun.is_dropped(&frame, data, &taken, self.kept.count);
        }
        if taken.joined > 0 {
            out[..taken.joined].copy_from_slice(&self.memory[..taken.joined]);
        }
        record.copy_from_slice(&record_of(&frame, fault, &taken, dropped));
        taken.joined
    }
}

/// The record of a frame: the length of the packet that the frame ends, in three octets, the lowest one first; where
/// the packets in its data begin, in two octets; its fault; how many frames are missing before it; in one octet, whether
/// it is the first, and whether a packet is dropped; and its fields.
fn record_of(frame: &ffi::TmFrame, fault: u8, taken: &ffi::TmExtracted, dropped: bool) -> [u8; RECORD] {
    let [c0, c1, c2, _] = (taken.joined as u32).to_le_bytes();
    let [f0, f1] = (taken.packets.from as u16).to_le_bytes();
    let [s0, s1] = frame.scid.to_le_bytes();
    let [p0, p1] = frame.pointer.to_le_bytes();
    let [o0, o1, o2, o3] = frame.ocf;
    let how = taken.first | u8::from(dropped) << 1;
    let (vcid, mc_count, vc_count) = (frame.vcid, frame.mc_count, frame.vc_count);
    [c0, c1, c2, f0, f1, fault, taken.lost, how, s0, s1, p0, p1, vcid, mc_count, vc_count, o0, o1, o2, o3]
}

/// The first octets of the packet that has not ended, at most two.
struct Begun {
    octets: [u8; 2],
    count: usize,
}

impl Begun {
    fn of(part: &[u8]) -> Self {
        match *part {
            [] => Self { octets: [0; 2], count: 0 },
            [one] => Self { octets: [one, 0], count: 1 },
            [one, two, ..] => Self { octets: [one, two], count: 2 },
        }
    }

    /// Whether a frame that was taken drops this packet, and the packet is not idle (docs/PROFILE.md, "Extraction", 1
    /// to 4). `left` is how many octets of a packet that has not ended are kept after the frame.
    fn is_dropped(&self, frame: &ffi::TmFrame, data: &[u8], taken: &ffi::TmExtracted, left: usize) -> bool {
        let goes_on = frame.pointer == ffi::SEDGE_POINTER_NO_START && left > 0;
        if self.count == 0 || taken.joined > 0 || goes_on {
            return false;
        }
        let front = match frame.pointer {
            _ if taken.lost != 0 => &[],
            ffi::SEDGE_POINTER_ONLY_IDLE => &[],
            ffi::SEDGE_POINTER_NO_START => data,
            place => &data[..usize::from(place)],
        };
        let second = if self.count == 2 { Some(&self.octets[1]) } else { front.first() };
        let is_idle = second.is_some_and(|it| self.octets[0] & 7 == 7 && *it == 255);
        !is_idle
    }
}

/// The number of octets in a record.
const RECORD: usize = 19;

#[cfg(feature = "nodes")]
#[cfg_attr(docsrs, doc(cfg(feature = "nodes")))]
impl TmExtractor<'static> {
    /// Begins an extractor as [`new`](TmExtractor::new) does, but one that owns its memory of `room` octets. The
    /// extractor can be moved to another thread, and releases its memory when it is dropped.
    ///
    /// # Errors
    ///
    /// Refused only with 7 [`Memory`](TmFault::Memory), if there is none.
    pub fn owning(room: usize) -> Result<Self, TmFault> {
        Ok(Self { kept: ffi::TmExtractor::default(), memory: Memory::own(room).ok_or(TmFault::Memory)? })
    }
}

/// What became of a frame.
#[derive(Clone, Debug)]
pub struct Extracted<'t> {
    /// The packets whose last octets it contains, except idle ones.
    pub packets: TmPackets<'t>,
    /// The number of frames that are missing before it, modulo 256; none is known before the first (4.1.2.6).
    pub lost: Option<u8>,
}

/// The octets of the packets that a frame ends, in their order.
#[derive(Clone, Debug)]
pub struct TmPackets<'t> {
    joined: Option<&'t [u8]>,
    data: &'t [u8],
    last: ffi::Part,
}

impl<'t> Iterator for TmPackets<'t> {
    type Item = &'t [u8];

    fn next(&mut self) -> Option<&'t [u8]> {
        if let Some(packet) = self.joined.take() {
            return Some(packet);
        }
        ffi::tm_packet(self.data, &mut self.last).then(|| self.last.of(self.data))
    }
}

impl FusedIterator for TmPackets<'_> {}

/// What became of consecutive frames, from [`TmExtractor::take_all`]: the result of each, or its fault with its octets.
#[derive(Clone, Debug)]
pub struct TakenFrames<'o, 't> {
    octets: &'o [u8],
    rest: &'o [u8],
    length: usize,
    records: &'t [u8],
    /// The packets that began before these frames and end in them, one after another.
    joined: &'t [u8],
}

impl<'o> TakenFrames<'o, '_> {
    /// The octets after the frames that were taken, whether or not the iterator has returned those frames yet. They are
    /// the frames for which there was no room, and at the very end octets that do not form a whole frame.
    #[must_use]
    pub fn rest(&self) -> &'o [u8] {
        self.rest
    }
}

/// A frame that was taken, and its packets.
#[derive(Clone, Debug)]
pub struct TakenFrame<'t> {
    /// The frame.
    pub frame: TmFrame<'t>,
    /// The packets whose last octets it contains, except idle ones.
    pub packets: TmPackets<'t>,
    /// The number of frames that are missing before it, modulo 256; none is known before the first (4.1.2.6).
    pub lost: Option<u8>,
    /// Whether a packet that had begun, and is not idle, was dropped.
    pub dropped: bool,
}

impl<'t> TakenFrame<'t> {
    /// The contents of the record of a frame with these octets, and the packet that the frame ends, or no octets.
    fn of(record: &[u8], octets: &'t [u8], joined: &'t [u8]) -> Result<Self, TmFault> {
        TmFault::judge(record[5])?;
        let two = |at| u16::from_le_bytes([record[at], record[at + 1]]);
        let data = &octets[6..octets.len() - 6];
        let frame = TmFrame {
            scid: two(8),
            vcid: record[12],
            mc_count: record[13],
            vc_count: record[14],
            pointer: Pointer::from_raw(two(10)),
            ocf: [record[15], record[16], record[17], record[18]],
            data,
        };
        let joined = (!joined.is_empty()).then_some(joined);
        let last = ffi::Part { from: usize::from(two(3)), count: 0 };
        let lost = (record[7] & 1 == 0).then_some(record[6]);
        Ok(Self { frame, packets: TmPackets { joined, data, last }, lost, dropped: record[7] & 2 != 0 })
    }
}

impl<'o: 't, 't> Iterator for TakenFrames<'o, 't> {
    type Item = Result<TakenFrame<'t>, (TmFault, &'t [u8])>;

    fn next(&mut self) -> Option<Self::Item> {
        if self.records.is_empty() {
            return None;
        }
        let (record, records) = self.records.split_at(RECORD);
        let (whole, octets) = self.octets.split_at(self.length);
        let count = u32::from_le_bytes([record[0], record[1], record[2], 0]);
        let (own, joined) = self.joined.split_at(count as usize);
        (self.records, self.octets, self.joined) = (records, octets, joined);
        Some(TakenFrame::of(record, whole, own).map_err(|fault| (fault, whole)))
    }

    fn size_hint(&self) -> (usize, Option<usize>) {
        let frames = self.records.len() / RECORD;
        (frames, Some(frames))
    }
}

impl<'o: 't, 't> ExactSizeIterator for TakenFrames<'o, 't> {}

impl<'o: 't, 't> FusedIterator for TakenFrames<'o, 't> {}

#[cfg(test)]
mod tests {
    use super::*;

    const FRAMES: usize = 2000;
    const ROOM: usize = 24 * FRAMES + 200;

    /// Frames of packets, idle packets, and octets that do not form a packet, wherever these may begin; some are lost
    /// or damaged.
    fn any_frames() -> [u8; 24 * FRAMES] {
        let (mut octets, mut state, mut vc_count) = ([0; 24 * FRAMES], 1_u32, 0_u8);
        let mut any = |below: u32| {
            state = state.wrapping_mul(1_664_525).wrapping_add(1_013_904_223);
            ((state >> 8) % below) as u8
        };
        for room in octets.chunks_exact_mut(24) {
            let mut data = [0; 12];
            data.fill_with(|| [0, 0, 0, 0, 0, 7, 255, 16][usize::from(any(8))]);
            let pointer = match any(8) {
                0 => Pointer::OnlyIdle,
                1..=3 => Pointer::NoStart,
                _ => Pointer::At(any(12).into()),
            };
            vc_count = vc_count.wrapping_add(if any(8) == 0 { any(3) } else { 1 });
            let ocf = [data[0]; 4];
            let frame = TmFrame { scid: 1, vcid: 0, mc_count: 0, vc_count, pointer, ocf, data: &data };
            frame.encode(room).unwrap();
            room[23] ^= u8::from(any(20) == 0);
        }
        octets
    }

    /// The result of `take_all` for each frame is the result of the library's call for many frames.
    #[test]
    fn frames_are_taken_as_by_the_call_for_many() {
        let octets = any_frames();
        let (mut records, mut packets, mut total) = ([0; RECORD * FRAMES], [0; ROOM], 0);
        let (mut kept, mut memory) = (ffi::TmExtractor::default(), [0; 100]);
        let (kept, memory, total_of) = (&mut kept, &mut memory, &mut total);
        let frames =
            ffi::tm_extractor_frames(kept, &octets, 24, memory, &mut records, &mut packets, total_of);
        assert_eq!(frames, FRAMES);
        let (mut own_records, mut own_packets, mut memory) = ([0; RECORD * FRAMES], [0; ROOM], [0; 100]);
        let mut extractor = TmExtractor::new(&mut memory);
        let found = extractor.take_all(&octets, 24, &mut own_records, &mut own_packets).unwrap();
        let (mut rest, mut dropped) = (&packets[..total], 0);
        for (frame, record) in found.zip(records.chunks_exact(RECORD)) {
            match frame {
                Err((fault, _)) => assert_eq!(fault.number(), record[4]),
                Ok(frame) => {
                    let (first, lost) = (u8::from(frame.lost.is_none()), frame.lost.unwrap_or(0));
                    assert_eq!([0, first, lost, u8::from(frame.dropped)], record[4..8]);
                    dropped += usize::from(frame.dropped);
                    frame.packets.for_each(|it| rest = rest.strip_prefix(it).unwrap());
                }
            }
        }
        assert!(rest.is_empty() && total > 1000 && dropped > 100, "{total} {dropped}");
    }
}
