//! Packets in segments, for one MAP (CCSDS 232.0-B-4, 4.1.3.2.2), with blocking or without it.

use crate::ffi;
use crate::numbers::{done, never};
use crate::tc::SegmentFlags;
use core::iter::FusedIterator;

reasons! {
    /// Why octets of a MAP are dropped (CCSDS 232.0-B-4, 4.1.3.2.2).
    Dropped {
        ClosedMap = 1, "the segment: its MAP is not open";
        Interrupted = 2, "the open part: a segment flagged first or alone came before its last one";
        NoBeginning = 3, "the segment: it continues or ends a packet, and no part is open";
        NotAPacket = 4, "a joined part is not exactly one packet, or a segment flagged alone is not one, or with \
            blocking not one or more whole packets";
        TooLong = 5, "a joined part or a segment flagged alone, or with blocking a packet in such a segment, has \
            more octets than the memory";
    }
}

faults! {
    /// Why octets are not cut into segments.
    MapFault {
        NotAPacket = 1, "not exactly one packet, or with blocking not one or more whole packets";
        TooLong = 2, "a packet has more octets than max_packet";
        Damaged = 255, "a struct has a value that no sender, receiver or MAP can have, or one outside its \
            enumeration";
    }
}

/// A MAP on board, which joins segments into packets in its caller's memory (CCSDS 232.0-B-4, 4.1.3.2.2).
///
/// ```
/// use sedgechisel::{Map, SegmentFlags};
///
/// let mut memory = [0; 4096];
/// let mut map = Map::new(&mut memory, false);
/// assert_eq!(map.take(SegmentFlags::First, &[0x10, 0x05, 0xc0]).packets.next(), None);
/// for packet in map.take(SegmentFlags::Last, &[0x00, 0x00, 0x00, 0xaa]).packets {
///     assert_eq!(packet, [0x10, 0x05, 0xc0, 0x00, 0x00, 0x00, 0xaa]);
/// }
/// ```
///
/// Pass packets on before you take the next segment, which may overwrite them. So this does not compile:
///
/// ```compile_fail,E0499
/// # use sedgechisel::{Map, SegmentFlags};
/// # let mut memory = [0; 4096];
/// # let mut map = Map::new(&mut memory, false);
/// let first = map.take(SegmentFlags::Last, &[0xaa]);
/// let second = map.take(SegmentFlags::First, &[0x10]);
/// first.packets.for_each(|it| println!("{it:?}"));
/// ```
#[derive(Debug)]
pub struct Map<'m> {
    kept: ffi::Map,
    memory: &'m mut [u8],
}

impl<'m> Map<'m> {
    /// Begins a MAP with no part open. The memory must have as many octets as the longest packet may have. With
    /// blocking, an alone segment may hold several whole packets.
    #[must_use]
    pub fn new(memory: &'m mut [u8], blocking: bool) -> Self {
        Self { kept: ffi::Map { blocking: blocking.into(), ..ffi::Map::default() }, memory }
    }

    /// The open part, if there is one: the beginning of a packet that is not whole yet.
    #[must_use]
    pub fn open_part(&self) -> Option<&[u8]> {
        (self.kept.open != 0).then(|| &self.memory[..self.kept.count])
    }

    /// Takes the next segment of the MAP: its flags and its data.
    #[must_use]
    pub fn take<'t>(&'t mut self, flags: SegmentFlags, data: &'t [u8]) -> Taken<'t> {
        let mut taken = ffi::Taken::default();
        done(ffi::map_take(&mut self.kept, flags.number(), data, self.memory, &mut taken));
        let octets = match taken.where_ {
            ffi::SEDGE_NO_PACKET => &[],
            ffi::SEDGE_IN_MEMORY => &self.memory[..taken.count],
            ffi::SEDGE_IN_DATA => &data[..taken.count],
            _ => never(),
        };
        let dropped = (taken.dropped != ffi::SEDGE_NOT_DROPPED).then(|| Dropped::of(taken.dropped));
        Taken { packets: packets(octets), dropped }
    }
}

/// What became of a segment. If a part was interrupted, there may be packets too.
#[derive(Clone, Debug)]
pub struct Taken<'t> {
    /// The packets that are whole now, in the MAP's memory or in the segment's data.
    pub packets: Packets<'t>,
    /// Why octets were dropped, if any were. If there are two causes, this is the later one.
    pub dropped: Option<Dropped>,
}

/// The whole packets at the beginning of octets, one after another.
#[must_use]
pub fn packets(octets: &[u8]) -> Packets<'_> {
    Packets { octets, last: ffi::Part::default() }
}

/// The packets one after another, from [`packets`].
#[derive(Clone, Debug)]
pub struct Packets<'a> {
    octets: &'a [u8],
    last: ffi::Part,
}

impl<'a> Iterator for Packets<'a> {
    type Item = &'a [u8];

    fn next(&mut self) -> Option<&'a [u8]> {
        ffi::map_packet(self.octets, &mut self.last).then(|| self.last.of(self.octets))
    }
}

impl FusedIterator for Packets<'_> {}

/// How a sender cuts packets.
#[derive(Clone, Copy, Debug, PartialEq, Eq, Hash)]
pub struct Limits {
    /// The maximum length of a segment's data in octets, at least 1.
    pub part: u32,
    /// The maximum length of a packet in octets.
    pub max_packet: u32,
    /// Whether packets that have at most `part` octets together go into one segment.
    pub blocking: bool,
}

/// The segments into which a packet is cut, or with blocking one or more packets, one after another (CCSDS 232.0-B-4,
/// 4.1.3.2.2). Nothing is copied.
///
/// ```
/// use sedgechisel::{segments, Limits};
///
/// let packet = [0x10, 0x05, 0xc0, 0x00, 0x00, 0x00, 0xaa];
/// let cut = segments(&packet, &Limits { part: 3, max_packet: 4096, blocking: false })?;
/// assert_eq!(cut.len(), 3);
/// for (flags, data) in cut {
///     println!("{flags:?} {data:?}"); // each goes into a frame of its own
/// }
/// # Ok::<(), sedgechisel::MapFault>(())
/// ```
///
/// # Errors
///
/// Refused with 255 [`Damaged`](MapFault::Damaged) for a part of 0, and then with the first of 1
/// [`NotAPacket`](MapFault::NotAPacket) and 2 [`TooLong`](MapFault::TooLong).
pub fn segments<'a>(octets: &'a [u8], limits: &Limits) -> Result<Segments<'a>, MapFault> {
    let limits =
        ffi::Limits { part: limits.part, max_packet: limits.max_packet, blocking: limits.blocking.into() };
    let mut count = 0;
    MapFault::judge(ffi::map_count(octets, &limits, &mut count))?;
    Ok(Segments { octets, limits, left: count, rest: octets, begun: 0 })
}

/// The segments into which octets are cut, from [`segments`]: the flags and the data of each. The time for all of them
/// is proportional to the number of packets and segments.
#[derive(Clone, Debug)]
pub struct Segments<'a> {
    octets: &'a [u8],
    limits: ffi::Limits,
    /// The number of segments that are left.
    left: usize,
    /// The packets of these segments.
    rest: &'a [u8],
    /// The number of segments of the first of these packets that were returned.
    begun: usize,
}

impl<'a> Segments<'a> {
    /// Segment `k` of all, counted from 0, if there are that many. The time of one call is proportional to the number
    /// of packets.
    #[must_use]
    pub fn get(&self, k: usize) -> Option<(SegmentFlags, &'a [u8])> {
        let (flags, data) = place(self.octets, &self.limits, k)?;
        Some((flags, data.of(self.octets)))
    }

    /// The packets that are left, up to and including the first with which they no longer fit into one segment. Later
    /// packets do not change the next segment.
    fn first_packets(&self) -> &'a [u8] {
        let mut last = ffi::Part::default();
        let mut end = 0;
        while end <= self.limits.part as usize && ffi::map_packet(self.rest, &mut last) {
            end = last.from + last.count;
        }
        &self.rest[..end]
    }
}

/// The flags of segment `k`, and where its data are, if there are that many.
fn place(octets: &[u8], limits: &ffi::Limits, k: usize) -> Option<(SegmentFlags, ffi::Part)> {
    let (mut flags, mut data) = (0, ffi::Part::default());
    match ffi::map_segment(octets, limits, k, &mut flags, &mut data) {
        ffi::SEDGE_OK => Some((SegmentFlags::of(flags), data)),
        ffi::SEDGE_ABSENT => None,
        _ => never(),
    }
}

impl<'a> Iterator for Segments<'a> {
    type Item = (SegmentFlags, &'a [u8]);

    fn next(&mut self) -> Option<Self::Item> {
        self.left = self.left.checked_sub(1)?;
        let packets = self.first_packets();
        let (flags, data) = place(packets, &self.limits, self.begun)?;
        (self.rest, self.begun) = match flags {
            SegmentFlags::First | SegmentFlags::Continuing => (self.rest, self.begun + 1),
            SegmentFlags::Last | SegmentFlags::Alone => (&self.rest[data.from + data.count..], 0),
        };
        Some((flags, data.of(packets)))
    }

    fn size_hint(&self) -> (usize, Option<usize>) {
        (self.left, Some(self.left))
    }
}

impl ExactSizeIterator for Segments<'_> {}

impl FusedIterator for Segments<'_> {}
