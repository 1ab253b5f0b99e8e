//! Packets in telemetry frames: rows worked by hand, packets over many frames, lost frames, and each refusal; alike over
//! memory that is lent and over memory of their own.

use sedgechisel::{Pointer, TmBuilder, TmExtractor, TmFault, TmFrame};

const OCF: [u8; 4] = [0x01, 0x08, 0x00, 0x00];

/// Packets of 7 octets, with the sequence counts 0 to 3.
const FOUR: [[u8; 7]; 4] = [
    [0x00, 0x05, 0xc0, 0x00, 0x00, 0x00, 0xaa],
    [0x00, 0x05, 0xc0, 0x01, 0x00, 0x00, 0xbb],
    [0x00, 0x05, 0xc0, 0x02, 0x00, 0x00, 0xcc],
    [0x00, 0x05, 0xc0, 0x03, 0x00, 0x00, 0xdd],
];

const IDLE: [u8; 7] = [0x07, 0xff, 0xc0, 0x00, 0x00, 0x00, 0x55];

/// A packet of 16 octets.
const LONG: [u8; 16] = [0, 5, 0xc0, 0, 0, 9, 1, 2, 3, 4, 5, 6, 7, 8, 9, 10];

#[test]
fn packets_in_frames() {
    four_packets(TmBuilder::new(1, 0, 20, &mut [0; 28]).unwrap(), TmExtractor::new(&mut [0; 30]));
}

fn four_packets(mut builder: TmBuilder, mut extractor: TmExtractor) {
    for packet in &FOUR {
        builder.queue(packet).unwrap();
    }
    assert_eq!(builder.queue(&FOUR[0]), Err(TmFault::Memory));
    let (mut found, mut room) = (Vec::new(), [0; TmFrame::LONGEST]);
    for (count, (data, place)) in [
        (b"\x00\x05\xc0\x00\x00\x00\xaa\x00", 0),
        (b"\x05\xc0\x01\x00\x00\xbb\x00\x05", 6),
        (b"\xc0\x02\x00\x00\xcc\x00\x05\xc0", 5),
        (b"\x03\x00\x00\xdd\x07\xff\xc0\x00", 4),
    ]
    .into_iter()
    .enumerate()
    {
        let frame = TmFrame::decode(builder.build(OCF, &mut room).unwrap(), 20).unwrap();
        assert_eq!((frame.scid, frame.vcid, frame.ocf, usize::from(frame.vc_count)), (1, 0, OCF, count));
        assert_eq!((frame.pointer, frame.data), (Pointer::At(place), &data[..]));
        if count != 1 {
            let extracted = extractor.take(&frame).unwrap();
            assert_eq!(extracted.lost, [None, None, Some(1), Some(0)][count]);
            found.extend(extracted.packets.map(<[u8]>::to_vec));
        }
    }
    assert_eq!(found, [FOUR[0], FOUR[3]]);
    assert_eq!((builder.waiting(), extractor.part()), (&[][..], &[0x07, 0xff, 0xc0, 0x00][..]));
}

fn frame(vc_count: u8, pointer: Pointer, data: &[u8]) -> TmFrame<'_> {
    TmFrame { scid: 1, vcid: 0, mc_count: 0, vc_count, pointer, ocf: OCF, data }
}

fn taken(extractor: &mut TmExtractor, frame: &TmFrame) -> Vec<Vec<u8>> {
    extractor.take(frame).unwrap().packets.map(<[u8]>::to_vec).collect()
}

#[test]
fn a_packet_over_many_frames() {
    a_long_packet(TmExtractor::new(&mut [0; 32]));
}

fn a_long_packet(mut extractor: TmExtractor) {
    assert!(taken(&mut extractor, &frame(255, Pointer::At(0), &LONG[..4])).is_empty());
    assert!(taken(&mut extractor, &frame(0, Pointer::NoStart, &LONG[4..15])).is_empty());
    assert_eq!(extractor.part(), &LONG[..15]);
    let last = [&LONG[15..], &IDLE, &FOUR[1], &FOUR[2][..5]].concat();
    assert_eq!(taken(&mut extractor, &frame(1, Pointer::At(1), &last)), [&LONG[..], &FOUR[1]]);
    assert_eq!(taken(&mut extractor, &frame(2, Pointer::NoStart, &FOUR[2][5..])), [FOUR[2]]);
    assert!(taken(&mut extractor, &frame(3, Pointer::At(0), &LONG[..8])).is_empty());
    assert!(taken(&mut extractor, &frame(5, Pointer::NoStart, &LONG[8..])).is_empty());
    assert!(extractor.part().is_empty());
}

/// Many frames come as each by itself: some with a damaged octet, some lost, in places that hold a few.
#[test]
fn frames_one_after_another() {
    let (mut sending, mut room, mut octets) = ([0; 200], [0; TmFrame::LONGEST], Vec::new());
    let mut builder = TmBuilder::new(1, 0, 24, &mut sending).unwrap();
    for k in 0..300 {
        while k % 20 < 18 && builder.waiting().len() < 100 {
            builder.queue(if k % 3 == 0 { &LONG[..] } else { &FOUR[k % 4] }).unwrap();
        }
        let frame = builder.build(OCF, &mut room).unwrap();
        if k % 7 == 3 {
            frame[k % 24] ^= 4;
        }
        if k % 9 != 8 {
            octets.extend_from_slice(frame);
        }
    }
    octets.extend_from_slice(b"rest");
    let (mut memory, mut other, mut packets) = ([0; 100], [0; 100], [0; 300]);
    let (mut many, mut alone) = (TmExtractor::new(&mut memory), TmExtractor::new(&mut other));
    let (mut rest, mut found, mut dropped, mut refused) = (&octets[..], 0, 0, 0);
    loop {
        let mut records = [0; 19 * 7];
        let frames = many.take_all(rest, 24, &mut records, &mut packets).unwrap();
        if frames.len() == 0 {
            break;
        }
        assert!(frames.len() <= 7);
        let (pieces, later) = rest.split_at(24 * frames.len());
        assert_eq!(frames.rest(), later);
        rest = later;
        for (one, piece) in frames.zip(pieces.chunks(24)) {
            match (one, TmFrame::decode(piece, 24)) {
                (Ok(one), Ok(frame)) => {
                    let wanted = alone.take(&frame).unwrap();
                    assert_eq!((&one.frame, one.lost), (&frame, wanted.lost));
                    let packets: Vec<_> = one.packets.collect();
                    assert_eq!(packets, wanted.packets.collect::<Vec<_>>());
                    found += packets.len();
                    dropped += usize::from(one.dropped);
                }
                (Err(one), Err(fault)) => {
                    assert_eq!(one, (fault, piece));
                    refused += 1;
                }
                (one, other) => panic!("{one:?} and {other:?}"),
            }
        }
        assert_eq!(many.part(), alone.part());
    }
    assert_eq!((rest, refused), (&b"rest"[..], 38));
    assert!(found > 100 && dropped > 10, "{found} {dropped}");
    let mut records = [0; 19];
    let none = many.take_all(&octets[..23], 24, &mut records, &mut packets[..124]).unwrap();
    assert_eq!((none.len(), none.rest()), (0, &octets[..23]));
    for (length, record, room, fault) in [
        (0, 19, 300, TmFault::Length),
        (15, 19, 300, TmFault::Length),
        (2049, 19, 300, TmFault::Length),
        (24, 18, 300, TmFault::Room),
        (24, 19, 123, TmFault::Room),
    ] {
        let refused = many.take_all(&octets, length, &mut records[..record], &mut packets[..room]);
        assert_eq!(refused.err(), Some(fault));
    }
    let mut one = many.take_all(&octets, 24, &mut records, &mut packets[..124]).unwrap();
    assert_eq!((one.len(), one.rest()), (1, &octets[24..]));
    assert!(one.next().is_some() && one.next().is_none());
    assert_eq!(one.rest(), &octets[24..]);
}

#[test]
fn refusals() {
    for (scid, vcid, length) in [(1024, 0, 20), (0, 8, 20), (0, 0, 15), (0, 0, 2049), (0, 0, 65_556)] {
        assert_eq!(TmBuilder::new(scid, vcid, length, &mut []).err(), Some(TmFault::FieldRange));
    }
    refusals_of(TmBuilder::new(1023, 7, 2048, &mut [0; 7]).unwrap(), TmExtractor::new(&mut [0; 10]));
}

fn refusals_of(mut builder: TmBuilder, mut extractor: TmExtractor) {
    assert_eq!(builder.queue(&IDLE), Err(TmFault::NotAPacket));
    assert_eq!(builder.queue(&[&FOUR[0][..], &FOUR[1]].concat()), Err(TmFault::NotAPacket));
    assert_eq!(builder.queue(&LONG), Err(TmFault::Memory));
    builder.queue(&FOUR[0]).unwrap();
    assert_eq!(builder.build(OCF, &mut [0; 2047]).err(), Some(TmFault::Room));
    assert_eq!(builder.waiting(), FOUR[0]);

    for (pointer, size) in [(0, 0), (8, 8), (2046, 8), (2047, 8), (65_535, 8)] {
        let fault = extractor.take(&frame(0, Pointer::At(pointer), &LONG[..size])).err();
        assert_eq!(fault, Some(TmFault::FieldRange));
    }
    assert!(taken(&mut extractor, &frame(0, Pointer::At(0), &LONG[..8])).is_empty());
    assert_eq!(extractor.take(&frame(1, Pointer::NoStart, &LONG[8..])).err(), Some(TmFault::Memory));
    assert_eq!(extractor.part(), &LONG[..8]);
    assert_eq!(extractor.take(&frame(2, Pointer::At(0), &FOUR[0])).unwrap().lost, Some(1));
}

#[cfg(feature = "nodes")]
mod owning {
    use super::*;
    use std::sync::mpsc::channel;
    use std::thread::spawn;

    #[test]
    fn packets_in_frames_that_own_their_memory() {
        four_packets(TmBuilder::owning(1, 0, 20, 28).unwrap(), TmExtractor::owning(30).unwrap());
        a_long_packet(TmExtractor::owning(32).unwrap());
    }

    /// Those of what borrows its memory, and 7 where there is none; 10 comes before it.
    #[test]
    fn refusals_of_what_owns_its_memory() {
        for (scid, vcid, length) in [(1024, 0, 20), (0, 8, 20), (0, 0, 15), (0, 0, 2049), (0, 0, 65_556)] {
            for room in [0, 7, usize::MAX] {
                let fault = TmBuilder::owning(scid, vcid, length, room).err();
                assert_eq!(fault, Some(TmFault::FieldRange));
            }
        }
        refusals_of(TmBuilder::owning(1023, 7, 2048, 7).unwrap(), TmExtractor::owning(10).unwrap());
        assert_eq!(TmBuilder::owning(1, 0, 20, usize::MAX).err(), Some(TmFault::Memory));
        assert_eq!(TmExtractor::owning(usize::MAX).err(), Some(TmFault::Memory));
        assert_eq!(TmBuilder::owning(1, 0, 20, 0).unwrap().queue(&FOUR[0]), Err(TmFault::Memory));
    }

    /// A builder is kept in one thread and an extractor in another, each by a program's own type without a lifetime.
    #[test]
    fn threads_that_own_them() {
        struct Sending(TmBuilder<'static>);
        struct Receiving(TmExtractor<'static>);
        let (frames, arriving) = channel::<Vec<u8>>();
        let sending = Sending(TmBuilder::owning(1, 0, 20, 28).unwrap());
        let receiving = Receiving(TmExtractor::owning(TmExtractor::ENOUGH).unwrap());
        let sender = spawn(move || {
            let (Sending(mut builder), mut room) = (sending, [0; TmFrame::LONGEST]);
            FOUR.iter().for_each(|it| builder.queue(it).unwrap());
            for _ in 0..4 {
                frames.send(builder.build(OCF, &mut room).unwrap().to_vec()).unwrap();
            }
        });
        let receiver = spawn(move || {
            let Receiving(mut extractor) = receiving;
            let took = |it: Vec<u8>| taken(&mut extractor, &TmFrame::decode(&it, 20).unwrap());
            arriving.into_iter().flat_map(took).collect::<Vec<_>>()
        });
        assert_eq!((sender.join().unwrap(), receiver.join().unwrap()), ((), FOUR.map(Vec::from).to_vec()));
    }
}
