//! The library's calls as c/include/sedgechisel.h declares them: the one module that has unsafe code. `rust/check`
//! compares each number with the header, and `tools/bindings` writes the calls and the fields of structs.
//!
//! What the header requires of a caller holds for all calls here:
//! - each pointer is made from a reference or a slice, so it is not null, is aligned, and may be read or written;
//! - the count after a pointer to octets is the length of the same slice, and Rust's octets are always initialised;
//! - what is written is behind a `&mut`, so nothing else overlaps it;
//! - a `bool` is false or true.
#![allow(unsafe_code, dead_code)]

#[cfg(feature = "nodes")]
pub mod nodes;

// enum sedge_status
pub const SEDGE_OK: u8 = 0;
pub const SEDGE_ABSENT: u8 = 253;
pub const SEDGE_WRONG_COUNT: u8 = 254;
pub const SEDGE_DAMAGED: u8 = 255;

// enum sedge_clcw_flags
pub const SEDGE_CLCW_RETRANSMIT: u8 = 0x08;
pub const SEDGE_CLCW_WAIT: u8 = 0x10;
pub const SEDGE_CLCW_LOCKOUT: u8 = 0x20;
pub const SEDGE_CLCW_NO_BIT_LOCK: u8 = 0x40;
pub const SEDGE_CLCW_NO_RF: u8 = 0x80;

// enum sedge_control
pub const SEDGE_CONTROL_IDLE: u8 = 0;
pub const SEDGE_CONTROL_UNLOCK_DUE: u8 = 1;
pub const SEDGE_CONTROL_UNLOCK_SENT: u8 = 2;
pub const SEDGE_CONTROL_SET_VR_DUE: u8 = 3;
pub const SEDGE_CONTROL_SET_VR_SENT: u8 = 4;

pub const SEDGE_NO_ALERT: u8 = 0;

// enum sedge_next
pub const SEDGE_NEXT_NOTHING: u8 = 0;
pub const SEDGE_NEXT_UNLOCK: u8 = 1;
pub const SEDGE_NEXT_SET_VR: u8 = 2;
pub const SEDGE_NEXT_FIRST: u8 = 3;
pub const SEDGE_NEXT_AGAIN: u8 = 4;

// enum sedge_tc_kind
pub const SEDGE_TC_AD: u8 = 0;
pub const SEDGE_TC_BD: u8 = 1;
pub const SEDGE_TC_BC: u8 = 2;

// enum sedge_command
pub const SEDGE_UNLOCK: u8 = 0;
pub const SEDGE_SET_VR: u8 = 1;

// enum sedge_pointer
pub const SEDGE_POINTER_ONLY_IDLE: u16 = 2046;
pub const SEDGE_POINTER_NO_START: u16 = 2047;

pub const SEDGE_NOT_DROPPED: u8 = 0;

// enum sedge_log_action
pub const SEDGE_LOG_NOTHING: u8 = 0;
pub const SEDGE_LOG_WRITE_FIRST: u8 = 1;
pub const SEDGE_LOG_WRITE_SECOND: u8 = 2;
pub const SEDGE_LOG_EXECUTE: u8 = 3;
pub const SEDGE_LOG_RESTART: u8 = 4;

// enum sedge_log_status_kind
pub const SEDGE_LOG_STATUS_SAYS: u8 = 0;
pub const SEDGE_LOG_STATUS_CHANGES: u8 = 1;
pub const SEDGE_LOG_STATUS_STARTS: u8 = 2;
pub const SEDGE_LOG_STATUS_LOST: u8 = 3;

// enum sedge_log_order_kind
pub const SEDGE_LOG_ORDER_RESTART: u8 = 1;
pub const SEDGE_LOG_ORDER_REBUILD: u8 = 2;

// enum sedge_where
pub const SEDGE_NO_PACKET: u8 = 0;
pub const SEDGE_IN_MEMORY: u8 = 1;
pub const SEDGE_IN_DATA: u8 = 2;

#[repr(C)]
#[derive(Clone, Copy)]
pub struct Text {
    pub text: [u8; 20],
}

impl Text {
    /// The characters before the first zero.
    pub fn as_str(&self) -> &str {
        before_zero(&self.text)
    }
}

#[repr(C)]
#[derive(Clone, Copy)]
pub struct Advice {
    pub text: [u8; 160],
}

impl Advice {
    /// The characters before the first zero.
    pub fn as_str(&self) -> &str {
        before_zero(&self.text)
    }
}

fn before_zero(text: &[u8]) -> &str {
    let word = text.split(|it| *it == 0).next();
    word.and_then(|it| core::str::from_utf8(it).ok()).unwrap_or("?")
}

#[repr(C)]
#[derive(Clone, Copy, Debug, Default)]
pub struct Part {
    pub from: usize,
    pub count: usize,
}

impl Part {
    /// Returns the part of these octets.
    pub fn of(self, octets: &[u8]) -> &[u8] {
        &octets[self.from..][..self.count]
    }
}

#[repr(C)]
#[derive(Clone, Copy, Debug, Default)]
pub struct LogRecord {
    pub known: u64,
    pub boot: u32,
    pub last: u32,
    pub history: u32,
    pub begun: u8,
}

#[repr(C)]
#[derive(Clone, Copy, Debug, Default)]
pub struct Log {
    pub kept: LogRecord,
    pub mark: u32,
    pub stage: u8,
}

#[repr(C)]
#[derive(Clone, Copy, Debug, Default)]
pub struct BoardStatus {
    pub kept: LogRecord,
    pub mark: u32,
    pub kind: u8,
    pub waiting: u8,
}

#[repr(C)]
#[derive(Clone, Copy, Debug, Default)]
pub struct LogOrder {
    pub boot: u32,
    pub last: u32,
    pub mark: u32,
    pub kind: u8,
}

#[repr(C)]
#[derive(Clone, Copy, Debug, Default)]
pub struct Clcw {
    pub status: u8,
    pub vcid: u8,
    pub flags: u8,
    pub farm_b: u8,
    pub value: u8,
}

#[repr(C)]
#[derive(Clone, Copy, Debug, Default, PartialEq, Eq)]
pub struct Farm {
    pub width: u8,
    pub vr: u8,
    pub lockout: u8,
    pub wait: u8,
    pub retransmit: u8,
    pub farm_b: u8,
}

#[repr(C)]
#[derive(Clone, Copy, Debug, Default, PartialEq, Eq)]
pub struct Fop {
    pub timer: u16,
    pub ticks: u16,
    pub room: u8,
    pub state: u8,
    pub vs: u8,
    pub nn: u8,
    pub waiting: u8,
    pub sent: u8,
    pub due: u8,
    pub window: u8,
    pub limit: u8,
    pub count: u8,
    pub control: u8,
    pub vr: u8,
}

#[repr(C)]
#[derive(Clone, Copy, Debug, Default)]
pub struct TcFrame {
    pub scid: u16,
    pub vcid: u8,
    pub kind: u8,
    pub n: u8,
    pub flags: u8,
    pub map: u8,
    pub command: u8,
    pub vr: u8,
}

#[repr(C)]
#[derive(Clone, Copy, Debug, Default)]
pub struct Packet {
    pub apid: u16,
    pub count: u16,
    pub kind: u8,
    pub secondary: u8,
    pub flags: u8,
}

#[repr(C)]
#[derive(Clone, Copy, Debug, Default)]
pub struct TmFrame {
    pub scid: u16,
    pub pointer: u16,
    pub vcid: u8,
    pub mc_count: u8,
    pub vc_count: u8,
    pub ocf: [u8; 4],
}

#[repr(C)]
#[derive(Clone, Copy, Debug, Default)]
pub struct TmBuilder {
    pub from: usize,
    pub count: usize,
    pub begun: usize,
    pub scid: u16,
    pub length: u16,
    pub vcid: u8,
    pub next_count: u8,
    pub idle_left: u8,
}

#[repr(C)]
#[derive(Clone, Copy, Debug, Default)]
pub struct TmExtractor {
    pub from: usize,
    pub count: usize,
    pub last: u8,
    pub seen: u8,
}

#[repr(C)]
#[derive(Clone)]
pub struct GapCheck {
    pub last: [u16; 2048],
}

#[repr(C)]
#[derive(Clone, Copy, Debug, Default)]
pub struct TmExtracted {
    pub joined: usize,
    pub packets: Part,
    pub first: u8,
    pub lost: u8,
}

#[repr(C)]
#[derive(Clone, Copy, Debug, Default)]
pub struct Map {
    pub count: usize,
    pub open: u8,
    pub blocking: u8,
}

#[repr(C)]
#[derive(Clone, Copy, Debug, Default)]
pub struct Taken {
    pub count: usize,
    pub where_: u8,
    pub dropped: u8,
}

#[repr(C)]
#[derive(Clone, Copy, Debug, Default)]
pub struct Limits {
    pub part: u32,
    pub max_packet: u32,
    pub blocking: u8,
}

// ---- tools/bindings makes what follows of the exports of the library. ----

// SAFETY: these are the library's calls with their types. A call without the address of octets requires only references
// from its caller, so it is safe.
#[rustfmt::skip]
unsafe extern "C" {
    pub safe fn sedge_version() -> Text;

    fn sedge_check(octets: *const u8, count: usize) -> u16;
    fn sedge_check_append(octets: *mut u8, count: usize) -> bool;
    fn sedge_check_holds(octets: *const u8, count: usize) -> bool;

    fn sedge_clcw_decode(octets: *const u8, count: usize, word: &mut Clcw) -> u8;
    fn sedge_clcw_encode(word: &Clcw, out: *mut u8, room: usize) -> u8;

    pub safe fn sedge_farm_open(farm: &mut Farm, width: u8, vr: u8) -> u8;
    pub safe fn sedge_farm_ad(farm: &mut Farm, n: u8, buffer_free: bool) -> u8;
    pub safe fn sedge_farm_bd(farm: &mut Farm) -> u8;
    pub safe fn sedge_farm_unlock(farm: &mut Farm) -> u8;
    pub safe fn sedge_farm_set_vr(farm: &mut Farm, vr: u8) -> u8;
    pub safe fn sedge_farm_released(farm: &mut Farm) -> u8;
    pub safe fn sedge_farm_control_word(farm: &Farm, vcid: u8, word: &mut Clcw) -> u8;
    pub safe fn sedge_farm_state(farm: &Farm) -> u8;

    pub safe fn sedge_fop_open(fop: &mut Fop, width: u8, window: u8, limit: u8, timer: u16) -> u8;
    pub safe fn sedge_fop_directive(fop: &mut Fop, directive: u8, value: u16) -> u8;
    pub safe fn sedge_fop_submit(fop: &mut Fop) -> u8;
    pub safe fn sedge_fop_next(fop: &mut Fop, number: &mut u8) -> u8;
    pub safe fn sedge_fop_clcw(fop: &mut Fop, vcid: u8, word: &Clcw, released: &mut u8) -> u8;
    pub safe fn sedge_fop_tick(fop: &mut Fop) -> u8;
    pub safe fn sedge_fop_accepted_beyond(fop: &Fop, value: u8, accepted: &mut u8) -> u8;
    pub safe fn sedge_accepted_beyond(nn: u8, vs: u8, value: u8, accepted: &mut u8) -> u8;

    fn sedge_tc_decode(
        octets: *const u8, count: usize, checked: bool, frame: &mut TcFrame, data: &mut Part,
    ) -> u8;
    fn sedge_tc_encode(
        frame: &TcFrame, data: *const u8, data_count: usize, checked: bool, out: *mut u8, room: usize,
        total: &mut usize,
    ) -> u8;
    fn sedge_tc_declared(octets: *const u8, count: usize, checked: bool, total: &mut usize) -> u8;
    fn sedge_tc_frames(
        octets: *const u8, count: usize, checked: bool, out: *mut u8, room: usize, total: &mut usize,
    ) -> usize;

    fn sedge_packet_decode(octets: *const u8, count: usize, packet: &mut Packet, data: &mut Part) -> u8;
    fn sedge_packet_encode(
        packet: &Packet, data: *const u8, data_count: usize, out: *mut u8, room: usize, total: &mut usize,
    ) -> u8;
    fn sedge_packet_declared(octets: *const u8, count: usize, total: &mut usize) -> u8;
    pub safe fn sedge_gap_check_open(check: &mut GapCheck);
    pub safe fn sedge_gap_check_see(check: &mut GapCheck, apid: u16, count: u16, missing: &mut u16) -> u8;

    fn sedge_tm_decode(
        octets: *const u8, count: usize, length: usize, frame: &mut TmFrame, data: &mut Part,
    ) -> u8;
    fn sedge_tm_encode(
        frame: &TmFrame, data: *const u8, data_count: usize, out: *mut u8, room: usize, total: &mut usize,
    ) -> u8;

    pub safe fn sedge_tm_builder_open(builder: &mut TmBuilder, scid: u16, vcid: u8, length: usize) -> u8;
    fn sedge_tm_builder_queue(
        builder: &mut TmBuilder, packet: *const u8, count: usize, memory: *mut u8, room: usize,
    ) -> u8;
    fn sedge_tm_builder_build(
        builder: &mut TmBuilder, ocf: *const u8, ocf_count: usize, memory: *const u8, memory_count: usize,
        out: *mut u8, room: usize, total: &mut usize,
    ) -> u8;
    fn sedge_tm_extractor_frame(
        extractor: &mut TmExtractor, frame: &TmFrame, data: *const u8, data_count: usize, memory: *mut u8,
        room: usize, extracted: &mut TmExtracted,
    ) -> u8;
    fn sedge_tm_packet(data: *const u8, data_count: usize, packet: &mut Part) -> bool;
    fn sedge_tm_extractor_frames(
        extractor: &mut TmExtractor, octets: *const u8, count: usize, frame_length: usize, memory: *mut u8,
        memory_room: usize, out: *mut u8, out_room: usize, packets: *mut u8, packets_room: usize,
        total: &mut usize,
    ) -> usize;

    fn sedge_map_take(
        map: &mut Map, flags: u8, data: *const u8, data_count: usize, memory: *mut u8, room: usize,
        taken: &mut Taken,
    ) -> u8;
    fn sedge_map_packet(octets: *const u8, count: usize, packet: &mut Part) -> bool;
    fn sedge_map_count(octets: *const u8, count: usize, limits: &Limits, segments: &mut usize) -> u8;
    fn sedge_map_segment(
        octets: *const u8, count: usize, limits: &Limits, k: usize, flags: &mut u8, data: &mut Part,
    ) -> u8;

    fn sedge_log_start(
        log: &mut Log, first: *const u8, first_count: usize, second: *const u8, second_count: usize,
        mark: u32,
    );
    fn sedge_log_next(log: &Log, out: *mut u8, room: usize, number: &mut u32) -> u8;
    pub safe fn sedge_log_done(log: &mut Log, action: u8, number: u32) -> u8;
    fn sedge_log_offer(log: &mut Log, octets: *const u8, count: usize, content: &mut Part) -> u8;
    fn sedge_log_obey(log: &mut Log, octets: *const u8, count: usize) -> u8;
    fn sedge_log_status(log: &Log, waiting: usize, out: *mut u8, room: usize) -> u8;
    fn sedge_log_new_record(out: *mut u8, room: usize) -> u8;
    fn sedge_log_status_decode(octets: *const u8, count: usize, status: &mut BoardStatus) -> u8;
    fn sedge_log_command_encode(
        apid: u16, count: u16, number: u32, content: *const u8, content_count: usize, out: *mut u8,
        room: usize, total: &mut usize,
    ) -> u8;
    fn sedge_log_order_encode(
        order: &LogOrder, apid: u16, count: u16, out: *mut u8, room: usize, total: &mut usize,
    ) -> u8;
    fn sedge_log_history_after(history: u32, packet: *const u8, count: usize) -> u32;

    pub safe fn sedge_clcw_fault_name(fault: u8) -> Text;
    pub safe fn sedge_cop_fault_name(fault: u8) -> Text;
    pub safe fn sedge_verdict_name(verdict: u8) -> Text;
    pub safe fn sedge_alert_name(alert: u8) -> Text;
    pub safe fn sedge_tc_fault_name(fault: u8) -> Text;
    pub safe fn sedge_packet_fault_name(fault: u8) -> Text;
    pub safe fn sedge_tm_fault_name(fault: u8) -> Text;
    pub safe fn sedge_map_fault_name(fault: u8) -> Text;
    pub safe fn sedge_dropped_name(cause: u8) -> Text;
    pub safe fn sedge_log_fault_name(fault: u8) -> Text;

    pub safe fn sedge_alert_shows_broken_condition(alert: u8) -> bool;
    pub safe fn sedge_alert_advice(alert: u8) -> Advice;
}

pub fn check(octets: &[u8]) -> u16 {
    // SAFETY: each pointer to octets and the count after it come from one slice; all other pointers are references.
    unsafe { sedge_check(octets.as_ptr(), octets.len()) }
}

pub fn check_append(octets: &mut [u8]) -> bool {
    // SAFETY: each pointer to octets and the count after it come from one slice; all other pointers are references.
    unsafe { sedge_check_append(octets.as_mut_ptr(), octets.len()) }
}

pub fn check_holds(octets: &[u8]) -> bool {
    // SAFETY: each pointer to octets and the count after it come from one slice; all other pointers are references.
    unsafe { sedge_check_holds(octets.as_ptr(), octets.len()) }
}

pub fn clcw_decode(octets: &[u8], word: &mut Clcw) -> u8 {
    // SAFETY: each pointer to octets and the count after it come from one slice; all other pointers are references.
    unsafe { sedge_clcw_decode(octets.as_ptr(), octets.len(), word) }
}

pub fn clcw_encode(word: &Clcw, out: &mut [u8]) -> u8 {
    // SAFETY: each pointer to octets and the count after it come from one slice; all other pointers are references.
    unsafe { sedge_clcw_encode(word, out.as_mut_ptr(), out.len()) }
}

pub fn tc_decode(octets: &[u8], checked: bool, frame: &mut TcFrame, data: &mut Part) -> u8 {
    // SAFETY: each pointer to octets and the count after it come from one slice; all other pointers are references.
    unsafe { sedge_tc_decode(octets.as_ptr(), octets.len(), checked, frame, data) }
}

pub fn tc_encode(frame: &TcFrame, data: &[u8], checked: bool, out: &mut [u8], total: &mut usize) -> u8 {
    // SAFETY: each pointer to octets and the count after it come from one slice; all other pointers are references.
    unsafe { sedge_tc_encode(frame, data.as_ptr(), data.len(), checked, out.as_mut_ptr(), out.len(), total) }
}

pub fn tc_declared(octets: &[u8], checked: bool, total: &mut usize) -> u8 {
    // SAFETY: each pointer to octets and the count after it come from one slice; all other pointers are references.
    unsafe { sedge_tc_declared(octets.as_ptr(), octets.len(), checked, total) }
}

pub fn tc_frames(octets: &[u8], checked: bool, out: &mut [u8], total: &mut usize) -> usize {
    // SAFETY: each pointer to octets and the count after it come from one slice; all other pointers are references.
    unsafe { sedge_tc_frames(octets.as_ptr(), octets.len(), checked, out.as_mut_ptr(), out.len(), total) }
}

pub fn packet_decode(octets: &[u8], packet: &mut Packet, data: &mut Part) -> u8 {
    // SAFETY: each pointer to octets and the count after it come from one slice; all other pointers are references.
    unsafe { sedge_packet_decode(octets.as_ptr(), octets.len(), packet, data) }
}

pub fn packet_encode(packet: &Packet, data: &[u8], out: &mut [u8], total: &mut usize) -> u8 {
    // SAFETY: each pointer to octets and the count after it come from one slice; all other pointers are references.
    unsafe { sedge_packet_encode(packet, data.as_ptr(), data.len(), out.as_mut_ptr(), out.len(), total) }
}

pub fn packet_declared(octets: &[u8], total: &mut usize) -> u8 {
    // SAFETY: each pointer to octets and the count after it come from one slice; all other pointers are references.
    unsafe { sedge_packet_declared(octets.as_ptr(), octets.len(), total) }
}

pub fn tm_decode(octets: &[u8], length: usize, frame: &mut TmFrame, data: &mut Part) -> u8 {
    // SAFETY: each pointer to octets and the count after it come from one slice; all other pointers are references.
    unsafe { sedge_tm_decode(octets.as_ptr(), octets.len(), length, frame, data) }
}

pub fn tm_encode(frame: &TmFrame, data: &[u8], out: &mut [u8], total: &mut usize) -> u8 {
    // SAFETY: each pointer to octets and the count after it come from one slice; all other pointers are references.
    unsafe { sedge_tm_encode(frame, data.as_ptr(), data.len(), out.as_mut_ptr(), out.len(), total) }
}

pub fn tm_builder_queue(builder: &mut TmBuilder, packet: &[u8], memory: &mut [u8]) -> u8 {
    // SAFETY: each pointer to octets and the count after it come from one slice; all other pointers are references.
    unsafe {
        sedge_tm_builder_queue(builder, packet.as_ptr(), packet.len(), memory.as_mut_ptr(), memory.len())
    }
}

pub fn tm_builder_build(
    builder: &mut TmBuilder, ocf: &[u8], memory: &[u8], out: &mut [u8], total: &mut usize,
) -> u8 {
    // SAFETY: each pointer to octets and the count after it come from one slice; all other pointers are references.
    unsafe {
        sedge_tm_builder_build(
            builder,
            ocf.as_ptr(),
            ocf.len(),
            memory.as_ptr(),
            memory.len(),
            out.as_mut_ptr(),
            out.len(),
            total,
        )
    }
}

pub fn tm_extractor_frame(
    extractor: &mut TmExtractor, frame: &TmFrame, data: &[u8], memory: &mut [u8], extracted: &mut TmExtracted,
) -> u8 {
    // SAFETY: each pointer to octets and the count after it come from one slice; all other pointers are references.
    unsafe {
        sedge_tm_extractor_frame(
            extractor,
            frame,
            data.as_ptr(),
            data.len(),
            memory.as_mut_ptr(),
            memory.len(),
            extracted,
        )
    }
}

pub fn tm_packet(data: &[u8], packet: &mut Part) -> bool {
    // SAFETY: each pointer to octets and the count after it come from one slice; all other pointers are references.
    unsafe { sedge_tm_packet(data.as_ptr(), data.len(), packet) }
}

pub fn tm_extractor_frames(
    extractor: &mut TmExtractor, octets: &[u8], frame_length: usize, memory: &mut [u8], out: &mut [u8],
    packets: &mut [u8], total: &mut usize,
) -> usize {
    // SAFETY: each pointer to octets and the count after it come from one slice; all other pointers are references.
    unsafe {
        sedge_tm_extractor_frames(
            extractor,
            octets.as_ptr(),
            octets.len(),
            frame_length,
            memory.as_mut_ptr(),
            memory.len(),
            out.as_mut_ptr(),
            out.len(),
            packets.as_mut_ptr(),
            packets.len(),
            total,
        )
    }
}

pub fn map_take(map: &mut Map, flags: u8, data: &[u8], memory: &mut [u8], taken: &mut Taken) -> u8 {
    // SAFETY: each pointer to octets and the count after it come from one slice; all other pointers are references.
    unsafe { sedge_map_take(map, flags, data.as_ptr(), data.len(), memory.as_mut_ptr(), memory.len(), taken) }
}

pub fn map_packet(octets: &[u8], packet: &mut Part) -> bool {
    // SAFETY: each pointer to octets and the count after it come from one slice; all other pointers are references.
    unsafe { sedge_map_packet(octets.as_ptr(), octets.len(), packet) }
}

pub fn map_count(octets: &[u8], limits: &Limits, segments: &mut usize) -> u8 {
    // SAFETY: each pointer to octets and the count after it come from one slice; all other pointers are references.
    unsafe { sedge_map_count(octets.as_ptr(), octets.len(), limits, segments) }
}

pub fn map_segment(octets: &[u8], limits: &Limits, k: usize, flags: &mut u8, data: &mut Part) -> u8 {
    // SAFETY: each pointer to octets and the count after it come from one slice; all other pointers are references.
    unsafe { sedge_map_segment(octets.as_ptr(), octets.len(), limits, k, flags, data) }
}

pub fn log_start(log: &mut Log, first: &[u8], second: &[u8], mark: u32) {
    // SAFETY: each pointer to octets and the count after it come from one slice; all other pointers are references.
    unsafe { sedge_log_start(log, first.as_ptr(), first.len(), second.as_ptr(), second.len(), mark) }
}

pub fn log_next(log: &Log, out: &mut [u8], number: &mut u32) -> u8 {
    // SAFETY: each pointer to octets and the count after it come from one slice; all other pointers are references.
    unsafe { sedge_log_next(log, out.as_mut_ptr(), out.len(), number) }
}

pub fn log_offer(log: &mut Log, octets: &[u8], content: &mut Part) -> u8 {
    // SAFETY: each pointer to octets and the count after it come from one slice; all other pointers are references.
    unsafe { sedge_log_offer(log, octets.as_ptr(), octets.len(), content) }
}

pub fn log_obey(log: &mut Log, octets: &[u8]) -> u8 {
    // SAFETY: each pointer to octets and the count after it come from one slice; all other pointers are references.
    unsafe { sedge_log_obey(log, octets.as_ptr(), octets.len()) }
}

pub fn log_status(log: &Log, waiting: usize, out: &mut [u8]) -> u8 {
    // SAFETY: each pointer to octets and the count after it come from one slice; all other pointers are references.
    unsafe { sedge_log_status(log, waiting, out.as_mut_ptr(), out.len()) }
}

pub fn log_new_record(out: &mut [u8]) -> u8 {
    // SAFETY: each pointer to octets and the count after it come from one slice; all other pointers are references.
    unsafe { sedge_log_new_record(out.as_mut_ptr(), out.len()) }
}

pub fn log_status_decode(octets: &[u8], status: &mut BoardStatus) -> u8 {
    // SAFETY: each pointer to octets and the count after it come from one slice; all other pointers are references.
    unsafe { sedge_log_status_decode(octets.as_ptr(), octets.len(), status) }
}

pub fn log_command_encode(
    apid: u16, count: u16, number: u32, content: &[u8], out: &mut [u8], total: &mut usize,
) -> u8 {
    // SAFETY: each pointer to octets and the count after it come from one slice; all other pointers are references.
    unsafe {
        sedge_log_command_encode(
            apid,
            count,
            number,
            content.as_ptr(),
            content.len(),
            out.as_mut_ptr(),
            out.len(),
            total,
        )
    }
}

pub fn log_order_encode(order: &LogOrder, apid: u16, count: u16, out: &mut [u8], total: &mut usize) -> u8 {
    // SAFETY: each pointer to octets and the count after it come from one slice; all other pointers are references.
    unsafe { sedge_log_order_encode(order, apid, count, out.as_mut_ptr(), out.len(), total) }
}

pub fn log_history_after(history: u32, packet: &[u8]) -> u32 {
    // SAFETY: each pointer to octets and the count after it come from one slice; all other pointers are references.
    unsafe { sedge_log_history_after(history, packet.as_ptr(), packet.len()) }
}
