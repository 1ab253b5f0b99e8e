//! The calls of c/include/sedgechisel_nodes.h, and the memory that they use, which the program's allocator provides.
//!
//! A handle is created by `default`, is never copied, and is closed when it is dropped. No two calls use a handle at
//! once: each takes it by `&mut`, or from an [`Own`], which two threads cannot share.

use super::{Clcw, Text};
use crate::nodes::Raw as Config;
use alloc::alloc::{alloc, dealloc, realloc, Layout};
use core::cell::UnsafeCell;
use core::ffi::c_void;
use core::ptr::{null_mut, NonNull};

pub const SEDGE_NODE_OK: u8 = 0;
pub const SEDGE_NODE_ROOM: u8 = 252;
pub const SEDGE_NODE_ABSENT: u8 = 253;
pub const SEDGE_NODE_OUT_OF_RANGE: u8 = 254;
pub const SEDGE_NODE_NONE: u8 = 255;

pub const SEDGE_LEDGER_ROOM: u8 = 252;
pub const SEDGE_LEDGER_ABSENT: u8 = 253;
pub const SEDGE_LEDGER_OUT_OF_RANGE: u8 = 254;

pub const SEDGE_NO_PARAMETER: u8 = 0;

// enum sedge_heard_kind
pub const SEDGE_HEARD_INVALID: u8 = 1;
pub const SEDGE_HEARD_FOREIGN: u8 = 2;
pub const SEDGE_HEARD_FRAME: u8 = 3;
pub const SEDGE_HEARD_CLCW: u8 = 4;

// enum sedge_heard_report
pub const SEDGE_REPORT_USED: u8 = 0;
pub const SEDGE_REPORT_REFUSED: u8 = 1;
pub const SEDGE_REPORT_OTHER_CHANNEL: u8 = 2;

// enum sedge_received_kind
pub const SEDGE_RECEIVED_INVALID: u8 = 1;
pub const SEDGE_RECEIVED_FOREIGN: u8 = 2;
pub const SEDGE_RECEIVED_AD: u8 = 3;
pub const SEDGE_RECEIVED_BD: u8 = 4;
pub const SEDGE_RECEIVED_BC: u8 = 5;

// enum sedge_commander_action_kind
pub const SEDGE_COMMANDER_NOTHING: u8 = 0;
pub const SEDGE_COMMANDER_STORE: u8 = 1;
pub const SEDGE_COMMANDER_EXECUTED: u8 = 2;
pub const SEDGE_COMMANDER_UNKNOWN: u8 = 3;
pub const SEDGE_COMMANDER_RESTARTED: u8 = 4;
pub const SEDGE_COMMANDER_RECORD_LOST: u8 = 5;
pub const SEDGE_COMMANDER_FOREIGN: u8 = 6;
pub const SEDGE_COMMANDER_ALERT: u8 = 7;
pub const SEDGE_COMMANDER_TELEMETRY: u8 = 8;
pub const SEDGE_COMMANDER_SEND: u8 = 9;

// enum sedge_reply_kind
pub const SEDGE_REPLY_DONE: u8 = 0;
pub const SEDGE_REPLY_NOTHING: u8 = 1;
pub const SEDGE_REPLY_LOST: u8 = 2;
pub const SEDGE_REPLY_REFUSED: u8 = 3;
pub const SEDGE_REPLY_ALERT: u8 = 4;
pub const SEDGE_REPLY_SENT: u8 = 5;
pub const SEDGE_REPLY_REPORTED: u8 = 6;
pub const SEDGE_REPLY_UP: u8 = 7;
pub const SEDGE_REPLY_DOWN: u8 = 8;
pub const SEDGE_REPLY_PACKET: u8 = 9;
pub const SEDGE_REPLY_DOWN_CLCW: u8 = 10;
pub const SEDGE_REPLY_RESUMED: u8 = 11;

// enum sedge_refused_by
pub const SEDGE_BY_NODE: u8 = 1;
pub const SEDGE_BY_SENDER: u8 = 2;
pub const SEDGE_BY_TELEMETRY: u8 = 3;

// enum sedge_begun
pub const SEDGE_BEGUN_NOT: u8 = 0;
pub const SEDGE_BEGUN_WITHOUT_CHECK: u8 = 1;
pub const SEDGE_BEGUN_WITH_CHECK: u8 = 2;
pub const SEDGE_BEGUN_UNLOCK: u8 = 3;
pub const SEDGE_BEGUN_SET_VR: u8 = 4;

// enum sedge_record
pub const SEDGE_SUBMITTED: u8 = 1;
pub const SEDGE_DELIVERED: u8 = 2;
pub const SEDGE_SENT: u8 = 3;
pub const SEDGE_RECEIVED: u8 = 4;

#[repr(C)]
#[derive(Clone, Copy, Debug, Default)]
pub struct Heard {
    pub packets: usize,
    pub kind: u8,
    pub fault: u8,
    pub first: u8,
    pub missing: u8,
    pub report: u8,
    pub word_fault: u8,
    pub alert: u8,
}

#[repr(C)]
#[derive(Clone, Copy, Debug, Default)]
pub struct GroundReading {
    pub submitted: u64,
    pub sent_whole: u64,
    pub acknowledged_whole: u64,
    pub outstanding: usize,
    pub unsent: usize,
    pub due: usize,
    pub bypassed: usize,
    pub frame_length: usize,
    pub ticks: u16,
    pub state: u8,
    pub vs: u8,
    pub nn: u8,
    pub count: u8,
}

#[repr(C)]
#[derive(Clone, Copy, Debug)]
pub struct KeptGround {
    pub acknowledged: u64,
    pub vs: u8,
    pub nn: u8,
    pub known: u8,
    pub whole: u8,
    pub segments: [u8; 127],
    pub zeros: [u8; 5],
}

#[repr(C)]
#[derive(Clone, Copy, Debug, Default)]
pub struct Received {
    pub ready: usize,
    pub kind: u8,
    pub fault: u8,
    pub n: u8,
    pub verdict: u8,
    pub dropped: u8,
    pub kept: bool,
    pub command: u8,
    pub vr: u8,
}

#[repr(C)]
#[derive(Clone, Copy, Debug, Default)]
pub struct SpacecraftReading {
    pub frame_length: usize,
    pub ready: usize,
    pub bypassed: usize,
    pub status: u8,
    pub vcid: u8,
    pub flags: u8,
    pub farm_b: u8,
    pub value: u8,
    pub state: u8,
    pub mc_count: u8,
    pub vc_count: u8,
}

#[repr(C)]
#[derive(Clone, Copy, Debug, Default)]
pub struct Mission {
    pub round_trip: u32,
    pub orders: u16,
    pub status: u16,
    pub map: u8,
    pub holds: u8,
}

#[repr(C)]
#[derive(Clone, Copy, Debug, Default)]
pub struct CommanderAction {
    pub tag: u64,
    pub number: u32,
    pub last: u32,
    pub count: usize,
    pub kind: u8,
    pub alert: u8,
}

#[repr(C)]
#[derive(Clone, Copy, Debug, Default)]
pub struct CommanderReading {
    pub below: u32,
    pub highest: u32,
    pub worth: u8,
}

#[repr(C)]
#[derive(Clone, Copy, Debug, Default)]
pub struct Reply {
    pub count: usize,
    pub whole: u64,
    pub up: Received,
    pub down: Heard,
    pub report: Clcw,
    pub kind: u8,
    pub by: u8,
    pub fault: u8,
    pub alert: u8,
    pub map: u8,
}

#[repr(C)]
#[derive(Clone, Copy, Debug)]
pub struct Event {
    pub kind: u8,
    pub map: u8,
    pub directive: u8,
    pub value: u16,
    pub octets: *const u8,
    pub count: usize,
}

#[repr(C)]
#[derive(Clone, Copy, Debug, Default)]
pub struct SimReading {
    pub outstanding: usize,
    pub acknowledged: usize,
    pub state: u8,
    pub begun: u8,
    pub vr: u8,
    pub clean: bool,
    pub idle: bool,
    pub confirmed: bool,
}

/// A handle, which holds nothing at first.
macro_rules! handle {
    ($name:ident, $close:ident) => {
        #[repr(C)]
        pub struct $name(*mut c_void);

        impl Default for $name {
            fn default() -> Self {
                Self(null_mut())
            }
        }

        impl Drop for $name {
            fn drop(&mut self) {
                $close(self);
            }
        }

        // SAFETY: the handle owns what it refers to, and any thread may release memory that another one allocated.
        unsafe impl Send for $name {}
    };
}

handle!(Ground, sedge_ground_close);
handle!(Spacecraft, sedge_spacecraft_close);
handle!(Commander, sedge_commander_close);
handle!(Sim, sedge_sim_close);

/// A handle. Even a call that only reads writes to it, and then restores it.
#[derive(Default)]
pub struct Own<T>(UnsafeCell<T>);

impl<T> Own<T> {
    pub fn get(&mut self) -> &mut T {
        self.0.get_mut()
    }

    /// Makes a call that only reads, and returns its answer.
    pub fn ask(&self, call: impl FnOnce(&mut T) -> u8) -> u8 {
        // SAFETY: an `UnsafeCell` is not `Sync`, and a call of the library makes no other one, so this is the one
        // reference to the handle while it runs.
        call(unsafe { &mut *self.0.get() })
    }

    /// Makes a call that only reads, and is not refused.
    pub fn read(&self, call: impl FnOnce(&mut T) -> u8) {
        crate::numbers::done(self.ask(call));
    }

    /// Returns whether a call that only reads found what it looks for.
    pub fn is_there(&self, call: impl FnOnce(&mut T) -> u8) -> bool {
        let mut found = true;
        self.read(|it| match call(it) {
            SEDGE_NODE_ABSENT => {
                found = false;
                0
            }
            answer => answer,
        });
        found
    }

    /// Returns the number that a reading call writes.
    pub fn number(&self, call: impl FnOnce(&mut T, &mut usize) -> u8) -> usize {
        let mut number = 0;
        self.read(|it| call(it, &mut number));
        number
    }
}

// ---- The memory of the nodes, in the program's allocator. ----

/// The result of an allocation for the library: a place, if one was found.
#[repr(C)]
pub struct Place {
    found: bool,
    at: *mut c_void,
}

impl Place {
    /// Returns the place after the head of a block. The head contains the block's number of octets.
    fn of(block: *mut u8, count: usize) -> Self {
        if block.is_null() {
            return Self { found: false, at: NonNull::dangling().as_ptr() };
        }
        // SAFETY: the block has `count` octets, at least those of its head, and is aligned for a number.
        unsafe {
            block.cast::<usize>().write(count);
            Self { found: true, at: block.add(HEAD).cast() }
        }
    }
}

/// The number of octets in a block's head. It is also the alignment of blocks, the greatest that the library requests.
const HEAD: usize = 16;

/// Returns the layout of a block for `count` octets, if there can be one.
fn layout_for(count: usize) -> Option<Layout> {
    Layout::from_size_align(count.checked_add(HEAD)?, HEAD).ok()
}

/// Returns a block, and the layout with which it was allocated.
///
/// # Safety
///
/// `at` is a place that `Place::of` returned, and its block has not been released.
unsafe fn block_of(at: *mut c_void) -> (*mut u8, Layout) {
    // SAFETY: the block begins with its head, which contains the size of a valid layout.
    unsafe {
        let block = at.cast::<u8>().sub(HEAD);
        (block, Layout::from_size_align_unchecked(block.cast::<usize>().read(), HEAD))
    }
}

#[unsafe(no_mangle)]
extern "C" fn rattle_alloc(count: usize, _align: usize) -> Place {
    match layout_for(count) {
        // SAFETY: the layout has a head, so it is not empty.
        Some(layout) => Place::of(unsafe { alloc(layout) }, layout.size()),
        None => Place::of(null_mut(), 0),
    }
}

/// # Safety
///
/// The library passes a place that it received, and no longer uses it if another one is found.
#[unsafe(no_mangle)]
unsafe extern "C" fn rattle_realloc(at: *mut c_void, _kept: usize, count: usize, _align: usize) -> Place {
    match layout_for(count) {
        Some(layout) => {
            // SAFETY: `at` is as stated above; the new size is that of a layout with the same alignment.
            let moved = unsafe {
                let (block, taken) = block_of(at);
                realloc(block, taken, layout.size())
            };
            Place::of(moved, layout.size())
        }
        None => Place::of(null_mut(), 0),
    }
}

/// # Safety
///
/// The library passes a place that it received, and no longer uses it.
#[unsafe(no_mangle)]
unsafe extern "C" fn rattle_dealloc(at: *mut c_void) {
    // SAFETY: `at` is as stated above.
    unsafe {
        let (block, taken) = block_of(at);
        dealloc(block, taken);
    }
}

// ---- Events. ----

/// Makes an event happen, given its kind and, if it has them, a MAP, a directive or a CLCW's value, and octets.
pub fn sim_step(
    sim: &mut Sim, kind: u8, map: u8, (directive, value): (u8, u16), octets: &[u8], reply: &mut Reply,
) -> u8 {
    let event = Event { kind, map, directive, value, octets: octets.as_ptr(), count: octets.len() };
    // SAFETY: the address of octets and their number come from one slice.
    unsafe { sedge_sim_step(sim, &event, reply) }
}

// ---- tools/bindings makes what follows of the exports of the library. ----

// SAFETY: these are the library's calls with their types. A call without the address of octets requires only references
// from its caller, so it is safe.
#[rustfmt::skip]
unsafe extern "C" {
    pub safe fn sedge_config_default(config: &mut Config);
    pub safe fn sedge_config_fault(config: &Config) -> u8;
    pub safe fn sedge_parameter_name(number: u8) -> Text;
    pub safe fn sedge_link_fault_name(number: u8) -> Text;

    pub safe fn sedge_ground_open(ground: &mut Ground, config: &Config) -> u8;
    pub safe fn sedge_ground_close(ground: &mut Ground);
    pub safe fn sedge_ground_directive(ground: &mut Ground, directive: u8, value: u16) -> u8;
    fn sedge_ground_submit(ground: &mut Ground, map: u8, octets: *const u8, count: usize) -> u8;
    fn sedge_ground_bypass(ground: &mut Ground, map: u8, octets: *const u8, count: usize) -> u8;
    pub safe fn sedge_ground_next(ground: &mut Ground, count: &mut usize) -> u8;
    fn sedge_ground_pull(ground: &mut Ground, out: *mut u8, room: usize, count: &mut usize) -> u8;
    fn sedge_ground_peek(ground: &mut Ground, out: *mut u8, room: usize, count: &mut usize) -> u8;
    pub safe fn sedge_ground_advance(ground: &mut Ground) -> u8;
    fn sedge_ground_telemetry(ground: &mut Ground, octets: *const u8, count: usize, heard: &mut Heard) -> u8;
    fn sedge_ground_clcw(ground: &mut Ground, octets: *const u8, count: usize, heard: &mut Heard) -> u8;
    pub safe fn sedge_ground_forget_telemetry(ground: &mut Ground) -> u8;
    fn sedge_ground_clcw_in(ground: &mut Ground, octets: *const u8, count: usize, word: &mut Clcw) -> u8;
    pub safe fn sedge_ground_next_telemetry(ground: &mut Ground, count: &mut usize) -> u8;
    fn sedge_ground_take_telemetry(ground: &mut Ground, out: *mut u8, room: usize, count: &mut usize) -> u8;
    pub safe fn sedge_ground_tick(ground: &mut Ground) -> u8;
    pub safe fn sedge_ground_read(ground: &mut Ground, read: &mut GroundReading) -> u8;
    pub safe fn sedge_ground_accepted_beyond(ground: &mut Ground, value: u8, accepted: &mut u8) -> u8;
    pub safe fn sedge_ground_known_on_board(ground: &mut Ground, value: u8, whole: &mut u64) -> u8;
    pub safe fn sedge_ground_resume(ground: &mut Ground, value: u8, whole: &mut u64) -> u8;
    pub safe fn sedge_ground_kept(ground: &mut Ground, kept: &mut KeptGround) -> u8;
    pub safe fn sedge_ground_open_kept(ground: &mut Ground, config: &Config, kept: &KeptGround) -> u8;

    pub safe fn sedge_spacecraft_open(spacecraft: &mut Spacecraft, config: &Config) -> u8;
    pub safe fn sedge_spacecraft_close(spacecraft: &mut Spacecraft);
    fn sedge_spacecraft_receive(
        spacecraft: &mut Spacecraft, octets: *const u8, count: usize, received: &mut Received,
    ) -> u8;
    pub safe fn sedge_spacecraft_next(spacecraft: &mut Spacecraft, map: &mut u8, count: &mut usize) -> u8;
    fn sedge_spacecraft_take(
        spacecraft: &mut Spacecraft, map: &mut u8, out: *mut u8, room: usize, count: &mut usize,
    ) -> u8;
    pub safe fn sedge_spacecraft_next_bypass(
        spacecraft: &mut Spacecraft, map: &mut u8, count: &mut usize,
    ) -> u8;
    fn sedge_spacecraft_take_bypass(
        spacecraft: &mut Spacecraft, map: &mut u8, out: *mut u8, room: usize, count: &mut usize,
    ) -> u8;
    fn sedge_spacecraft_telemetry(spacecraft: &mut Spacecraft, packet: *const u8, count: usize) -> u8;
    fn sedge_spacecraft_telemetry_frame(
        spacecraft: &mut Spacecraft, out: *mut u8, room: usize, count: &mut usize,
    ) -> u8;
    pub safe fn sedge_spacecraft_read(spacecraft: &mut Spacecraft, read: &mut SpacecraftReading) -> u8;
    pub safe fn sedge_spacecraft_open_kept(
        spacecraft: &mut Spacecraft, config: &Config, kept: &SpacecraftReading,
    ) -> u8;

    pub safe fn sedge_commander_close(commander: &mut Commander);
    fn sedge_commander_open(
        commander: &mut Commander, config: &Config, mission: &Mission, store: *const u8, store_count: usize,
        good: &mut usize,
    ) -> u8;
    fn sedge_commander_command(
        commander: &mut Commander, tag: u64, map: u8, apid: u16, sequence: u16, content: *const u8,
        content_count: usize, number: &mut u32,
    ) -> u8;
    fn sedge_commander_telemetry(
        commander: &mut Commander, octets: *const u8, count: usize, heard: &mut Heard,
    ) -> u8;
    fn sedge_commander_clcw(
        commander: &mut Commander, octets: *const u8, count: usize, heard: &mut Heard,
    ) -> u8;
    fn sedge_commander_status(commander: &mut Commander, octets: *const u8, count: usize) -> u8;
    pub safe fn sedge_commander_tick(commander: &mut Commander) -> u8;
    fn sedge_commander_next(
        commander: &mut Commander, action: &mut CommanderAction, out: *mut u8, room: usize,
    ) -> u8;
    fn sedge_commander_unstored(
        commander: &mut Commander, out: *mut u8, room: usize, count: &mut usize,
    ) -> u8;
    pub safe fn sedge_commander_stored(commander: &mut Commander, count: usize) -> u8;
    pub safe fn sedge_commander_told(commander: &mut Commander, action: &CommanderAction) -> u8;
    pub safe fn sedge_commander_next_telemetry(commander: &mut Commander, count: &mut usize) -> u8;
    fn sedge_commander_take_telemetry(
        commander: &mut Commander, out: *mut u8, room: usize, count: &mut usize,
    ) -> u8;
    pub safe fn sedge_commander_progress(commander: &mut Commander, number: u32, progress: &mut u8) -> u8;
    pub safe fn sedge_commander_pause(commander: &mut Commander) -> u8;
    pub safe fn sedge_commander_go_on(commander: &mut Commander) -> u8;
    pub safe fn sedge_commander_restart_board(commander: &mut Commander) -> u8;
    pub safe fn sedge_commander_rebuild(commander: &mut Commander) -> u8;
    pub safe fn sedge_commander_read(commander: &mut Commander, read: &mut CommanderReading) -> u8;
    pub safe fn sedge_commander_read_ground(commander: &mut Commander, read: &mut GroundReading) -> u8;
    fn sedge_commander_fresh(commander: &mut Commander, out: *mut u8, room: usize, count: &mut usize) -> u8;
    pub safe fn sedge_commander_renewed(commander: &mut Commander, count: usize) -> u8;
    pub safe fn sedge_ledger_fault_name(number: u8) -> Text;

    pub safe fn sedge_sim_open(sim: &mut Sim, config: &Config) -> u8;
    pub safe fn sedge_sim_close(sim: &mut Sim);
    pub safe fn sedge_sim_fault_name(number: u8) -> Text;
    fn sedge_sim_step(sim: &mut Sim, event: &Event, reply: &mut Reply) -> u8;
    fn sedge_sim_octets(sim: &mut Sim, out: *mut u8, room: usize, count: &mut usize) -> u8;
    pub safe fn sedge_sim_read(sim: &mut Sim, read: &mut SimReading) -> u8;
    pub safe fn sedge_sim_ground_read(sim: &mut Sim, read: &mut GroundReading) -> u8;
    pub safe fn sedge_sim_spacecraft_read(sim: &mut Sim, read: &mut SpacecraftReading) -> u8;
    pub safe fn sedge_sim_submissions(sim: &mut Sim, count: &mut usize) -> u8;
    pub safe fn sedge_sim_submission_length(sim: &mut Sim, k: usize, map: &mut u8, count: &mut usize) -> u8;
    fn sedge_sim_submission(
        sim: &mut Sim, k: usize, map: &mut u8, out: *mut u8, room: usize, count: &mut usize,
    ) -> u8;
    pub safe fn sedge_sim_count(sim: &mut Sim, record: u8, map: u8, entries: &mut usize) -> u8;
    pub safe fn sedge_sim_entry_length(sim: &mut Sim, record: u8, map: u8, k: usize, count: &mut usize) -> u8;
    fn sedge_sim_entry(
        sim: &mut Sim, record: u8, map: u8, k: usize, out: *mut u8, room: usize, count: &mut usize,
    ) -> u8;
}

pub fn ground_submit(ground: &mut Ground, map: u8, octets: &[u8]) -> u8 {
    // SAFETY: each pointer to octets and the count after it come from one slice; all other pointers are references.
    unsafe { sedge_ground_submit(ground, map, octets.as_ptr(), octets.len()) }
}

pub fn ground_bypass(ground: &mut Ground, map: u8, octets: &[u8]) -> u8 {
    // SAFETY: each pointer to octets and the count after it come from one slice; all other pointers are references.
    unsafe { sedge_ground_bypass(ground, map, octets.as_ptr(), octets.len()) }
}

pub fn ground_pull(ground: &mut Ground, out: &mut [u8], count: &mut usize) -> u8 {
    // SAFETY: each pointer to octets and the count after it come from one slice; all other pointers are references.
    unsafe { sedge_ground_pull(ground, out.as_mut_ptr(), out.len(), count) }
}

pub fn ground_peek(ground: &mut Ground, out: &mut [u8], count: &mut usize) -> u8 {
    // SAFETY: each pointer to octets and the count after it come from one slice; all other pointers are references.
    unsafe { sedge_ground_peek(ground, out.as_mut_ptr(), out.len(), count) }
}

pub fn ground_telemetry(ground: &mut Ground, octets: &[u8], heard: &mut Heard) -> u8 {
    // SAFETY: each pointer to octets and the count after it come from one slice; all other pointers are references.
    unsafe { sedge_ground_telemetry(ground, octets.as_ptr(), octets.len(), heard) }
}

pub fn ground_clcw(ground: &mut Ground, octets: &[u8], heard: &mut Heard) -> u8 {
    // SAFETY: each pointer to octets and the count after it come from one slice; all other pointers are references.
    unsafe { sedge_ground_clcw(ground, octets.as_ptr(), octets.len(), heard) }
}

pub fn ground_clcw_in(ground: &mut Ground, octets: &[u8], word: &mut Clcw) -> u8 {
    // SAFETY: each pointer to octets and the count after it come from one slice; all other pointers are references.
    unsafe { sedge_ground_clcw_in(ground, octets.as_ptr(), octets.len(), word) }
}

pub fn ground_take_telemetry(ground: &mut Ground, out: &mut [u8], count: &mut usize) -> u8 {
    // SAFETY: each pointer to octets and the count after it come from one slice; all other pointers are references.
    unsafe { sedge_ground_take_telemetry(ground, out.as_mut_ptr(), out.len(), count) }
}

pub fn spacecraft_receive(spacecraft: &mut Spacecraft, octets: &[u8], received: &mut Received) -> u8 {
    // SAFETY: each pointer to octets and the count after it come from one slice; all other pointers are references.
    unsafe { sedge_spacecraft_receive(spacecraft, octets.as_ptr(), octets.len(), received) }
}

pub fn spacecraft_take(spacecraft: &mut Spacecraft, map: &mut u8, out: &mut [u8], count: &mut usize) -> u8 {
    // SAFETY: each pointer to octets and the count after it come from one slice; all other pointers are references.
    unsafe { sedge_spacecraft_take(spacecraft, map, out.as_mut_ptr(), out.len(), count) }
}

pub fn spacecraft_take_bypass(
    spacecraft: &mut Spacecraft, map: &mut u8, out: &mut [u8], count: &mut usize,
) -> u8 {
    // SAFETY: each pointer to octets and the count after it come from one slice; all other pointers are references.
    unsafe { sedge_spacecraft_take_bypass(spacecraft, map, out.as_mut_ptr(), out.len(), count) }
}

pub fn spacecraft_telemetry(spacecraft: &mut Spacecraft, packet: &[u8]) -> u8 {
    // SAFETY: each pointer to octets and the count after it come from one slice; all other pointers are references.
    unsafe { sedge_spacecraft_telemetry(spacecraft, packet.as_ptr(), packet.len()) }
}

pub fn spacecraft_telemetry_frame(spacecraft: &mut Spacecraft, out: &mut [u8], count: &mut usize) -> u8 {
    // SAFETY: each pointer to octets and the count after it come from one slice; all other pointers are references.
    unsafe { sedge_spacecraft_telemetry_frame(spacecraft, out.as_mut_ptr(), out.len(), count) }
}

pub fn commander_open(
    commander: &mut Commander, config: &Config, mission: &Mission, store: &[u8], good: &mut usize,
) -> u8 {
    // SAFETY: each pointer to octets and the count after it come from one slice; all other pointers are references.
    unsafe { sedge_commander_open(commander, config, mission, store.as_ptr(), store.len(), good) }
}

pub fn commander_command(
    commander: &mut Commander, tag: u64, map: u8, apid: u16, sequence: u16, content: &[u8], number: &mut u32,
) -> u8 {
    // SAFETY: each pointer to octets and the count after it come from one slice; all other pointers are references.
    unsafe {
        sedge_commander_command(commander, tag, map, apid, sequence, content.as_ptr(), content.len(), number)
    }
}

pub fn commander_telemetry(commander: &mut Commander, octets: &[u8], heard: &mut Heard) -> u8 {
    // SAFETY: each pointer to octets and the count after it come from one slice; all other pointers are references.
    unsafe { sedge_commander_telemetry(commander, octets.as_ptr(), octets.len(), heard) }
}

pub fn commander_clcw(commander: &mut Commander, octets: &[u8], heard: &mut Heard) -> u8 {
    // SAFETY: each pointer to octets and the count after it come from one slice; all other pointers are references.
    unsafe { sedge_commander_clcw(commander, octets.as_ptr(), octets.len(), heard) }
}

pub fn commander_status(commander: &mut Commander, octets: &[u8]) -> u8 {
    // SAFETY: each pointer to octets and the count after it come from one slice; all other pointers are references.
    unsafe { sedge_commander_status(commander, octets.as_ptr(), octets.len()) }
}

pub fn commander_next(commander: &mut Commander, action: &mut CommanderAction, out: &mut [u8]) -> u8 {
    // SAFETY: each pointer to octets and the count after it come from one slice; all other pointers are references.
    unsafe { sedge_commander_next(commander, action, out.as_mut_ptr(), out.len()) }
}

pub fn commander_unstored(commander: &mut Commander, out: &mut [u8], count: &mut usize) -> u8 {
    // SAFETY: each pointer to octets and the count after it come from one slice; all other pointers are references.
    unsafe { sedge_commander_unstored(commander, out.as_mut_ptr(), out.len(), count) }
}

pub fn commander_take_telemetry(commander: &mut Commander, out: &mut [u8], count: &mut usize) -> u8 {
    // SAFETY: each pointer to octets and the count after it come from one slice; all other pointers are references.
    unsafe { sedge_commander_take_telemetry(commander, out.as_mut_ptr(), out.len(), count) }
}

pub fn commander_fresh(commander: &mut Commander, out: &mut [u8], count: &mut usize) -> u8 {
    // SAFETY: each pointer to octets and the count after it come from one slice; all other pointers are references.
    unsafe { sedge_commander_fresh(commander, out.as_mut_ptr(), out.len(), count) }
}

pub fn sim_octets(sim: &mut Sim, out: &mut [u8], count: &mut usize) -> u8 {
    // SAFETY: each pointer to octets and the count after it come from one slice; all other pointers are references.
    unsafe { sedge_sim_octets(sim, out.as_mut_ptr(), out.len(), count) }
}

pub fn sim_submission(sim: &mut Sim, k: usize, map: &mut u8, out: &mut [u8], count: &mut usize) -> u8 {
    // SAFETY: each pointer to octets and the count after it come from one slice; all other pointers are references.
    unsafe { sedge_sim_submission(sim, k, map, out.as_mut_ptr(), out.len(), count) }
}

pub fn sim_entry(sim: &mut Sim, record: u8, map: u8, k: usize, out: &mut [u8], count: &mut usize) -> u8 {
    // SAFETY: each pointer to octets and the count after it come from one slice; all other pointers are references.
    unsafe { sedge_sim_entry(sim, record, map, k, out.as_mut_ptr(), out.len(), count) }
}
