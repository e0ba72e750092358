//! The declarations of `riddlesage.h`.

use std::ffi::{c_char, c_int};
use std::marker::{PhantomData, PhantomPinned};

#[repr(C)]
#[derive(Clone, Copy, Default)]
pub struct Frame {
    pub identifier: u32,
    pub extended: u8,
    pub remote: u8,
    pub dlc: u8,
    pub data: [u8; 8],
}

#[repr(C)]
#[derive(Clone, Copy, Default)]
pub struct Heard {
    pub frame: Frame,
    pub acknowledged: u8,
    pub srr: u8,
    pub r1: u8,
    pub r0: u8,
    pub last: u8,
}

#[repr(C)]
#[derive(Clone, Copy, Default)]
pub struct Standing {
    pub phase: u8,
    pub place: u8,
    pub sender: u8,
    pub rule: u8,
}

#[repr(C, align(8))]
#[derive(Clone, Copy, Default)]
pub struct Offer {
    pub time: u64,
    pub port: u64,
    pub frame: Frame,
}

#[repr(C, align(8))]
#[derive(Clone, Copy, Default)]
pub struct Hit {
    pub time: u64,
    pub attempt: u64,
    pub offset: u64,
    pub port: u64,
    pub kind: u8,
}

#[repr(C, align(8))]
#[derive(Clone, Copy, Debug, Default, PartialEq, Eq, Hash)]
pub struct Wire {
    pub time: u64,
    pub attempts: u64,
    pub start: u64,
    pub until_rest: u8,
}

#[repr(C)]
#[derive(Clone, Copy, Default)]
pub struct PortTime {
    pub transmit: u16,
    pub receive: u16,
    pub phase: u8,
    pub sender: u8,
    pub drives: u8,
    pub samples: u8,
    pub event: u8,
}

#[repr(C)]
#[derive(Clone, Copy)]
pub struct Wrong {
    pub field: [u8; FIELD_ROOM],
    pub words: [u8; WORDS_ROOM],
}

#[repr(C)]
#[derive(Clone, Copy, Debug, PartialEq, Eq, Hash)]
pub struct Coverage {
    pub counts: [u64; COVERAGE_ITEMS],
}

pub const HIT_AT: u8 = 0;
pub const HIT_IN: u8 = 1;
pub const HIT_VIEW: u8 = 2;

/// A port that the library has allocated: only its address is known here.
#[repr(C)]
pub struct Port {
    _fields: [u8; 0],
    _marker: PhantomData<(*mut u8, PhantomPinned)>,
}

pub type Status = c_int;

pub const OK: Status = 0;
pub const NO_MEMORY: Status = 4;
pub const QUEUE_FULL: Status = 5;
pub const NO_ENTRY: Status = 6;
pub const BAD_IDENTIFIER: Status = 8;
pub const BAD_DLC: Status = 9;
pub const BAD_COUNT: Status = 11;
pub const NO_LEVELS: Status = 12;
pub const NO_ROOM: Status = 13;
pub const SHORT: Status = 14;
pub const NO_START: Status = 15;
pub const STUFF: Status = 16;
pub const CRC: Status = 17;
pub const FORM: Status = 18;
pub const BAD_SCENARIO: Status = 19;
pub const BAD_BYTE: Status = 20;
pub const BAD_BUS: Status = 21;
pub const NO_SUCH_PORT: Status = 22;
pub const BAD_ORDER: Status = 23;
pub const BAD_NETWORK: Status = 26;
pub const NO_MESSAGE: Status = 27;
pub const TOO_LONG: Status = 28;

pub const MOST_LEVELS: usize = 157;
pub const MOST_BITS: usize = 1_000_000;
pub const MOST_PORTS: usize = 64;
pub const FIELD_ROOM: usize = 64;
pub const WORDS_ROOM: usize = 192;
pub const COVERAGE_ITEMS: usize = 64;
pub const COVERAGE_LINE: usize = 128;

extern "C" {
    pub fn riddlesage_port_new() -> *mut Port;
    pub fn riddlesage_port_delete(port: *mut Port) -> Status;
    pub fn riddlesage_port_idle(port: *mut Port, queue: usize, log: usize) -> Status;
    pub fn riddlesage_port_joining(port: *mut Port, queue: usize, log: usize) -> Status;
    pub fn riddlesage_port_copy(port: *mut Port, from: *mut Port) -> Status;
    pub fn riddlesage_port_offer(port: *mut Port, frame: *const Frame) -> Status;
    pub fn riddlesage_port_hold(port: *mut Port, count: u8) -> Status;
    pub fn riddlesage_port_drive(port: *mut Port, level: *mut u8) -> Status;
    pub fn riddlesage_port_sample(port: *mut Port, level: u8, event: *mut u8, frame: *mut Frame) -> Status;
    pub fn riddlesage_port_run(
        port: *mut Port,
        levels: *const u8,
        count: usize,
        drives: *mut u8,
        events: *mut u8,
    ) -> Status;
    pub fn riddlesage_port_counters(port: *mut Port, transmit: *mut u16, receive: *mut u16) -> Status;
    pub fn riddlesage_port_state(port: *mut Port, state: *mut u8) -> Status;
    pub fn riddlesage_port_phase(port: *mut Port, standing: *mut Standing) -> Status;
    pub fn riddlesage_port_log_length(port: *mut Port, count: *mut usize) -> Status;
    pub fn riddlesage_port_missed(port: *mut Port, count: *mut u32) -> Status;
    pub fn riddlesage_port_entry(port: *mut Port, number: usize, frame: *mut Frame, sent: *mut u8) -> Status;
    pub fn riddlesage_play(
        ports: *const *mut Port,
        count: usize,
        offers: *const Offer,
        offer_count: usize,
        hits: *const Hit,
        hit_count: usize,
        levels: *mut u8,
        bits: usize,
        refused: *mut usize,
    ) -> Status;
    pub fn riddlesage_wire_step(
        wire: *mut Wire,
        drives: *const u8,
        count: usize,
        hits: *const Hit,
        hit_count: usize,
        level: *mut u8,
        seen: *mut u8,
    ) -> Status;
    pub fn riddlesage_wire_run(
        wire: *mut Wire,
        ports: *const *mut Port,
        count: usize,
        hits: *const Hit,
        hit_count: usize,
        bits: usize,
        events: *mut u8,
        frames: *mut Frame,
        passed: *mut usize,
    ) -> Status;
    pub fn riddlesage_encode(frame: *const Frame, levels: *mut u8, room: usize, count: *mut usize) -> Status;
    pub fn riddlesage_decode(levels: *const u8, count: usize, heard: *mut Heard, place: *mut usize) -> Status;
    pub fn riddlesage_marks(
        levels: *const u8,
        length: usize,
        fields: *mut u8,
        stuffed: *mut u8,
        count: *mut usize,
    ) -> Status;
    pub fn riddlesage_run(
        text: *const u8,
        length: usize,
        report: *mut u8,
        room: usize,
        count: *mut usize,
        field: *mut u8,
    ) -> Status;
    pub fn riddlesage_port_times(
        text: *const u8,
        length: usize,
        port: usize,
        times: *mut PortTime,
        room: usize,
        count: *mut usize,
        field: *mut u8,
    ) -> Status;
    pub fn riddlesage_plan(
        text: *const u8,
        length: usize,
        details: u8,
        report: *mut u8,
        room: usize,
        count: *mut usize,
        late: *mut usize,
        wrong: *mut Wrong,
    ) -> Status;
    pub fn riddlesage_worst_case(
        text: *const u8,
        length: usize,
        message: *const u8,
        message_length: usize,
        scenario: *mut u8,
        room: usize,
        count: *mut usize,
        wrong: *mut Wrong,
    ) -> Status;
    pub fn riddlesage_decode_trace(
        text: *const u8,
        length: usize,
        lines: *mut u8,
        room: usize,
        count: *mut usize,
        place: *mut usize,
    ) -> Status;
    pub fn riddlesage_decode_levels(
        levels: *const u8,
        length: usize,
        lines: *mut u8,
        room: usize,
        count: *mut usize,
        place: *mut usize,
    ) -> Status;
    pub fn riddlesage_coverage_sample(
        port: *mut Port,
        coverage: *mut Coverage,
        level: u8,
        event: *mut u8,
        frame: *mut Frame,
    ) -> Status;
    pub fn riddlesage_coverage_name(item: usize) -> *const c_char;
    pub fn riddlesage_coverage_case(item: usize) -> *const c_char;
    pub fn riddlesage_coverage_line(coverage: *const Coverage, item: usize, line: *mut u8) -> Status;
    pub fn riddlesage_event_name(event: c_int) -> *const c_char;
    pub fn riddlesage_phase_name(phase: c_int) -> *const c_char;
    pub fn riddlesage_rule_name(rule: c_int) -> *const c_char;
    pub fn riddlesage_version() -> *const c_char;
}
