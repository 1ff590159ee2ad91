//! The functions of `libtarravane.a`. The only unsafe lines of the tools but those by which a signal ends a command. Their names
//! there carry the layout's number: these structs are of layout 4, and a library of another one does not link.
use crate::calm::Change;
use crate::content::Content;
use crate::edition::Edition;
use crate::input::{Sample, Wired, Wires};
use crate::line_receivers::LineReceivers;
use crate::output::Output;
use crate::state::{Handler, WORDS};
use crate::word::Word;
use crate::writer::Lists;

#[repr(C)]
pub struct Made {
    pub handler: Handler,
    pub answer: i64,
}

#[repr(C)]
pub struct Answered {
    pub handler: Handler,
    pub answer: i64,
    pub output: Output,
}

#[repr(C)]
pub struct Heard {
    pub events: [u64; WORDS],
    pub answers: [u64; WORDS],
    pub locals: u64,
    pub answer: i64,
}

#[repr(C)]
pub struct Batched {
    pub handler: Handler,
    pub answer: i64,
}

#[repr(C)]
pub struct Installed {
    pub handler: Handler,
    pub answer: i64,
    pub register: u16,
    pub _spare: [u8; 6],
}

#[repr(C)]
pub struct Calmed {
    pub handler: Handler,
    pub answer: i64,
    pub output: Output,
}

#[repr(C)]
pub struct Shown {
    pub answer: i64,
    pub content: Content,
}

#[repr(C)]
pub struct Listened {
    pub receivers: LineReceivers,
    pub positive: u32,
    pub negative: u32,
    pub seen: u32,
}

extern "C" {
    #[link_name = "tarravane_new_layout_4"]
    fn tarravane_new(n: usize) -> Made;
    #[link_name = "tarravane_tick_layout_4"]
    fn tarravane_tick(h: Handler, kind: u8, register: u16, value: u32, wires: Wired) -> Answered;
    #[link_name = "tarravane_hear_layout_4"]
    fn tarravane_hear(h: Handler, kind: u8, register: u16, value: u32, wires: Wired) -> Heard;
    #[link_name = "tarravane_batch_24_layout_4"]
    fn tarravane_batch_24(
        h: Handler,
        bytes: *const u8,
        length: usize,
        out: *mut Word,
        words: usize,
    ) -> Batched;
    #[link_name = "tarravane_batch_70_layout_4"]
    fn tarravane_batch_70(
        h: Handler,
        bytes: *const u8,
        length: usize,
        out: *mut Word,
        words: usize,
    ) -> Batched;
    #[link_name = "tarravane_batch_pings_layout_4"]
    fn tarravane_batch_pings(
        h: Handler,
        bytes: *const u8,
        length: usize,
        out: *mut Word,
        words: usize,
    ) -> Batched;
    #[link_name = "tarravane_batch_wires_layout_4"]
    fn tarravane_batch_wires(
        h: Handler,
        bytes: *const u8,
        length: usize,
        out: *mut Word,
        words: usize,
    ) -> Batched;
    #[link_name = "tarravane_record_layout_4"]
    fn tarravane_record(
        kinds: *const u8,
        kinds_length: usize,
        registers: *const u16,
        registers_length: usize,
        values: *const u32,
        values_length: usize,
        positive: *const u64,
        positive_length: usize,
        negative: *const u64,
        negative_length: usize,
        entropy: *const u32,
        entropy_length: usize,
        receive_positive: *const u8,
        receive_positive_length: usize,
        receive_negative: *const u8,
        receive_negative_length: usize,
        bytes: *mut u8,
        length: usize,
    ) -> i64;
    #[link_name = "tarravane_install_layout_4"]
    fn tarravane_install(h: Handler, lifecycle: u8) -> Installed;
    #[link_name = "tarravane_calm_layout_4"]
    fn tarravane_calm(
        h: Handler,
        wires: Wires,
        ticks: u32,
        list: *mut Change,
        length: usize,
    ) -> Calmed;
    #[link_name = "tarravane_receive_layout_4"]
    fn tarravane_receive(r: LineReceivers, positive: u32, negative: u32) -> Listened;
    #[link_name = "tarravane_dump_layout_4"]
    fn tarravane_dump(h: Handler, bytes: *mut u8, length: usize) -> i64;
    #[link_name = "tarravane_read_dump_layout_4"]
    fn tarravane_read_dump(bytes: *const u8, length: usize) -> Shown;
}

pub fn new(n: usize) -> Made {
    // Safe: integers in, integers out, no precondition.
    unsafe { tarravane_new(n) }
}

pub fn tick(h: Handler, kind: u8, register: u16, value: u32, sample: Sample) -> Answered {
    // Safe: integers in, integers out, no precondition.
    unsafe { tarravane_tick(h, kind, register, value, Wired::of(sample)) }
}

pub fn hear(h: Handler, kind: u8, register: u16, value: u32, sample: Sample) -> Heard {
    // Safe: integers in, integers out, no precondition.
    unsafe { tarravane_hear(h, kind, register, value, Wired::of(sample)) }
}

pub fn install(h: Handler, lifecycle: u8) -> Installed {
    // Safe: integers in, integers out, no precondition.
    unsafe { tarravane_install(h, lifecycle) }
}

pub fn calm(h: Handler, wires: Wires, ticks: u32, list: &mut [Change]) -> Calmed {
    // Safe: the slice is as long as said, not null and aligned; a Change is a u64.
    unsafe { tarravane_calm(h, wires, ticks, list.as_mut_ptr(), list.len()) }
}

pub fn receive(r: LineReceivers, positive: u32, negative: u32) -> Listened {
    // Safe: integers in, integers out, no precondition.
    unsafe { tarravane_receive(r, positive, negative) }
}

pub fn batch(h: Handler, edition: Edition, bytes: &[u8], out: &mut [Word]) -> Batched {
    let (from, length, to, words) = (bytes.as_ptr(), bytes.len(), out.as_mut_ptr(), out.len());
    // Safe: both slices are as long as said, not null, aligned, and apart; a Word is a u64.
    unsafe {
        match edition {
            Edition::Alerts64 => tarravane_batch_24(h, from, length, to, words),
            Edition::Alerts248 => tarravane_batch_70(h, from, length, to, words),
            Edition::Pings => tarravane_batch_pings(h, from, length, to, words),
            Edition::Wires => tarravane_batch_wires(h, from, length, to, words),
        }
    }
}

pub fn record(lists: Lists, out: &mut [u8]) -> i64 {
    // Safe: each slice is as long as said, not null and aligned; the one that is written is apart from the others.
    unsafe {
        tarravane_record(
            lists.kinds.as_ptr(),
            lists.kinds.len(),
            lists.registers.as_ptr(),
            lists.registers.len(),
            lists.values.as_ptr(),
            lists.values.len(),
            lists.positive.as_ptr(),
            lists.positive.len(),
            lists.negative.as_ptr(),
            lists.negative.len(),
            lists.entropy.as_ptr(),
            lists.entropy.len(),
            lists.receive_positive.as_ptr(),
            lists.receive_positive.len(),
            lists.receive_negative.as_ptr(),
            lists.receive_negative.len(),
            out.as_mut_ptr(),
            out.len(),
        )
    }
}

pub fn dump(h: Handler, out: &mut [u8]) -> i64 {
    // Safe: the slice is as long as said, and not null.
    unsafe { tarravane_dump(h, out.as_mut_ptr(), out.len()) }
}

pub fn read_dump(bytes: &[u8]) -> Shown {
    // Safe: the slice is as long as said, and not null.
    unsafe { tarravane_read_dump(bytes.as_ptr(), bytes.len()) }
}

#[test]
fn what_comes_back_has_the_size_that_the_header_has() {
    assert!(std::mem::size_of::<Heard>() == 80);
    assert!(std::mem::size_of::<Calmed>() == 2248);
}
