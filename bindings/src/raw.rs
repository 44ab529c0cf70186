//! The calls as the static library has them; `include/clue_desk.h` says what each does.
//!
//! A slice is a pointer and a length in entries. The pointer is not null, also where the length is
//! 0, is aligned, and no slice that a call may write overlaps another of the same call.

#![allow(clippy::too_many_arguments, clippy::missing_safety_doc)]

extern "C" {
    pub fn read_text(
        desk: *mut u32,
        desk_len: usize,
        text: *const u8,
        text_len: usize,
        refusal: *mut u32,
        refusal_len: usize,
    ) -> u32;

    pub fn add_box(
        desk: *mut u32,
        desk_len: usize,
        id: u32,
        x0: i32,
        y0: i32,
        x1: i32,
        y1: i32,
    ) -> u32;

    pub fn add_port(
        desk: *mut u32,
        desk_len: usize,
        id: u32,
        x: i32,
        y: i32,
        directions: u32,
    ) -> u32;

    pub fn add_net(desk: *mut u32, desk_len: usize, id: u32) -> u32;

    pub fn add_end(desk: *mut u32, desk_len: usize, net: u32, x: i32, y: i32, mark: u32) -> u32;

    pub fn retire_box(desk: *mut u32, desk_len: usize, id: u32) -> u32;

    pub fn retire_port(desk: *mut u32, desk_len: usize, at: u32) -> u32;

    pub fn retire_net(desk: *mut u32, desk_len: usize, id: u32) -> u32;

    pub fn retire_end(desk: *mut u32, desk_len: usize, at: u32) -> u32;

    pub fn undo(desk: *mut u32, desk_len: usize) -> u32;

    pub fn search(
        desk: *const u32,
        desk_len: usize,
        prune: u32,
        x: i32,
        y: i32,
        ex: *const i32,
        ex_len: usize,
        ey: *const i32,
        ey_len: usize,
        lx: *mut i32,
        lx_len: usize,
        ly: *mut i32,
        ly_len: usize,
        kinds: *mut u8,
        kinds_len: usize,
        dirs: *mut u8,
        dirs_len: usize,
    ) -> u32;

    pub fn layout(
        desk: *const u32,
        desk_len: usize,
        prune: u32,
        separate: u32,
        nets: *mut u32,
        nets_len: usize,
        x: *mut i32,
        x_len: usize,
        y: *mut i32,
        y_len: usize,
        kinds: *mut u8,
        kinds_len: usize,
        joins: *mut u32,
        joins_len: usize,
    ) -> u32;
}
