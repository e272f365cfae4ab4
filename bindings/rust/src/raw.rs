//! The core's functions as they are: numbers, slices and blocks. A no is the number of its question.

use std::mem::size_of;

use crate::Verdict;

/// The memory of one drawing, as C has it (`dz_sheet`). The caller owns it; any contents may be handed over, and those of no
/// sound drawing get 1.
///
/// The first `count` places of `ids`, `kinds`, `starts`, `ends`, `bends`, `counts`, `px` and `py` are the cells by rising id.
/// `cycles`, `steps`, `bx` and `by` hold the lengths of the cycles, the steps and the bends of all cells, one cell after
/// another. The places behind those in use may hold anything.
#[repr(C)]
#[derive(Clone)]
pub struct Block {
    /// The next id.
    pub next: u32,
    /// How many cells there are.
    pub count: usize,
    /// The id of each cell.
    pub ids: [u32; 256],
    /// 0 a vertex, 1 an open edge, 2 a closed edge, 3 a face.
    pub kinds: [u32; 256],
    /// The vertex where an open edge starts; 0 for the other kinds.
    pub starts: [u32; 256],
    /// The vertex where an open edge ends; 0 for the other kinds.
    pub ends: [u32; 256],
    /// How many bends an edge has; 0 for the other kinds.
    pub bends: [u32; 256],
    /// How many cycles a face has; 0 for the other kinds.
    pub counts: [u32; 256],
    /// Where a vertex is; not read for the other kinds.
    pub px: [f64; 256],
    pub py: [f64; 256],
    /// How many steps a cycle has; 0 is a vertex alone, which has one place in `steps`.
    pub cycles: [u32; 512],
    /// Twice the edge, and one more if it is passed backward; the vertex where it stands alone.
    pub steps: [u32; 2048],
    /// The bends.
    pub bx: [f64; 2048],
    pub by: [f64; 2048],
}

/// The bytes of a block: `DZ_SHEET_SIZE`.
pub const BLOCK_SIZE: usize = 53_264;
const _: () = assert!(size_of::<Block>() == BLOCK_SIZE);

impl Block {
    /// The empty drawing, and 0 in every other place.
    pub const EMPTY: Block = Block {
        next: 1,
        count: 0,
        ids: [0; 256],
        kinds: [0; 256],
        starts: [0; 256],
        ends: [0; 256],
        bends: [0; 256],
        counts: [0; 256],
        px: [0.0; 256],
        py: [0.0; 256],
        cycles: [0; 512],
        steps: [0; 2048],
        bx: [0.0; 2048],
        by: [0.0; 2048],
    };
}

/// Declares a function on a block that it may change, and one on a block that it only reads: the block's parts in their
/// order, then what is listed.
macro_rules! on_block {
    ($(edits fn $name:ident($($more:ident: $type:ty),*) $(-> $result:ty)?;)*) => {
        extern "C" {
            $(fn $name(
                next: *mut u32,
                count: *mut usize,
                ids: *mut u32,
                kinds: *mut u32,
                starts: *mut u32,
                ends: *mut u32,
                bends: *mut u32,
                counts: *mut u32,
                px: *mut f64,
                py: *mut f64,
                cycles: *mut u32,
                steps: *mut u32,
                bx: *mut f64,
                by: *mut f64,
                $($more: $type),*
            ) $(-> $result)?;)*
        }
    };
    ($(reads fn $name:ident($($more:ident: $type:ty),*) $(-> $result:ty)?;)*) => {
        extern "C" {
            $(fn $name(
                next: u32,
                count: usize,
                ids: *const u32,
                kinds: *const u32,
                starts: *const u32,
                ends: *const u32,
                bends: *const u32,
                counts: *const u32,
                px: *const f64,
                py: *const f64,
                cycles: *const u32,
                steps: *const u32,
                bx: *const f64,
                by: *const f64,
                $($more: $type),*
            ) $(-> $result)?;)*
        }
    };
}

// Each pointer comes with the length of its slice. What is written overlaps nothing else that is lent. Every call writes its
// second results, also with a no: they start at values that no call gives.
extern "C" {
    fn dz_open(file: *const u8, file_length: usize) -> u32;
    fn dz_star(
        file: *const u8,
        file_length: usize,
        id: u32,
        buffer: *mut u32,
        buffer_length: usize,
        count: *mut u32,
    ) -> u32;
    fn dz_euler(file: *const u8, file_length: usize, value: *mut i32) -> u32;
    fn dz_check(file: *const u8, file_length: usize, sound: *mut u32, visited: *mut u32) -> u32;
    fn dz_pieces(file: *const u8, file_length: usize, count: *mut u32) -> u32;
    fn dz_write(file: *const u8, file_length: usize, buffer: *mut u8, buffer_length: usize, count: *mut u32) -> u32;
    fn dz_run(
        file: *const u8,
        file_length: usize,
        script: *const u8,
        script_length: usize,
        lines: *mut u32,
        lines_length: usize,
        out: *mut u8,
        out_length: usize,
        commands: *mut u32,
        bytes: *mut u32,
    ) -> u32;
    fn dz_block_new(next: *mut u32, count: *mut usize);
}

on_block! {
    edits fn dz_block_open(file: *const u8, file_length: usize) -> u32;
    edits fn dz_block_command(
        script: *const u8,
        script_length: usize,
        first: *mut u32,
        new: *mut u32,
        removed: *mut u32
    ) -> u32;
    edits fn dz_block_run(
        script: *const u8,
        script_length: usize,
        lines: *mut u32,
        lines_length: usize,
        commands: *mut u32
    ) -> u32;
}

on_block! {
    reads fn dz_block_rest(script: *const u8, script_length: usize) -> usize;
    reads fn dz_block_star(id: u32, buffer: *mut u32, buffer_length: usize, found: *mut u32) -> u32;
    reads fn dz_block_euler(value: *mut i32) -> u32;
    reads fn dz_block_check(sound: *mut u32, visited: *mut u32);
    reads fn dz_block_pieces(pieces: *mut u32) -> u32;
    reads fn dz_block_write(buffer: *mut u8, buffer_length: usize, bytes: *mut u32) -> u32;
}

/// Calls a function that may change the block.
macro_rules! edit {
    ($function:ident, $block:expr $(, $more:expr)*) => {{
        let b: &mut Block = $block;
        // SAFETY: each part of the block has the length that the function takes, and no two overlap; every other pointer
        // comes with the length of the slice that it is taken from, or points to one local.
        unsafe {
            $function(
                &mut b.next,
                &mut b.count,
                b.ids.as_mut_ptr(),
                b.kinds.as_mut_ptr(),
                b.starts.as_mut_ptr(),
                b.ends.as_mut_ptr(),
                b.bends.as_mut_ptr(),
                b.counts.as_mut_ptr(),
                b.px.as_mut_ptr(),
                b.py.as_mut_ptr(),
                b.cycles.as_mut_ptr(),
                b.steps.as_mut_ptr(),
                b.bx.as_mut_ptr(),
                b.by.as_mut_ptr(),
                $($more),*
            )
        }
    }};
}

/// Calls a function that reads the block.
macro_rules! ask {
    ($function:ident, $block:expr $(, $more:expr)*) => {{
        let b: &Block = $block;
        // SAFETY: as above; nothing is written but the slices and locals that are lent besides.
        unsafe {
            $function(
                b.next,
                b.count,
                b.ids.as_ptr(),
                b.kinds.as_ptr(),
                b.starts.as_ptr(),
                b.ends.as_ptr(),
                b.bends.as_ptr(),
                b.counts.as_ptr(),
                b.px.as_ptr(),
                b.py.as_ptr(),
                b.cycles.as_ptr(),
                b.steps.as_ptr(),
                b.bx.as_ptr(),
                b.by.as_ptr(),
                $($more),*
            )
        }
    }};
}

/// What one command answers.
#[derive(Clone, Copy, Debug, PartialEq, Eq, Hash)]
pub struct Told {
    /// 0, or 1 to 8.
    pub number: u32,
    /// The first new id, 0 if there is none.
    pub first: u32,
    /// How many ids are new.
    pub new: u32,
    /// How many ids are gone.
    pub removed: u32,
}

/// Makes the block hold the empty drawing: next id 1 and no cell; the arrays stay as they are.
pub fn block_new(block: &mut Block) {
    // SAFETY: pointers to two places of the block.
    unsafe { dz_block_new(&mut block.next, &mut block.count) }
}

/// Makes the block hold the drawing of a file: 0, or 10, which leaves it as it was. What it held is not asked.
pub fn block_open(block: &mut Block, file: &[u8]) -> u32 {
    edit!(dz_block_open, block, file.as_ptr(), file.len())
}

/// Runs the command at the front of the script. Asks 1 to 8; a no leaves the block as it was.
pub fn block_command(block: &mut Block, script: &[u8]) -> Told {
    let (mut first, mut new, mut removed) = (u32::MAX, u32::MAX, u32::MAX);
    let (pointer, length) = (script.as_ptr(), script.len());
    let number = edit!(dz_block_command, block, pointer, length, &mut first, &mut new, &mut removed);
    Told { number, first, new, removed }
}

/// How many bytes are left after the command at the front of the script; all of them where it gets 1 or 2.
pub fn block_rest(block: &Block, script: &[u8]) -> usize {
    ask!(dz_block_rest, block, script.as_ptr(), script.len())
}

/// Runs the script's commands: number and count of commands. The five numbers of each go to the lines. Asks 1, then 9.
pub fn block_run(block: &mut Block, script: &[u8], lines: &mut [u32]) -> (u32, usize) {
    let mut commands = u32::MAX;
    let (pointer, length) = (script.as_ptr(), script.len());
    let number = edit!(dz_block_run, block, pointer, length, lines.as_mut_ptr(), lines.len(), &mut commands);
    (number, commands as usize)
}

/// The star of a cell, in the buffer's first places: number and count. Asks 1, 4, 9; 9 gives the count too.
pub fn block_star(block: &Block, id: u32, buffer: &mut [u32]) -> (u32, usize) {
    let mut found = u32::MAX;
    let number = ask!(dz_block_star, block, id, buffer.as_mut_ptr(), buffer.len(), &mut found);
    (number, found as usize)
}

/// The Euler number: number and value. Asks 1.
pub fn block_euler(block: &Block) -> (u32, i32) {
    let mut value = i32::MIN;
    let number = ask!(dz_block_euler, block, &mut value);
    (number, value)
}

/// The soundness test of a block of any contents. A rule about a cell is here also that its kind is one, that places which the
/// kind does not use are 0, and that its counts keep within the arrays.
pub fn block_check(block: &Block) -> Verdict {
    let (mut sound, mut visited) = (u32::MAX, u32::MAX);
    ask!(dz_block_check, block, &mut sound, &mut visited);
    Verdict::new(sound, visited)
}

/// How many pieces the drawing falls into: number and count. Asks 1.
pub fn block_pieces(block: &Block) -> (u32, u32) {
    let mut pieces = u32::MAX;
    let number = ask!(dz_block_pieces, block, &mut pieces);
    (number, pieces)
}

/// The drawing's file, in the buffer's first places: number and count. Asks 1, 9; 9 gives the count too.
pub fn block_write(block: &Block, buffer: &mut [u8]) -> (u32, usize) {
    let mut bytes = u32::MAX;
    let number = ask!(dz_block_write, block, buffer.as_mut_ptr(), buffer.len(), &mut bytes);
    (number, bytes as usize)
}

/// Question 10 of a file: 0, or 10.
pub fn open(file: &[u8]) -> u32 {
    // SAFETY: pointer and length of one slice.
    unsafe { dz_open(file.as_ptr(), file.len()) }
}

/// The star of a cell of a file's drawing, in the buffer's first places: number and count. Asks 10, 4, 9; 9 gives the count
/// too.
pub fn star(file: &[u8], id: u32, buffer: &mut [u32]) -> (u32, usize) {
    let mut count = u32::MAX;
    // SAFETY: every pointer comes with the length of the slice that it is taken from, or points to one local.
    let number = unsafe { dz_star(file.as_ptr(), file.len(), id, buffer.as_mut_ptr(), buffer.len(), &mut count) };
    (number, count as usize)
}

/// The Euler number of a file's drawing: number and value. Asks 10.
pub fn euler(file: &[u8]) -> (u32, i32) {
    let mut value = i32::MIN;
    // SAFETY: pointer and length of one slice, and a local.
    let number = unsafe { dz_euler(file.as_ptr(), file.len(), &mut value) };
    (number, value)
}

/// The soundness test of cells in the form of a file, which need not be a sound drawing's: number and verdict. The number is 0
/// with a yes and with a no, and 10 where the bytes are no such cells, or more than a block holds; then no cell is visited.
pub fn check(bytes: &[u8]) -> (u32, Verdict) {
    let (mut sound, mut visited) = (u32::MAX, u32::MAX);
    // SAFETY: pointer and length of one slice, and two locals.
    let number = unsafe { dz_check(bytes.as_ptr(), bytes.len(), &mut sound, &mut visited) };
    // Sound is only what was not refused.
    (number, Verdict::new(if number == 0 { sound } else { 0 }, visited))
}

/// How many pieces a file's drawing falls into: number and count. Asks 10.
pub fn pieces(file: &[u8]) -> (u32, u32) {
    let mut count = u32::MAX;
    // SAFETY: pointer and length of one slice, and a local.
    let number = unsafe { dz_pieces(file.as_ptr(), file.len(), &mut count) };
    (number, count)
}

/// The file read and written again, in the buffer's first places: number and count. Asks 10, 9; 9 gives the count too.
pub fn write(file: &[u8], buffer: &mut [u8]) -> (u32, usize) {
    let mut count = u32::MAX;
    // SAFETY: every pointer comes with the length of the slice that it is taken from, or points to one local.
    let number = unsafe { dz_write(file.as_ptr(), file.len(), buffer.as_mut_ptr(), buffer.len(), &mut count) };
    (number, count as usize)
}

/// What a run from file to file answers.
pub struct Ran {
    /// 0, 9 or 10.
    pub number: u32,
    /// How many commands there were.
    pub commands: usize,
    /// The length of the file at the end.
    pub bytes: usize,
}

/// Runs a script on the drawing of a file. The five numbers of each command go to the lines, the file at the end to the
/// first places of `out`.
pub fn run(file: &[u8], script: &[u8], lines: &mut [u32], out: &mut [u8]) -> Ran {
    let (mut commands, mut bytes) = (u32::MAX, u32::MAX);
    // SAFETY: every pointer comes with the length of the slice that it is taken from, or points to one local.
    let number = unsafe {
        dz_run(
            file.as_ptr(),
            file.len(),
            script.as_ptr(),
            script.len(),
            lines.as_mut_ptr(),
            lines.len(),
            out.as_mut_ptr(),
            out.len(),
            &mut commands,
            &mut bytes,
        )
    };
    Ran { number, commands: commands as usize, bytes: bytes as usize }
}
