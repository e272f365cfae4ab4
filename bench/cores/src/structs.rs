//! The proved core's calls on structs, which take a drawing by value and give one back: read, command and write, through one
//! function of the archive `libtry_struct.a`. The core is handed the file at each call and hands one back.

use std::time::Duration;

use plain::{Block, Verdict};

use crate::{Call, Core, Line, LONGEST_FILE};

extern "C" {
    fn ds_command(
        file: *const u8,
        file_length: usize,
        script: *const u8,
        script_length: usize,
        line: *mut u32,
        out: *mut u8,
        out_length: usize,
        bytes: *mut u32,
    ) -> u32;
}

/// The file of the drawing that the core is at.
pub struct Structs {
    file: Vec<u8>,
}

/// The file of the empty drawing.
const EMPTY: [u8; 2] = [0x01, 0x00];

/// Reads the file, runs the command, writes the drawing after it: the write's number (10 where the file is none), the
/// command's four numbers, and how many bytes were written.
fn command(file: &[u8], script: &[u8], out: &mut [u8]) -> (u32, [u32; 4], usize) {
    let (mut line, mut bytes) = ([u32::MAX; 4], 0);
    // SAFETY: every pointer comes with the length of the slice that it is taken from, or points to a local of the length that
    // the function takes.
    let number = unsafe {
        ds_command(
            file.as_ptr(),
            file.len(),
            script.as_ptr(),
            script.len(),
            line.as_mut_ptr(),
            out.as_mut_ptr(),
            out.len(),
            &mut bytes,
        )
    };
    (number, line, bytes as usize)
}

impl Structs {
    pub fn new() -> Structs {
        Structs { file: EMPTY.to_vec() }
    }
}

impl Default for Structs {
    fn default() -> Structs {
        Structs::new()
    }
}

impl Core for Structs {
    fn name(&self) -> &'static str {
        "structs"
    }

    fn has_queries(&self) -> bool {
        false
    }

    /// An empty script is no command (2), which leaves the drawing of the file.
    fn open(&mut self, file: &[u8]) -> u32 {
        let mut out = vec![0; LONGEST_FILE];
        let (number, line, bytes) = command(file, &[], &mut out);
        if number != 0 {
            self.file = EMPTY.to_vec();
            return number;
        }
        assert_eq!(line, [2, 0, 0, 0], "no command");
        self.file = out[..bytes].to_vec();
        0
    }

    /// Where the next command begins is not asked of the core.
    fn run(&mut self, script: &[u8]) -> Vec<Line> {
        let (mut lines, mut left) = (Vec::new(), script);
        let mut out = vec![0; LONGEST_FILE];
        while !left.is_empty() {
            let rest = plain::decode(left).map_or(left, |(_, rest)| rest).len();
            let (written, [number, first, new, removed], bytes) = command(&self.file, left, &mut out);
            assert_eq!(written, 0, "ds_command");
            self.file = out[..bytes].to_vec();
            lines.push(Line { number, first, new, removed, rest });
            if number == 1 || number == 2 {
                break;
            }
            left = &left[left.len() - rest..];
        }
        lines
    }

    fn star(&mut self, _: u32, _: &mut [u32]) -> (u32, usize) {
        unreachable!("not offered")
    }

    fn euler(&mut self) -> (u32, i64) {
        unreachable!("not offered")
    }

    fn check(&mut self) -> Verdict {
        unreachable!("not offered")
    }

    fn check_block(&mut self, _: &Block) -> Verdict {
        unreachable!("not offered")
    }

    fn check_file(&mut self, _: &[u8]) -> Option<Verdict> {
        unreachable!("not offered")
    }

    fn pieces(&mut self) -> (u32, u32) {
        unreachable!("not offered")
    }

    fn pieces_block(&mut self, _: &Block) -> (u32, u32) {
        unreachable!("not offered")
    }

    fn pieces_file(&mut self, _: &[u8]) -> (u32, u32) {
        unreachable!("not offered")
    }

    fn file(&mut self, buffer: &mut [u8]) -> (u32, usize) {
        let (number, _, bytes) = command(&self.file, &[], buffer);
        (number, bytes)
    }

    fn time(&mut self, _: Call, _: usize) -> Duration {
        unreachable!("not offered")
    }
}
