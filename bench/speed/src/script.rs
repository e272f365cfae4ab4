//! A script of commands of every kind, all of them done, from the empty drawing on.

use plain::{put_bends, put_number, put_position, Drawing, Position};

use crate::sheets::bends;

/// Above so many cells the oldest are deleted first.
const CROWDED: usize = 200;

struct Writer {
    drawing: Drawing,
    script: Vec<u8>,
    commands: usize,
    most: usize,
}

/// The script of so many commands.
pub fn script(commands: usize) -> Vec<u8> {
    let mut writer = Writer { drawing: Drawing::empty(), script: Vec::new(), commands: 0, most: commands };
    while writer.commands < commands {
        writer.round();
    }
    writer.script
}

impl Writer {
    /// Adds a command unless there are enough: the first new id.
    fn add(&mut self, bytes: Vec<u8>) -> u32 {
        if self.commands == self.most {
            return 0;
        }
        let outcome = plain::edit(&mut self.drawing, &bytes);
        assert_eq!(outcome.number, 0, "command {} of the script was refused: {bytes:?}", self.commands);
        self.script.extend(bytes);
        self.commands += 1;
        outcome.first
    }

    fn numbers(&mut self, kind: u8, numbers: &[u32]) -> u32 {
        self.add(bytes(kind, numbers))
    }

    /// A command that ends in two bends, and behind them numbers of one byte.
    fn bent(&mut self, kind: u8, numbers: &[u32], behind: &[u8]) -> u32 {
        let mut out = bytes(kind, numbers);
        put_bends(&mut out, &bends(2));
        out.extend(behind);
        self.add(out)
    }

    fn placed(&mut self, kind: u8, numbers: &[u32], x: f64, y: f64) -> u32 {
        let mut out = bytes(kind, numbers);
        put_position(&mut out, Position { x, y });
        self.add(out)
    }

    /// A square with a face, edited by every kind, deletes where it gets crowded, and a renumbering.
    fn round(&mut self) {
        let v: Vec<u32> = (0..4).map(|i| self.placed(0x01, &[], f64::from(i), 0.5)).collect();
        let e: Vec<u32> = (0..4).map(|i| self.bent(0x02, &[v[i], v[(i + 1) % 4]], &[])).collect();
        // A face of one cycle: each edge forward.
        let face = self.numbers(0x04, &[1, 4, 2 * e[0], 2 * e[1], 2 * e[2], 2 * e[3]]);
        self.placed(0x05, &[v[1]], 2.5, -1.0);
        let middle = self.numbers(0x0A, &[e[0], 2]);
        self.numbers(0x0E, &[middle]);
        let across = self.bent(0x0C, &[face, 0, 0, 0, 2], &[0]);
        self.numbers(0x0E, &[across]);
        let beside = self.bent(0x02, &[v[1], v[2]], &[]);
        self.numbers(0x08, &[beside, e[1], 0]);
        self.placed(0x0B, &[face], 0.25, 0.25);
        let ring = self.bent(0x0D, &[face], &[0]);
        self.numbers(0x0E, &[ring]);
        self.bent(0x03, &[], &[]);
        let lone = self.placed(0x01, &[], -1.0, -1.0);
        self.numbers(0x07, &[lone, v[3]]);
        self.shared();
        while self.drawing.cells.len() > CROWDED && self.commands < self.most {
            let oldest = self.drawing.cells[0].id;
            self.numbers(0x06, &[oldest]);
        }
        self.numbers(0x0F, &[]);
    }

    /// A loop that two faces share comes apart.
    fn shared(&mut self) {
        let v = self.placed(0x01, &[], 3.0, 3.0);
        let around = self.bent(0x02, &[v, v], &[]);
        self.numbers(0x04, &[1, 1, 2 * around]);
        self.numbers(0x04, &[1, 1, 2 * around + 1]);
        self.numbers(0x09, &[around]);
        self.numbers(0x09, &[v]);
    }
}

fn bytes(kind: u8, numbers: &[u32]) -> Vec<u8> {
    let mut out = vec![kind];
    for &number in numbers {
        put_number(&mut out, number);
    }
    out
}
