//! The C functions themselves: a no leaves the lent buffers as they were, and counts 0 save what 9 gives.

use dazolbei::raw::{self, Block, Told};
use dazolbei::{Question, Sheet, Verdict};

/// Vertex 1 at zero and the loop 2 at it.
fn file() -> Vec<u8> {
    let mut script = vec![0x01];
    script.extend([0; 16]);
    script.extend([0x02, 0x01, 0x01, 0x00]);
    let mut sheet = Sheet::new();
    sheet.run(&script).unwrap();
    sheet.save()
}

const NO_FILE: [u8; 1] = [0x01];

fn star(file: &[u8], id: u32, places: usize) -> (u32, usize, Vec<u32>) {
    let mut buffer = vec![77; places];
    let (number, count) = raw::star(file, id, &mut buffer);
    (number, count, buffer)
}

#[test]
fn stars() {
    let file = file();
    assert_eq!(star(&file, 1, 3), (0, 1, vec![2, 77, 77]));
    assert_eq!(star(&file, 1, 0), (9, 1, vec![]));
    assert_eq!(star(&file, 2, 0), (0, 0, vec![]));
    assert_eq!(star(&file, 3, 2), (4, 0, vec![77, 77]));
    assert_eq!(star(&NO_FILE, 1, 2), (10, 0, vec![77, 77]));
}

#[test]
fn euler() {
    assert_eq!(raw::euler(&file()), (0, 0));
    assert_eq!(raw::euler(&NO_FILE), (10, 0));
}

#[test]
fn pieces() {
    assert_eq!(raw::pieces(&file()), (0, 1));
    assert_eq!(raw::pieces(&[0x01, 0x00]), (0, 0));
    // Faces 1 and 2 without cycles.
    assert_eq!(raw::pieces(&[0x03, 0x02, 0x01, 0x03, 0x00, 0x02, 0x03, 0x00]), (0, 2));
    for none in [&NO_FILE[..], &[], &[0x00, 0x00], &[0x02, 0x01, 0x02, 0x03, 0x00]] {
        assert_eq!(raw::pieces(none), (10, 0));
    }
}

fn write(file: &[u8], places: usize) -> (u32, usize, Vec<u8>) {
    let mut buffer = vec![77; places];
    let (number, count) = raw::write(file, &mut buffer);
    (number, count, buffer)
}

#[test]
fn writes() {
    let file = file();
    let n = file.len();
    assert_eq!(write(&file, n), (0, n, file.clone()));
    assert_eq!(write(&file, n + 2), (0, n, [&file[..], &[77, 77]].concat()));
    assert_eq!(write(&file, n - 1), (9, n, vec![77; n - 1]));
    assert_eq!(write(&NO_FILE, 4), (10, 0, vec![77; 4]));
}

type Ran = (u32, usize, usize, Vec<u32>, Vec<u8>);

fn run(file: &[u8], script: &[u8], lines: usize, out: usize) -> Ran {
    let (mut lines, mut out) = (vec![77; lines], vec![77; out]);
    let ran = raw::run(file, script, &mut lines, &mut out);
    (ran.number, ran.commands, ran.bytes, lines, out)
}

#[test]
fn runs() {
    let file = file();
    // delete 2, then a kind that is none
    let script = [0x06, 0x02, 0x00];
    let (number, commands, bytes, lines, out) = run(&file, &script, 16, 65_536);
    assert_eq!((number, commands, bytes), (0, 2, 20));
    assert_eq!(lines, [0, 0, 0, 1, 1, 2, 0, 0, 0, 1, 77, 77, 77, 77, 77, 77]);
    assert_eq!(out[..4], [0x03, 0x01, 0x01, 0x00]);
    assert!(out[4..20].iter().all(|&b| b == 0) && out[20..].iter().all(|&b| b == 77));
    for (file, lines, out, no) in [(&file[..], 14, 65_536, 9), (&file, 15, 65_535, 9), (&NO_FILE, 15, 65_536, 10)] {
        assert_eq!(run(file, &script, lines, out), (no, 0, 0, vec![77; lines], vec![77; out]));
    }
}

/// A block that holds the drawing of the file.
fn block() -> Box<Block> {
    let mut block = Box::new(Block::EMPTY);
    assert_eq!(raw::block_open(&mut block, &file()), 0);
    block
}

/// The block with an id that does not rise.
fn damaged() -> Box<Block> {
    let mut block = block();
    block.ids[1] = 1;
    block
}

/// The parts of a block, one behind the other.
fn parts(b: &Block) -> (u32, usize, Vec<u32>, Vec<u64>) {
    let rows = [b.ids, b.kinds, b.starts, b.ends, b.bends, b.counts].concat();
    let coordinates = [&b.px[..], &b.py, &b.bx, &b.by].concat();
    (b.next, b.count, [&rows, &b.cycles[..], &b.steps].concat(), coordinates.iter().map(|x| x.to_bits()).collect())
}

#[test]
fn blocks_are_opened() {
    let mut opened = block();
    assert_eq!((opened.next, opened.count, &opened.ids[..2], &opened.kinds[..2]), (3, 2, &[1, 2][..], &[0, 1][..]));
    assert_eq!((opened.starts[1], opened.ends[1], opened.bends[1], opened.counts[1]), (1, 1, 0, 0));
    // What the block held is not asked, and stays at 10.
    for mut any in [damaged(), block()] {
        let before = parts(&any);
        assert_eq!(raw::block_open(&mut any, &NO_FILE), 10);
        assert_eq!(parts(&any), before);
        assert_eq!(raw::block_open(&mut any, &file()), 0);
        assert_eq!(raw::block_euler(&any), (0, 0));
    }
    raw::block_new(&mut opened);
    assert_eq!((opened.next, opened.count), (1, 0));
    assert_eq!(raw::block_write(&opened, &mut [77; 4]), (0, 2));
}

#[test]
fn commands_on_blocks() {
    let told = |number, first, new, removed| Told { number, first, new, removed };
    let mut edited = block();
    // a loop again, then a cell that is not there, then bytes that are no command
    assert_eq!(raw::block_command(&mut edited, &[0x02, 0x01, 0x01, 0x00, 0x06]), told(0, 3, 1, 0));
    assert_eq!(raw::block_rest(&edited, &[0x02, 0x01, 0x01, 0x00, 0x06]), 1);
    let before = parts(&edited);
    assert_eq!(raw::block_command(&mut edited, &[0x06, 0x09]), told(4, 0, 0, 0));
    assert_eq!(raw::block_command(&mut edited, &[0x06]), told(2, 0, 0, 0));
    assert_eq!(raw::block_rest(&edited, &[0x06]), 1);
    assert_eq!(parts(&edited), before);
    let mut bad = damaged();
    let before = parts(&bad);
    for script in [&[0x06, 0x01][..], &[0x0F]] {
        assert_eq!(raw::block_command(&mut bad, script), told(1, 0, 0, 0));
        assert_eq!(raw::block_rest(&bad, script), script.len());
        assert_eq!(parts(&bad), before);
    }
}

#[test]
fn runs_on_blocks() {
    // delete 2, then a kind that is none
    let script = [0x06, 0x02, 0x00];
    let run = |mut block: Box<Block>, places| {
        let mut lines = vec![77; places];
        let ran = raw::block_run(&mut block, &script, &mut lines);
        (ran, lines, block)
    };
    let (ran, lines, after) = run(block(), 16);
    assert_eq!((ran, after.count), ((0, 2), 1));
    assert_eq!(lines, [0, 0, 0, 1, 1, 2, 0, 0, 0, 1, 77, 77, 77, 77, 77, 77]);
    for (start, places, no) in [(block(), 14, 9), (damaged(), 15, 1), (damaged(), 14, 1)] {
        let before = parts(&start);
        let (ran, lines, after) = run(start, places);
        assert_eq!((ran, lines), ((no, 0), vec![77; places]));
        assert_eq!(parts(&after), before);
    }
}

#[test]
fn calls_on_blocks() {
    let star = |block: &Block, id, places| {
        let mut buffer = vec![77; places];
        let (number, count) = raw::block_star(block, id, &mut buffer);
        (number, count, buffer)
    };
    assert_eq!(star(&block(), 1, 3), (0, 1, vec![2, 77, 77]));
    assert_eq!(star(&block(), 1, 0), (9, 1, vec![]));
    assert_eq!(star(&block(), 3, 2), (4, 0, vec![77, 77]));
    assert_eq!(star(&damaged(), 1, 2), (1, 0, vec![77, 77]));
    assert_eq!(raw::block_euler(&block()), (0, 0));
    assert_eq!(raw::block_euler(&damaged()), (1, 0));
    assert_eq!(raw::block_pieces(&block()), (0, 1));
    assert_eq!(raw::block_pieces(&Block::EMPTY), (0, 0));
    assert_eq!(raw::block_pieces(&damaged()), (1, 0));
    let write = |block: &Block, places| {
        let mut buffer = vec![77; places];
        let (number, count) = raw::block_write(block, &mut buffer);
        (number, count, buffer)
    };
    let (file, n) = (file(), file().len());
    assert_eq!(write(&block(), n + 2), (0, n, [&file[..], &[77, 77]].concat()));
    assert_eq!(write(&block(), n - 1), (9, n, vec![77; n - 1]));
    assert_eq!(write(&damaged(), n), (1, 0, vec![77; n]));
}

fn verdict(sound: bool, visited: u32) -> Verdict {
    Verdict { sound, visited }
}

#[test]
fn checks_of_blocks() {
    assert_eq!(raw::block_check(&block()), verdict(true, 2));
    assert_eq!(raw::block_check(&Block::EMPTY), verdict(true, 0));
    let checked = |damage: fn(&mut Block)| {
        let mut bad = block();
        damage(&mut bad);
        let before = parts(&bad);
        let told = raw::block_check(&bad);
        assert_eq!(parts(&bad), before);
        assert_eq!(raw::block_euler(&bad).0, u32::from(!told.sound));
        assert_eq!(raw::block_pieces(&bad), if told.sound { (0, 1) } else { (1, 0) });
        (told.sound, told.visited)
    };
    assert_eq!(checked(|b| b.ids[2] = 1), (true, 2));
    // The next id or the count is out of bounds.
    assert_eq!(checked(|b| b.next = 0), (false, 0));
    assert_eq!(checked(|b| b.next = 65_537), (false, 0));
    assert_eq!(checked(|b| b.count = 257), (false, 0));
    assert_eq!(checked(|b| b.count = usize::MAX), (false, 0));
    // The first cell at fault is the last one visited.
    assert_eq!(checked(|b| b.px[0] = f64::NAN), (false, 1));
    assert_eq!(checked(|b| (b.py[0], b.ends[1]) = (f64::INFINITY, 9)), (false, 1));
    assert_eq!(checked(|b| b.ends[1] = 9), (false, 2));
    assert_eq!(checked(|b| b.ids[1] = 1), (false, 2));
    assert_eq!(checked(|b| b.next = 2), (false, 2));
    // The rules of a block: kinds, places that a kind does not use, counts within the arrays.
    assert_eq!(checked(|b| b.kinds[1] = 4), (false, 2));
    assert_eq!(checked(|b| b.counts[0] = 1), (false, 1));
    assert_eq!(checked(|b| b.bends[1] = 2_048), (true, 2));
    assert_eq!(checked(|b| b.bends[1] = 2_049), (false, 2));
    assert_eq!(checked(|b| b.bends[1] = u32::MAX), (false, 2));
}

#[test]
fn a_named_id_means_the_first_cell_that_has_it() {
    // Loop 1 at vertex 2, and behind it closed edge 2, which is at fault; or loop 1 at closed edge 2, which is the first.
    let mut bad = Box::new(Block::EMPTY);
    (bad.next, bad.count, bad.starts[0], bad.ends[0]) = (9, 3, 2, 2);
    bad.ids[..3].copy_from_slice(&[1, 2, 2]);
    bad.kinds[..3].copy_from_slice(&[1, 0, 2]);
    bad.bends[2] = 1;
    assert_eq!(raw::block_check(&bad), verdict(false, 3));
    bad.kinds[1..3].copy_from_slice(&[2, 0]);
    bad.bends[1..3].copy_from_slice(&[1, 0]);
    assert_eq!(raw::block_check(&bad), verdict(false, 1));
}

#[test]
fn checks_of_bytes() {
    let file = file();
    let n = file.len();
    assert_eq!(raw::check(&file), (0, verdict(true, 2)));
    assert_eq!(raw::check(&[0x01, 0x00]), (0, verdict(true, 0)));
    assert_eq!(raw::check(&[0x00, 0x00]), (0, verdict(false, 0)));
    // The loop's end is a dead id.
    let mut bad = file.clone();
    bad[n - 2] = 0x07;
    assert_eq!(raw::check(&bad), (0, verdict(false, 2)));
    assert_eq!(Sheet::check_file(&bad), Ok(verdict(false, 2)));
    for none in [&NO_FILE[..], &[], &file[..n - 1], &[&file[..], &[0x00]].concat()] {
        assert_eq!(raw::check(none), (10, verdict(false, 0)));
        assert_eq!(Sheet::check_file(none), Err(Question::File));
    }
}
