//! The wrapper on document 01's sheets, and on renumberings.

use std::collections::hash_map::DefaultHasher;
use std::hash::{Hash, Hasher};

use dazolbei::{Done, Line, Question, Sheet, Verdict, FILE_MOST};

/// A vertex at (x, y).
fn vertex(x: f64, y: f64) -> Vec<u8> {
    let mut command = vec![0x01];
    command.extend(x.to_le_bytes());
    command.extend(y.to_le_bytes());
    command
}

fn done(first: u32, new: u32, removed: u32) -> Result<Done, Question> {
    Ok(Done { first, new, removed })
}

#[test]
fn worked_example() {
    let mut script = vertex(0.0, 0.0);
    script.extend([0x02, 0x01, 0x01, 0x00, 0x04, 0x01, 0x01, 0x04, 0x0A, 0x02, 0x00, 0x0E, 0x04]);
    let mut sheet = Sheet::new();
    let lines = sheet.run(&script).unwrap();
    let answers: Vec<_> = lines.iter().map(|line| line.answer).collect();
    assert_eq!(answers, [done(1, 1, 0), done(2, 1, 0), done(3, 1, 0), done(4, 3, 1), done(7, 1, 3)]);
    let rests: Vec<_> = lines.iter().map(|line| line.rest).collect();
    assert_eq!(rests, [13, 9, 5, 2, 0]);
    assert_eq!(sheet.euler(), 1);
    // next id 8, 3 cells
    assert_eq!(sheet.save()[..2], [8, 3]);
}

#[test]
fn commands() {
    let mut script = vertex(0.0, 0.0);
    script.extend([0x02, 0x01, 0x01, 0x00, 0x07, 0x01, 0x01, 0x80]);
    let (mut sheet, mut answers, mut left) = (Sheet::new(), Vec::new(), &script[..]);
    while left.len() > 1 {
        answers.push(sheet.command(left));
        left = sheet.rest(left);
    }
    assert_eq!(answers, [done(1, 1, 0), done(2, 1, 0), Err(Question::Rule)]);
    assert_eq!(sheet.command(left), Err(Question::Whole));
    assert_eq!(sheet.rest(left), [0x80]);
    assert_eq!(sheet.command(&[]), Err(Question::Whole));
    let mut whole = Sheet::new();
    whole.run(&script).unwrap();
    assert_eq!(whole, sheet);
}

#[test]
fn equal_sheets() {
    let hash = |sheet: &Sheet| {
        let mut hasher = DefaultHasher::new();
        sheet.hash(&mut hasher);
        hasher.finish()
    };
    // Cells that are gone leave the drawing as if they had never been, but for the next id.
    let mut sheet = Sheet::new();
    sheet.run(&[vertex(1.0, 2.0), vertex(3.0, 4.0), vec![0x06, 0x01]].concat()).unwrap();
    let again = Sheet::open(&sheet.save()).unwrap();
    assert_eq!((&again, hash(&again)), (&sheet, hash(&sheet)));
    let mut copy = sheet.clone();
    copy.command(&[0x06, 0x02]).unwrap();
    assert_ne!(copy, sheet);
    assert_eq!(format!("{:?}", Sheet::new()), "Sheet { file: [1, 0] }");
}

#[test]
fn saves() {
    let mut sheet = Sheet::new();
    sheet.run(&vertex(1.0, 2.0)).unwrap();
    let file = sheet.save();
    let mut buffer = [77; 22];
    assert_eq!(sheet.save_to(&mut buffer[..19]), Err(Question::Buffer));
    assert_eq!(buffer, [77; 22]);
    assert_eq!(sheet.save_to(&mut buffer), Ok(20));
    assert_eq!(buffer, [&file[..], &[77, 77]].concat()[..]);
}

#[test]
fn files() {
    assert_eq!(Sheet::new().save(), [0x01, 0x00]);
    assert_eq!(Sheet::new().check(), Verdict { sound: true, visited: 0 });
    let mut sheet = Sheet::default();
    sheet.run(&vertex(0.0, 0.0)).unwrap();
    let mut file = vec![0x02, 0x01, 0x01, 0x00];
    file.extend([0; 16]);
    assert_eq!(sheet.save(), file);
    assert_eq!(Sheet::open(&file), Ok(sheet));
    for bad in [&[][..], &[0x01], &[0x01, 0x00, 0x00], &[0x00, 0x00], &[0x81, 0x00, 0x00], &file[..19]] {
        assert_eq!(Sheet::open(bad), Err(Question::File), "{bad:?}");
    }
}

#[test]
fn refusals() {
    let mut sheet = Sheet::new();
    assert_eq!(sheet.run(&[]), Ok(vec![]));
    let bounds = sheet.run(&vertex(1_048_577.0, 0.0)).unwrap();
    assert_eq!(bounds, [Line { answer: Err(Question::Bounds), rest: 0 }]);
    assert_eq!(sheet, Sheet::new());
    assert_eq!(sheet.star(1), Err(Question::Live));
    sheet.run(&vertex(1_048_576.0, -0.0)).unwrap();
    assert_eq!(sheet.star(1), Ok(vec![]));
    let answers = |sheet: &mut Sheet, script: &[u8]| -> Vec<Result<Done, Question>> {
        sheet.run(script).unwrap().iter().map(|line| line.answer).collect()
    };
    assert_eq!(answers(&mut sheet, &[0x03, 0x00]), [Err(Question::Exists)]);
    assert_eq!(answers(&mut sheet, &[0x07, 0x01, 0x01]), [Err(Question::Rule)]);
    // a whole command, then one that is not read, and nothing behind it
    assert_eq!(answers(&mut sheet, &[0x06, 0x07, 0x80, 0x06, 0x01]), [Err(Question::Live), Err(Question::Whole)]);
    assert_eq!(answers(&mut sheet, &[0x06, 0x01]), [done(0, 0, 1)]);
    // next id 65,536: no id is left
    let mut last = Sheet::open(&[0x80, 0x80, 0x04, 0x00]).unwrap();
    assert_eq!(answers(&mut last, &vertex(0.0, 0.0)), [Err(Question::Ids)]);
}

#[test]
fn ceilings() {
    let mut sheet = Sheet::new();
    let lines = sheet.run(&vertex(1.0, 2.0).repeat(257)).unwrap();
    assert_eq!(lines.len(), 257);
    assert_eq!(lines[255].answer, done(256, 1, 0));
    assert_eq!(lines[256].answer, Err(Question::Ceilings));
    assert_eq!((sheet.euler(), sheet.pieces()), (256, 256));
    assert_eq!(sheet.check(), Verdict { sound: true, visited: 256 });
    assert!(sheet.save().len() <= FILE_MOST);
    let again = sheet.run(&[&[0x06, 0x01][..], &vertex(0.0, 0.0)].concat()).unwrap();
    assert_eq!(again[1].answer, done(257, 1, 0));
}

#[test]
fn numbers() {
    assert_eq!(Question::from_number(0), None);
    for number in 1..=10 {
        let question = Question::from_number(number).unwrap();
        assert_ne!(question, Question::Unknown(number));
        assert_eq!(question.number(), number);
    }
    for number in [11, 255, u32::MAX] {
        assert_eq!(Question::from_number(number), Some(Question::Unknown(number)));
    }
    assert_eq!(Question::Ids.to_string(), "7 (the ids do not suffice)");
    assert_eq!(Question::Unknown(255).to_string(), "255 (no question that is known here)");
}

#[test]
fn pieces() {
    let after = |sheet: &mut Sheet, script: &[u8]| {
        assert!(sheet.run(script).unwrap().iter().all(|line| line.answer.is_ok()));
        sheet.pieces()
    };
    let closed_edge = [&[0x03, 0x01][..], &[0; 16]].concat();
    let mut sheet = Sheet::new();
    assert_eq!(sheet.pieces(), 0);
    // Cells in no boundary and with none: closed edge 1, face 2, vertices 3 to 6.
    assert_eq!(after(&mut sheet, &closed_edge), 1);
    assert_eq!(after(&mut sheet, &[0x04, 0x00]), 2);
    assert_eq!(after(&mut sheet, &vertex(0.0, 0.0).repeat(4)), 6);
    // Edge 7 from 3 to 4, loop 8 at 4, edge 9 from 6 to 5; edge 10 joins the two islands.
    assert_eq!(after(&mut sheet, &[0x02, 0x03, 0x04, 0x00, 0x02, 0x04, 0x04, 0x00, 0x02, 0x06, 0x05, 0x00]), 4);
    assert_eq!(after(&mut sheet, &[0x02, 0x04, 0x06, 0x00]), 3);
    assert_eq!(after(&mut sheet, &[0x06, 0x0A]), 4);
    // Face 11 joins all but face 2: edge 7 there and back, vertex 5 alone, edge 1 round. Without it they are apart again.
    assert_eq!(after(&mut sheet, &[0x04, 0x03, 0x02, 0x0E, 0x0F, 0x00, 0x05, 0x01, 0x02]), 2);
    assert_eq!(after(&mut sheet, &[0x06, 0x02]), 1);
    assert_eq!(after(&mut sheet, &[0x06, 0x0B]), 3);
    // Face 12 has vertices 5 and 6 alone, which one edge joins.
    assert_eq!(after(&mut sheet, &[0x04, 0x02, 0x00, 0x05, 0x00, 0x06]), 3);
    assert_eq!(after(&mut sheet, &[0x06, 0x09, 0x06, 0x0C]), 4);
    assert_eq!(after(&mut sheet, &[0x0F]), 4);
}

#[test]
fn renumberings() {
    // Vertices 2 and 3 (1 is deleted), edge 4 from 3 to 2, closed edge 5, and face 7 (6 is deleted): lone vertex 3 twice, 4 there
    // and back, 5 twice round backward.
    let mut script = vertex(1.0, 2.0).repeat(3);
    script.extend([0x06, 0x01, 0x02, 0x03, 0x02, 0x00, 0x03, 0x01]);
    script.extend([0; 16]);
    script.extend([0x04, 0x00, 0x06, 0x06, 0x04, 0x04, 0x00, 0x03, 0x00, 0x03, 0x02, 0x08, 0x09, 0x02, 0x0B, 0x0B]);
    let mut sheet = Sheet::new();
    assert!(sheet.run(&script).unwrap().iter().all(|line| line.answer.is_ok()));
    let euler = sheet.euler();
    assert_eq!((sheet.save()[..3].to_vec(), sheet.star(3)), (vec![8, 5, 2], Ok(vec![4, 7])));
    assert_eq!(sheet.rest(&[0x0F, 0x06]), [0x06]);
    assert_eq!(sheet.command(&[0x0F, 0x06]), done(0, 0, 0));
    let file = sheet.save();
    assert_eq!(file[..3], [6, 5, 1]);
    assert_eq!(file[file.len() - 13..], [5, 3, 4, 0, 2, 0, 2, 2, 6, 7, 2, 9, 9]);
    assert_eq!((sheet.star(2), sheet.star(7), sheet.euler()), (Ok(vec![3, 5]), Err(Question::Live), euler));
    // The second time nothing changes.
    let lines = sheet.run(&[0x0F, 0x0F]).unwrap();
    assert_eq!(lines, [1, 0].map(|rest| Line { answer: done(0, 0, 0), rest }));
    assert_eq!(sheet.save(), file);
    // An id of before may be issued again.
    assert_eq!(sheet.command(&vertex(0.0, 0.0)), done(6, 1, 0));
    // No id is left, until a renumbering of no cell gives all of them again.
    let mut last = Sheet::open(&[0x80, 0x80, 0x04, 0x00]).unwrap();
    let lines = last.run(&[vertex(0.0, 0.0), vec![0x0F], vertex(0.0, 0.0)].concat()).unwrap();
    let answers: Vec<_> = lines.iter().map(|line| line.answer).collect();
    assert_eq!(answers, [Err(Question::Ids), done(0, 0, 0), done(1, 1, 0)]);
}
