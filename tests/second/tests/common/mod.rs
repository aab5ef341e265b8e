//! A conversion and a look at all that it leaves behind.

use second::{convert, Answer};

/// Converts and looks at the whole buffer: untouched after a refusal and after
/// the document.
pub fn run(file: &[u8], mode: u64, room: usize) -> (Answer, String) {
    let mut out = vec![0xA5; room];
    let answer = convert(file, mode, &mut out);
    let written = if answer.number == 0 { answer.length as usize } else { 0 };
    assert!(out[written..].iter().all(|&byte| byte == 0xA5));
    if answer.number != 0 {
        let rest = Answer { number: 0, place: 0, length: 0, ..answer };
        assert_eq!(rest, Answer::default());
        assert_eq!(answer.length != 0, answer.number == 16);
    }
    (answer, String::from_utf8(out[..written].to_vec()).unwrap())
}

pub const ROOM: usize = 65_536;

fn refusal(number: u64, place: u64) -> Answer {
    Answer { number, place, ..Answer::default() }
}

pub fn assert_refused(file: &[u8], mode: u64, number: u64, place: u64) {
    assert_eq!(run(file, mode, ROOM).0, refusal(number, place));
}

/// The lines of the paragraphs.
pub fn paragraphs(document: &str) -> Vec<&str> {
    document.lines().filter(|line| line.starts_with("<tt:p ")).collect()
}

/// What stands inside the only paragraph.
pub fn inside(file: &[u8], mode: u64) -> String {
    let (answer, document) = run(file, mode, ROOM);
    assert_eq!(answer.number, 0, "{answer:?}");
    let lines = paragraphs(&document);
    assert_eq!(lines.len(), 1);
    let start = lines[0].find('>').unwrap() + 1;
    lines[0][start..].strip_suffix("</tt:p>").unwrap().to_string()
}
