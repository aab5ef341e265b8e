//! Documents of teletext files read back: they show the rows of their files as
//! request 2 has it, and their spans are as long as they can be. What stands in
//! the samples of it, and how often.

use second::characters::{self, Character};
use second::make::sample;
use second::{convert, reader, Answer};
use std::collections::BTreeMap;

const END: u8 = 0x0A;
const START: u8 = 0x0B;

/// A code, or an accent with what follows: the first byte, and the character or the
/// blank of a control.
#[derive(PartialEq, Eq, Debug, Clone, Copy)]
struct Code {
    byte: u8,
    character: Character,
}

/// A cell as a reader sees it.
#[derive(PartialEq, Eq, Debug, Clone, Copy)]
struct Cell {
    character: Character,
    background: u8,
    colour: u8,
    double: bool,
}

impl Cell {
    fn is_blank(self) -> bool {
        self.character == Character::SPACE
    }

    fn is_blank_on_black(self) -> bool {
        self.is_blank() && self.background == 0
    }

    /// "in character, background, height and, blanks apart, colour"
    fn shows_like(self, other: Cell) -> bool {
        let plain = |cell: Cell| Cell { colour: if cell.is_blank() { 7 } else { cell.colour }, ..cell };
        plain(self) == plain(other)
    }
}

/// A row of a file. Every question is answered by looking back from the cell.
struct Row(Vec<Code>);

impl Row {
    fn bytes(&self) -> impl DoubleEndedIterator<Item = u8> + '_ {
        self.0.iter().map(|code| code.byte)
    }

    fn has(&self, wanted: u8) -> bool {
        self.bytes().any(|byte| byte == wanted)
    }

    fn places(&self) -> std::ops::Range<usize> {
        0..self.0.len()
    }

    fn any(&self, wanted: impl Fn(usize) -> bool) -> bool {
        self.places().any(wanted)
    }

    fn has_boxes(&self) -> bool {
        self.has(START) || self.has(END)
    }

    /// "A colour holds from the next cell."
    fn colour(&self, at: usize) -> u8 {
        self.bytes().take(at).filter(|&byte| byte <= 7).last().unwrap_or(7)
    }

    /// "1Ch and 1Dh hold at their own."
    fn background(&self, at: usize) -> u8 {
        match (0..=at).rev().find(|&before| matches!(self.0[before].byte, 0x1C | 0x1D)) {
            Some(before) if self.0[before].byte == 0x1D => self.colour(before),
            _ => 0,
        }
    }

    /// Whether a 0Bh stands before the cell and no 0Ah between that and the
    /// cell.
    fn is_boxed(&self, at: usize) -> bool {
        (0..at).any(|start| {
            self.0[start].byte == START && self.0[start + 1..at].iter().all(|code| code.byte != END)
        })
    }

    fn is_hidden(&self, at: usize) -> bool {
        self.has_boxes() && !self.is_boxed(at)
    }

    fn opens(&self, at: usize) -> bool {
        self.0[at].byte == START && !self.is_boxed(at)
    }

    fn closes(&self, at: usize) -> bool {
        self.0[at].byte == END && self.is_boxed(at)
    }

    /// A character other than 20h that no box shows.
    fn has_hidden_text(&self) -> bool {
        self.any(|at| self.is_hidden_text(at))
    }

    fn is_hidden_text(&self, at: usize) -> bool {
        self.is_hidden(at) && self.0[at].character != Character::SPACE
    }

    fn cell(&self, at: usize, double: bool) -> Cell {
        if self.is_hidden(at) {
            return Cell { character: Character::SPACE, background: 0, colour: 7, double };
        }
        let character = self.0[at].character;
        Cell { character, background: self.background(at), colour: self.colour(at), double }
    }

    /// The shown cells.
    fn cells(&self, double: bool) -> Vec<Cell> {
        let cells: Vec<Cell> = self.places().map(|at| self.cell(at, double)).collect();
        let Some(first) = cells.iter().position(|cell| !cell.is_blank_on_black()) else { return vec![] };
        let last = cells.iter().rposition(|cell| !cell.is_blank_on_black()).unwrap();
        cells[first..=last].to_vec()
    }
}

/// A subtitle set: VP, and the text of each block.
struct Subtitle {
    position: usize,
    pieces: Vec<Vec<u8>>,
}

impl Subtitle {
    /// The subtitle sets of an accepted file.
    fn all(blocks: &[u8]) -> Vec<Subtitle> {
        let mut subtitles: Vec<Subtitle> = Vec::new();
        let mut first = true;
        for block in blocks.chunks(128).filter(|block| block[3] != 0xFE) {
            if block[15] == 0 {
                if first {
                    subtitles.push(Subtitle { position: usize::from(block[13]), pieces: Vec::new() });
                }
                let text = block[16..].iter().copied().take_while(|&code| code != 0x8F);
                subtitles.last_mut().unwrap().pieces.push(text.collect());
            }
            first = block[3] == 0xFF;
        }
        subtitles
    }

    fn is_double(&self) -> bool {
        let text = self.pieces.concat();
        text.iter().take_while(|&&code| code != 0x8A).any(|&code| code == 0x0D)
    }

    /// The rows of a text without codes that are not listed.
    fn rows(&self, mode: u64) -> Vec<Row> {
        let mut rows = vec![Row(Vec::new())];
        let mut bytes = self.pieces.concat().into_iter();
        while let Some(byte) = bytes.next() {
            let character = match byte {
                0x8A => {
                    // Of a text that is not refused: the second of a pair.
                    if mode == 2 && self.is_double() {
                        bytes.next();
                    }
                    rows.push(Row(Vec::new()));
                    continue;
                }
                0x00..=0x1F => Some(Character::SPACE),
                0xC1..=0xCF => characters::accented(byte, bytes.next().unwrap()),
                _ => characters::latin(byte).map(Character::plain),
            };
            rows.last_mut().unwrap().0.push(Code { byte, character: character.unwrap() });
        }
        rows
    }
}

/// What stands in the samples, and how often.
#[derive(Default)]
struct Corners(BTreeMap<&'static str, u32>);

impl Corners {
    fn count(&mut self, name: &'static str, here: bool) {
        *self.0.entry(name).or_default() += u32::from(here);
    }

    fn count_all<const N: usize>(&mut self, corners: [(&'static str, bool); N]) {
        corners.into_iter().for_each(|(name, here)| self.count(name, here));
    }

    fn count_row(&mut self, row: &Row) {
        if row.has_boxes() {
            self.count_text(row);
            self.count_box_codes(row);
            self.count_settings(row);
        }
    }

    /// Where hidden text and hidden backgrounds stand.
    fn count_text(&mut self, row: &Row) {
        let length = row.0.len();
        let first = row.places().find(|&at| row.opens(at)).unwrap_or(length);
        let last = row.places().rfind(|&at| row.opens(at)).unwrap_or(length);
        let end = row.places().rfind(|&at| row.closes(at)).unwrap_or(length);
        let text = row.has_hidden_text();
        let background = |at: usize| row.is_hidden(at) && row.background(at) != 0;
        let hidden = |wanted: &dyn Fn(Character) -> bool| {
            row.any(|at| row.is_hidden(at) && wanted(row.0[at].character))
        };
        self.count_all([
            ("text in front of a box", first < length && row.any(|at| at < first && row.is_hidden_text(at))),
            ("text behind a box", end > last && row.any(|at| at > end && row.is_hidden_text(at))),
            ("text between boxes", row.any(|at| first < at && at < last && row.is_hidden_text(at))),
            ("a background between boxes", row.any(|at| first < at && at < last && background(at))),
            ("three boxes", row.places().filter(|&at| row.opens(at)).count() >= 3),
            ("0Ah only, and text", !row.has(START) && text),
            ("0Ah only, and a background", !row.has(START) && row.any(background)),
            ("0Bh only, and text", !row.has(END) && text),
            ("64 cells and hidden text", length == 64 && text),
            ("U+00A0 hidden", hidden(&|character| character == Character::plain('\u{A0}'))),
            (
                "U+00A0 and a mark hidden",
                hidden(&|character| character.first == '\u{A0}' && character.mark.is_some()),
            ),
            (
                "a letter and a mark hidden",
                hidden(&|character| character.first != '\u{A0}' && character.mark.is_some()),
            ),
            ("an accent hidden", row.any(|at| row.is_hidden(at) && (0xC1..=0xCF).contains(&row.0[at].byte))),
        ]);
    }

    /// The cells of the box codes, on black and on a colour.
    fn count_box_codes(&mut self, row: &Row) {
        // The first 0Bh of a row always opens a box.
        let first = row.places().find(|&at| row.opens(at)).unwrap_or(0);
        let boxed = row.has(START);
        let is = |at: usize, byte: u8| row.0[at].byte == byte;
        let on_colour = |at: usize| row.background(at) != 0;
        self.count_all([
            ("0Ah in front of a box", row.any(|at| at < first && is(at, END))),
            ("0Ah behind a box", boxed && row.any(|at| at > first && is(at, END) && row.is_hidden(at))),
            ("0Bh at the row's start", row.opens(0)),
            ("0Bh at the row's end", row.opens(row.0.len() - 1)),
            ("a further 0Bh on a colour", row.any(|at| is(at, START) && row.is_boxed(at) && on_colour(at))),
            ("the opening 0Bh on a colour", row.any(|at| row.opens(at) && on_colour(at))),
            ("the closing 0Ah on a colour", row.any(|at| row.closes(at) && on_colour(at))),
        ]);
    }

    /// Hidden codes that act on what is shown.
    fn count_settings(&mut self, row: &Row) {
        // The last code of these before a cell that is shown is this one, and
        // hidden.
        let set = |codes: &[u8], code: u8, at: usize| {
            let before = (0..at).rfind(|&before| codes.contains(&row.0[before].byte));
            row.is_boxed(at) && before.is_some_and(|b| row.0[b].byte == code && row.is_hidden(b))
        };
        let letter = |at: usize| row.0[at].character != Character::SPACE;
        let colours: Vec<u8> = (0..8).collect();
        self.count_all([
            ("red set while hidden", row.any(|at| letter(at) && set(&colours, 1, at))),
            ("1Ch set while hidden", row.any(|at| letter(at) && set(b"\x1C\x1D", 0x1C, at))),
            ("1Dh set while hidden", row.any(|at| set(b"\x1C\x1D", 0x1D, at))),
            ("0Dh hidden", row.any(|at| row.is_hidden(at) && row.0[at].byte == 0x0D)),
            ("0Dh in a box", row.any(|at| row.is_boxed(at) && row.0[at].byte == 0x0D)),
        ]);
    }

    fn count_subtitle(&mut self, subtitle: &Subtitle, rows: &[Row]) {
        let open = |row: &Row| row.bytes().rfind(|&byte| matches!(byte, START | END)) == Some(START);
        let next = |wanted: &dyn Fn(&Row) -> bool| {
            rows.windows(2).any(|pair| open(&pair[0]) && !pair[1].0.is_empty() && wanted(&pair[1]))
        };
        let beside = rows.iter().any(Row::has_hidden_text) && rows.iter().any(|row| !row.has_boxes());
        self.count_all([
            ("a box to the row's end, none in the next row", next(&|row| !row.has_boxes())),
            ("a box to the row's end, 0Ah only in the next", next(&|row| row.has(END) && !row.has(START))),
            ("a box to the row's end, one in the next", next(&|row| row.has(START))),
            ("hidden text beside a row without boxes", beside),
        ]);
        for pair in subtitle.pieces.windows(2) {
            self.count("a 0Bh ends a block", pair[0].last() == Some(&START));
            self.count("a 0Ah starts a block", pair[1].first() == Some(&END));
        }
    }

    /// The rows of a set that is refused with 14 or 15.
    fn count_refused(&mut self, number: u64, rows: &[Row]) {
        let long = |row: &Row| row.0.len() == 65 && row.has_hidden_text();
        let late = |row: &Row| {
            let at = row.places().rfind(|&at| row.0[at].byte == 0x0D);
            at.is_some_and(|at| row.is_hidden(at) && (0..at).any(|before| row.is_hidden_text(before)))
        };
        self.count("65 cells and hidden text", number == 15 && rows.iter().any(long));
        self.count("0Dh after hidden text", number == 14 && rows.iter().any(late));
    }
}

#[test]
fn teletext_documents_show_their_files() {
    let mut corners = Corners::default();
    let (mut accepted, mut with_boxes, mut with_hidden_text, mut shown) = (0, 0, 0, 0);
    for seed in 0..100_000 {
        let sample = sample(seed);
        if !matches!(sample.file.get(11), Some(b'1' | b'2')) {
            continue;
        }
        let mut out = vec![0; sample.room];
        let answer = convert(&sample.file, sample.mode, &mut out);
        match answer.number {
            0 => {}
            13..=15 => {
                count_refusal(&mut corners, answer, &sample.file, sample.mode);
                continue;
            }
            _ => continue,
        }
        let document = std::str::from_utf8(&out[..answer.length as usize]).unwrap();
        let subtitles = Subtitle::all(&sample.file[1024..]);
        let paragraphs: Vec<&str> = document.lines().filter(|line| line.starts_with("<tt:p ")).collect();
        assert_eq!(paragraphs.len(), subtitles.len());
        let (mut boxes, mut hidden) = (false, false);
        for (paragraph, subtitle) in paragraphs.iter().zip(&subtitles) {
            let rows = subtitle.rows(sample.mode);
            shown += compare(paragraph, subtitle, &rows, seed);
            rows.iter().for_each(|row| corners.count_row(row));
            corners.count_subtitle(subtitle, &rows);
            boxes |= rows.iter().any(Row::has_boxes);
            hidden |= rows.iter().any(Row::has_hidden_text);
        }
        accepted += 1;
        with_boxes += u32::from(boxes);
        with_hidden_text += u32::from(hidden);
    }
    println!("{:#?}", corners.0);
    println!("of {accepted} accepted teletext files {with_boxes} have boxes, {with_hidden_text} hidden text");
    assert!(shown > 500_000);
    assert!(4 * with_hidden_text > accepted);
    // Files without boxes stay frequent, too.
    assert!(4 * (accepted - with_boxes) > accepted);
    assert!(corners.0.values().all(|&count| count >= 50), "{:#?}", corners.0);
}

/// The number of cells that the paragraph shows as its subtitle does.
fn compare(paragraph: &str, subtitle: &Subtitle, rows: &[Row], seed: u64) -> usize {
    let double = subtitle.is_double();
    let lines = lines(paragraph);
    let covered = rows.len() * if double { 2 } else { 1 };
    assert_eq!(lines.len() - rows.len(), 24 - subtitle.position - covered, "seed {seed}");
    let mut shown = 0;
    for (number, line) in lines.iter().enumerate() {
        let cells: Vec<Cell> = line.concat();
        let expected = rows.get(number).map_or(vec![], |row| row.cells(double));
        assert_eq!(cells.len(), expected.len(), "seed {seed}");
        assert!(cells.iter().zip(&expected).all(|(left, right)| left.shows_like(*right)), "seed {seed}");
        assert!(line.windows(2).all(|pair| !may_join(&pair[0], pair[1][0])), "seed {seed}");
        shown += cells.len();
    }
    shown
}

/// Counts what made a file refused, if the set has one block only.
fn count_refusal(corners: &mut Corners, answer: Answer, file: &[u8], mode: u64) {
    let block = &file[1024 + 128 * answer.place as usize..][..128];
    if block[3] != 0xFF {
        return;
    }
    if answer.number == 13 {
        let row = block[16..].split(|&code| matches!(code, 0x8A | 0x8F)).next().unwrap();
        corners.count("a hidden code not listed", has_hidden_bad_control(row));
        return;
    }
    let subtitle = &Subtitle::all(block)[0];
    // In mode 2 a lone row end has no second.
    let mode = if answer.number == 14 { 1 } else { mode };
    corners.count_refused(answer.number, &subtitle.rows(mode));
}

/// A control that is not listed in a row with boxes, and not in a box.
fn has_hidden_bad_control(row: &[u8]) -> bool {
    let is_box = |code: &&u8| matches!(**code, START | END);
    let listed = |code: u8| matches!(code, 0x00..=0x07 | END | START | 0x0D | 0x1C | 0x1D);
    let bad = row.iter().position(|&code| code < 0x20 && !listed(code));
    let Some(at) = bad else { return false };
    row.iter().rfind(is_box).is_some() && row[..at].iter().rfind(is_box) != Some(&START)
}

/// The lines of a paragraph, each a list of spans.
fn lines(paragraph: &str) -> Vec<Vec<Vec<Cell>>> {
    let (_, inside) = paragraph.split_once('>').unwrap();
    let inside = inside.strip_suffix("</tt:p>").unwrap();
    inside
        .split("<tt:br/>")
        .map(|line| line.split("<tt:span style=\"s").skip(1).map(span).collect())
        .collect()
}

fn span(text: &str) -> Vec<Cell> {
    let (look, rest) = text.split_once("\">").unwrap();
    let text = rest.strip_suffix("</tt:span>").unwrap();
    let look: u8 = look.parse().unwrap();
    // Neither italics nor underline in teletext.
    assert!(look < 128);
    let (background, colour, double) = (look >> 3 & 7, look & 7, look & 64 != 0);
    let characters = reader::cells(text).expect("a span of the profile").into_iter();
    let cells: Vec<Cell> =
        characters.map(|character| Cell { character, background, colour, double }).collect();
    // "A span of blanks only counts as white."
    assert!(colour == 7 || !cells.iter().all(|cell| cell.is_blank()));
    cells
}

/// Whether a span could have taken the first cell of the next.
fn may_join(span: &[Cell], next: Cell) -> bool {
    let ink = span.iter().find(|cell| !cell.is_blank());
    let same_ink = ink.is_none_or(|cell| cell.colour == next.colour);
    span[0].background == next.background && (next.is_blank() || same_ink)
}
