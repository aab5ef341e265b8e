//! A set's text to rows of spans.

use crate::characters::{accented, is_accent, latin, Character};
use crate::display::Display;
use crate::Reason;

/// "8Ah ends a row"
const ROW_END: u8 = 0x8A;

/// "0Ah and 0Bh (box)": 0Ah is "the end box".
const END_BOX: u8 = 0x0A;
const START_BOX: u8 = 0x0B;

/// "0Dh (double height)"
const DOUBLE_HEIGHT: u8 = 0x0D;

/// "1Ch (black background)"
const BLACK_BACKGROUND: u8 = 0x1C;

/// "1Dh (background becomes the current colour)"
const NEW_BACKGROUND: u8 = 0x1D;

/// "00h to 07h (colour black, red, green, yellow, blue, magenta, cyan,
/// white)": the code is the number of the colour, "Colour bits from the lowest
/// are red, green, blue."
const BLACK: u8 = 0;
const WHITE: u8 = 7;

/// "A row has at most 64 cells, controls included."
const MOST_CELLS: usize = 64;

/// "a break mode of 1 or 2"
#[derive(PartialEq, Eq, Debug, Clone, Copy)]
pub enum BreakMode {
    One,
    Two,
}

impl BreakMode {
    /// Refusal 1: "break mode not 1 or 2".
    pub fn from_number(mode: u64) -> Option<BreakMode> {
        match mode {
            1 => Some(BreakMode::One),
            2 => Some(BreakMode::Two),
            _ => None,
        }
    }
}

/// "A look is a number of packed bits, most significant first: double height
/// 1 bit, background 3, colour 3." "A look gains two bits in front, italics then
/// underline".
#[derive(PartialEq, Eq, Debug, Clone, Copy)]
pub struct Look(u16);

impl Look {
    /// The number of different looks.
    pub const COUNT: usize = 512;

    pub fn pack(italics: bool, underline: bool, double: bool, background: u8, colour: u8) -> Look {
        let flags = u16::from(italics) << 8 | u16::from(underline) << 7 | u16::from(double) << 6;
        Look(flags | u16::from(background) << 3 | u16::from(colour))
    }

    pub fn number(self) -> u16 {
        self.0
    }

    pub fn italics(self) -> bool {
        self.0 >> 8 & 1 == 1
    }

    pub fn underline(self) -> bool {
        self.0 >> 7 & 1 == 1
    }

    pub fn double(self) -> bool {
        self.0 >> 6 & 1 == 1
    }

    pub fn background(self) -> u8 {
        (self.0 >> 3 & 7) as u8
    }

    pub fn colour(self) -> u8 {
        (self.0 & 7) as u8
    }

    /// All looks, ascending.
    pub fn all() -> impl Iterator<Item = Look> {
        (0..Look::COUNT as u16).map(Look)
    }
}

/// Characters shown next to one another in one look.
#[derive(PartialEq, Eq, Debug, Clone)]
pub struct Span {
    pub look: Look,
    pub text: String,
}

/// The text of a subtitle, read.
#[derive(PartialEq, Eq, Debug, Clone)]
pub struct Rows {
    /// The spans of each row.
    pub rows: Vec<Vec<Span>>,
    /// The number of filler lines below.
    pub filler: usize,
}

/// "when a set closes, its whole text for 13, then 14, then 15"
pub fn read(text: &[u8], display: Display, mode: BreakMode, vertical_position: u8) -> Result<Rows, Reason> {
    let codes = read_codes(text, display).ok_or(Reason::Code)?;
    // In open subtitles "00h to 1Fh ... are not allowed", so there is no 0Dh:
    // "height single, and either break mode reads as 1".
    let double = is_double(&codes);
    if !heights_are_good(&codes, double) || !breaks_are_good(&codes, double, mode) {
        return Err(Reason::HeightOrBreak);
    }
    let rows = split_rows(&codes, double, mode);
    if rows.iter().any(|row| cell_count(row) > MOST_CELLS) {
        return Err(Reason::RowsDoNotFit);
    }
    let covered = lines_covered(rows.len(), double);
    let filler = display.filler_lines(vertical_position, covered).ok_or(Reason::RowsDoNotFit)?;
    let mut pen = Pen::default();
    let rows = rows.iter().map(|row| spans(shown(&cells(row, &mut pen)), double)).collect();
    Ok(Rows { rows, filler })
}

/// What one code, or an accent with the code after it, stands for.
#[derive(PartialEq, Eq, Debug, Clone, Copy)]
enum Code {
    /// A code below 20h: one blank cell.
    Control(u8),
    /// 80h to 83h: no cell.
    Switch(Switch),
    /// A code of 20h or above, or an accent with a letter or 20h: one cell.
    Character(Character),
    /// 8Ah: no cell.
    RowEnd,
}

/// "Codes 80h and 81h switch italics on and off, 82h and 83h underline"
#[derive(PartialEq, Eq, Debug, Clone, Copy)]
enum Switch {
    Italics(bool),
    Underline(bool),
}

/// Refusal 13: "Everything not named here or below is refused with 13."
fn read_codes(text: &[u8], display: Display) -> Option<Vec<Code>> {
    let mut codes = Vec::with_capacity(text.len());
    let mut bytes = text.iter().copied();
    while let Some(byte) = bytes.next() {
        let code = if byte == ROW_END {
            Code::RowEnd
        } else if let Some(code) = code_of_display(byte, display) {
            code
        } else if is_accent(byte) {
            // "13 only before what is no letter and no 20h, or before nothing".
            Code::Character(accented(byte, bytes.next()?)?)
        } else {
            Code::Character(Character::plain(latin(byte)?))
        };
        codes.push(code);
    }
    Some(codes)
}

/// The codes that one kind of file has and the other has not: the controls of
/// teletext, and the switches of open subtitles.
fn code_of_display(byte: u8, display: Display) -> Option<Code> {
    match display {
        Display::Teletext => is_allowed_control(byte).then_some(Code::Control(byte)),
        Display::Open { .. } => switch(byte).map(Code::Switch),
    }
}

fn switch(byte: u8) -> Option<Switch> {
    match byte {
        0x80 => Some(Switch::Italics(true)),
        0x81 => Some(Switch::Italics(false)),
        0x82 => Some(Switch::Underline(true)),
        0x83 => Some(Switch::Underline(false)),
        _ => None,
    }
}

/// "Controls allowed: 00h to 07h, 0Ah and 0Bh (box), 0Dh, 1Ch, 1Dh."
fn is_allowed_control(byte: u8) -> bool {
    matches!(byte, 0x00..=0x07 | END_BOX | START_BOX | DOUBLE_HEIGHT | BLACK_BACKGROUND | NEW_BACKGROUND)
}

/// "8Ah ends a row; a text with n row ends has n + 1 rows, empty ones
/// counted."
fn rows_by_single_ends(codes: &[Code]) -> impl Iterator<Item = &[Code]> {
    codes.split(|&code| code == Code::RowEnd)
}

/// "A subtitle is double height if 0Dh stands in its first row; all its rows
/// are then double."
fn is_double(codes: &[Code]) -> bool {
    rows_by_single_ends(codes).next().is_some_and(has_double_height)
}

fn has_double_height(row: &[Code]) -> bool {
    row.contains(&Code::Control(DOUBLE_HEIGHT))
}

/// "Refused with 14: 0Dh after a code of 20h or above in its row; 0Dh in a
/// later row of a single-height subtitle"
fn heights_are_good(codes: &[Code], double: bool) -> bool {
    rows_by_single_ends(codes).all(|row| {
        if double {
            !double_height_after_character(row)
        } else {
            !has_double_height(row)
        }
    })
}

fn double_height_after_character(row: &[Code]) -> bool {
    row.iter()
        .skip_while(|code| matches!(code, Code::Control(_)))
        .any(|&code| code == Code::Control(DOUBLE_HEIGHT))
}

/// Refused with 14: "in break mode 2 and double height, any maximal run of 8Ah
/// of odd length"
fn breaks_are_good(codes: &[Code], double: bool, mode: BreakMode) -> bool {
    if !each_pair_ends_one_row(double, mode) {
        return true;
    }
    codes
        .chunk_by(|left, right| (*left == Code::RowEnd) == (*right == Code::RowEnd))
        .filter(|run| run[0] == Code::RowEnd)
        .all(|run| run.len() % 2 == 0)
}

/// "in break mode 2 and double height ... (each pair there ends one row)"
fn each_pair_ends_one_row(double: bool, mode: BreakMode) -> bool {
    double && mode == BreakMode::Two
}

/// The rows of a text whose breaks are good. Where each pair ends one row all
/// runs are even, so of the pieces between single 8Ah the second, fourth and so
/// on are the empty insides of pairs, and the others are the rows.
fn split_rows(codes: &[Code], double: bool, mode: BreakMode) -> Vec<&[Code]> {
    let step = if each_pair_ends_one_row(double, mode) { 2 } else { 1 };
    rows_by_single_ends(codes).step_by(step).collect()
}

/// The cells of a row: switches "take no cell".
fn cell_count(row: &[Code]) -> usize {
    row.iter().filter(|code| !matches!(code, Code::Switch(_))).count()
}

/// "a double row covers two lines"
fn lines_covered(rows: usize, double: bool) -> usize {
    if double {
        2 * rows
    } else {
        rows
    }
}

/// One cell of a row.
#[derive(Debug, Clone, Copy)]
struct Cell {
    character: Character,
    blank: bool,
    colour: u8,
    background: u8,
    italics: bool,
    underline: bool,
}

impl Cell {
    /// "Hidden cells become blanks on black".
    const HIDDEN: Cell = Cell {
        character: Character::SPACE,
        blank: true,
        colour: WHITE,
        background: BLACK,
        italics: false,
        underline: false,
    };

    fn is_blank_on_black(&self) -> bool {
        self.blank && self.background == BLACK
    }

    /// What all cells of a span have in common.
    fn ground(&self) -> (u8, bool) {
        (self.background, self.underline)
    }

    /// What the cells of a span have in common "blanks apart": "a blank leaves
    /// italics and colour free".
    fn ink(&self) -> Option<(u8, bool)> {
        (!self.blank).then_some((self.colour, self.italics))
    }
}

/// What the switches have set. They "hold across rows until switched or the
/// subtitle ends"; a subtitle starts plain.
#[derive(Default)]
struct Pen {
    italics: bool,
    underline: bool,
}

impl Pen {
    fn set(&mut self, switch: Switch) {
        match switch {
            Switch::Italics(on) => self.italics = on,
            Switch::Underline(on) => self.underline = on,
        }
    }
}

/// The cells of a row; the pen comes from the row before and goes to the next.
fn cells(row: &[Code], pen: &mut Pen) -> Vec<Cell> {
    // "Each row starts white on black."
    let mut colour = WHITE;
    let mut background = BLACK;
    let mut cells = Vec::with_capacity(row.len());
    for &code in row {
        // "1Ch and 1Dh hold at their own" cell.
        match code {
            Code::Control(BLACK_BACKGROUND) => background = BLACK,
            Code::Control(NEW_BACKGROUND) => background = colour,
            Code::Switch(switch) => {
                pen.set(switch);
                continue;
            }
            _ => {}
        }
        let character = character_of(code);
        let Pen { italics, underline } = *pen;
        // "A blank is the cell of 20h or of a control; U+00A0 is none", and none
        // with a mark. Only 20h reads as U+0020. "An underlined space is no blank."
        let blank = character == Character::SPACE && !underline;
        cells.push(Cell { character, blank, colour, background, italics, underline });
        // "A colour holds from the next cell."
        if let Code::Control(new @ 0x00..=0x07) = code {
            colour = new;
        }
    }
    hide_outside_boxes(row, &mut cells);
    cells
}

/// "in a teletext row that holds any 0Ah or 0Bh, a cell is shown only after a
/// 0Bh, up to and with the next 0Ah of that row, or to its end; a further 0Bh
/// inside changes nothing." Hidden colours and backgrounds have acted already.
fn hide_outside_boxes(row: &[Code], cells: &mut [Cell]) {
    if !has_boxes(row) {
        return;
    }
    let mut inside = false;
    // Box codes stand in teletext only, where each code has its cell.
    for (&code, cell) in row.iter().zip(cells) {
        if !inside {
            *cell = Cell::HIDDEN;
        }
        // Both hold from the next cell: what opens a box is not in it, what
        // ends it is.
        match code {
            Code::Control(START_BOX) => inside = true,
            Code::Control(END_BOX) => inside = false,
            _ => {}
        }
    }
}

fn has_boxes(row: &[Code]) -> bool {
    row.contains(&Code::Control(END_BOX)) || row.contains(&Code::Control(START_BOX))
}

/// "Each [control] yields one blank cell."
fn character_of(code: Code) -> Character {
    match code {
        Code::Character(character) => character,
        Code::Control(_) | Code::Switch(_) | Code::RowEnd => Character::SPACE,
    }
}

/// "Shown cells: the row without its leading and trailing blanks on black."
fn shown(cells: &[Cell]) -> &[Cell] {
    let Some(first) = cells.iter().position(|cell| !cell.is_blank_on_black()) else {
        return &[];
    };
    let last = cells.iter().rposition(|cell| !cell.is_blank_on_black()).unwrap_or(first);
    &cells[first..=last]
}

/// "spans are taken from the left, each as long as it can be"
fn spans(shown: &[Cell], double: bool) -> Vec<Span> {
    let mut spans = Vec::new();
    let mut rest = shown;
    while !rest.is_empty() {
        let (covered, after) = rest.split_at(longest_span(rest));
        spans.push(span(covered, double));
        rest = after;
    }
    spans
}

/// "A span covers shown cells next to one another with equal background and,
/// blanks apart, one colour"; "one underline throughout" and, blanks apart, one
/// sort of letters, italic or upright. At least one cell.
fn longest_span(cells: &[Cell]) -> usize {
    let ground = cells[0].ground();
    let mut ink = None;
    for (length, cell) in cells.iter().enumerate() {
        if cell.ground() != ground {
            return length;
        }
        let Some(own) = cell.ink() else { continue };
        if ink.is_some_and(|ink| ink != own) {
            return length;
        }
        ink = Some(own);
    }
    cells.len()
}

/// The span of cells that go together; "a span of blanks only is white and
/// upright".
fn span(cells: &[Cell], double: bool) -> Span {
    let (background, underline) = cells[0].ground();
    let (colour, italics) = cells.iter().find_map(Cell::ink).unwrap_or((WHITE, false));
    Span { look: Look::pack(italics, underline, double, background, colour), text: text_of(cells) }
}

/// The code points of the cells: of each its character, then its mark.
fn text_of(cells: &[Cell]) -> String {
    let mut text = String::with_capacity(cells.len());
    for Cell { character, .. } in cells {
        text.push(character.first);
        text.extend(character.mark);
    }
    text
}

#[cfg(test)]
mod tests {
    use super::*;

    /// The look and the text of each span.
    type PlainRow = Vec<(u16, String)>;

    /// The rows and the number of filler lines.
    fn rows(text: &[u8], mode: BreakMode, position: u8) -> Result<(Vec<PlainRow>, usize), Reason> {
        rows_of(Display::Teletext, text, mode, position)
    }

    fn rows_of(
        display: Display,
        text: &[u8],
        mode: BreakMode,
        position: u8,
    ) -> Result<(Vec<PlainRow>, usize), Reason> {
        let read = read(text, display, mode, position)?;
        let rows = read.rows.into_iter();
        let plain = rows.map(|row| row.into_iter().map(|s| (s.look.number(), s.text)).collect());
        Ok((plain.collect(), read.filler))
    }

    fn one_row(text: &[u8]) -> PlainRow {
        let (mut rows, _) = rows(text, BreakMode::One, 1).unwrap();
        assert_eq!(rows.len(), 1);
        rows.remove(0)
    }

    /// The rows of an open subtitle at the top of a screen of 99 rows.
    fn open_rows(text: &[u8]) -> Vec<PlainRow> {
        let read = |mode| rows_of(Display::Open { rows: 99 }, text, mode, 0).unwrap();
        let (rows, filler) = read(BreakMode::One);
        assert_eq!(filler, 99 - rows.len());
        // "either break mode reads as 1"
        assert_eq!(read(BreakMode::Two).0, rows);
        rows
    }

    fn one_open_row(text: &[u8]) -> PlainRow {
        let mut rows = open_rows(text);
        assert_eq!(rows.len(), 1);
        rows.remove(0)
    }

    #[test]
    fn looks_pack_and_unpack() {
        for look in Look::all() {
            let (background, colour) = (look.background(), look.colour());
            assert_eq!(Look::pack(look.italics(), look.underline(), look.double(), background, colour), look);
        }
        assert_eq!(Look::pack(false, false, true, BLACK, 3).number(), 67);
        assert_eq!(Look::pack(false, false, false, 1, WHITE).number(), 15);
        assert_eq!(Look::pack(false, true, false, BLACK, WHITE).number(), 135);
        assert_eq!(Look::pack(true, false, false, BLACK, WHITE).number(), 263);
        assert_eq!(Look::pack(true, true, true, 7, 7).number(), 511);
        assert_eq!(Look::all().count(), Look::COUNT);
    }

    #[test]
    fn switches_take_no_cell() {
        assert_eq!(one_open_row(b"\x80A\x81"), vec![(263, "A".into())]);
        assert_eq!(one_open_row(b"A\x82B\x83C"), vec![(7, "A".into()), (135, "B".into()), (7, "C".into())]);
        assert_eq!(one_open_row(b"\x80\x82A\x81B"), vec![(391, "A".into()), (135, "B".into())]);
        // Nothing changes where nothing stands between.
        assert_eq!(one_open_row(b"A\x80\x82\x83\x81B\x81\x83C"), vec![(7, "ABC".into())]);
        assert_eq!(one_open_row(b"\x80\x81\x82\x83"), vec![]);
    }

    #[test]
    fn switches_hold_across_rows() {
        let rows = open_rows(b"A\x80\x8AB\x8A\x8A\x81C\x82\x8AD");
        let row = |look, text: &str| vec![(look, text.to_string())];
        assert_eq!(rows, vec![row(7, "A"), row(263, "B"), vec![], row(7, "C"), row(135, "D")]);
    }

    #[test]
    fn underlined_spaces() {
        // They are not trimmed; plain ones are, also in italics.
        assert_eq!(one_open_row(b" \x82 A \x83 "), vec![(135, " A ".into())]);
        assert_eq!(one_open_row(b"\x80 A "), vec![(263, "A".into())]);
        assert_eq!(one_open_row(b"\x80 "), vec![]);
        assert_eq!(one_open_row(b"\x82 "), vec![(135, " ".into())]);
        // Italics count on an underlined space.
        assert_eq!(
            one_open_row(b"\x82A\x80 \x81B"),
            vec![(135, "A".into()), (391, " ".into()), (135, "B".into())]
        );
        // A blank leaves italics free: to the left of the first letter, too.
        assert_eq!(one_open_row(b"A\x80 \x81B"), vec![(7, "A B".into())]);
        assert_eq!(one_open_row(b"A \x80 B"), vec![(7, "A  ".into()), (263, "B".into())]);
        // Between underlined words a span of blanks only: white and upright.
        assert_eq!(
            one_open_row(b"\x80\x82A\x83 \x82B"),
            vec![(391, "A".into()), (7, " ".into()), (391, "B".into())]
        );
        assert_eq!(one_open_row(b"\x82A\x83 \x80 B"), vec![(135, "A".into()), (263, "  B".into())]);
    }

    #[test]
    fn codes_of_open_subtitles() {
        let open = Display::Open { rows: 99 };
        let err = |display, text: &[u8]| rows_of(display, text, BreakMode::One, 1).unwrap_err();
        for code in (0x00..=0x1F).chain([0x7F, 0x84, 0x85]).chain(0x86..=0x89).chain(0x8B..=0x9F) {
            assert_eq!(err(open, &[code]), Reason::Code, "{code:02X}");
        }
        for code in 0x80..=0x85 {
            assert_eq!(err(Display::Teletext, &[code]), Reason::Code, "{code:02X}");
            assert_eq!(err(open, &[0xC2, code, b'e']), Reason::Code, "{code:02X}");
        }
        assert_eq!(one_open_row(b"\x80\xC2e"), vec![(263, "\u{E9}".into())]);
    }

    #[test]
    fn cells_and_rows_of_open_subtitles() {
        let read = |rows, text: &[u8], position| {
            rows_of(Display::Open { rows }, text, BreakMode::Two, position).map(|(_, filler)| filler)
        };
        assert_eq!(read(1, &b"\x80A\x81".repeat(64), 0), Ok(0));
        assert_eq!(read(1, &b"\x80A\x81".repeat(65), 0), Err(Reason::RowsDoNotFit));
        assert_eq!(read(11, b"A\x8AB", 9), Ok(0));
        assert_eq!(read(11, b"A\x8AB", 10), Err(Reason::RowsDoNotFit));
        assert_eq!(read(99, &[0x8A; 98], 0), Ok(0));
        assert_eq!(read(99, &[0x8A; 99], 0), Err(Reason::RowsDoNotFit));
    }

    #[test]
    fn blanks_of_all_sorts() {
        assert_eq!(one_row(b""), vec![]);
        assert_eq!(one_row(b" \x01\x0A\x0B \x1C"), vec![]);
        // Leading and trailing blanks on black go; those on red stay.
        assert_eq!(one_row(b" \x01\x1D "), vec![(15, "  ".into())]);
        assert_eq!(one_row(b"\x01\x1DA\x1C "), vec![(9, " A".into())]);
        // 1Ch holds at its own cell, 1Dh too.
        assert_eq!(one_row(b"\x01\x1DA\x1CB"), vec![(9, " A".into()), (1, " B".into())]);
        // A black gap between two backgrounds counts as white.
        assert_eq!(
            one_row(b"\x01\x1D\x1C\x04\x1D"),
            vec![(15, " ".into()), (7, "  ".into()), (39, " ".into())]
        );
        // U+00A0 is no blank: it is not trimmed and has a colour.
        assert_eq!(one_row(b"\xA0"), vec![(7, "\u{A0}".into())]);
        assert_eq!(
            one_row(b"A\x01\xA0\x07B"),
            vec![(7, "A ".into()), (1, "\u{A0} ".into()), (7, "B".into())]
        );
        // 1Dh with black, 00h as colour.
        assert_eq!(one_row(b"\x00\x1DA"), vec![(0, "A".into())]);
    }

    #[test]
    fn boxes() {
        assert_eq!(one_row(b"x\x0BA\x0Ax"), vec![(7, "A".into())]);
        assert_eq!(one_row(b"A\x0A"), vec![]);
        assert_eq!(one_row(b"x\x0BA"), vec![(7, "A".into())]);
        // On red: the cell of the further 0Bh and that of the 0Ah are shown.
        assert_eq!(one_row(b"\x01\x1D\x0BA\x0A\x0A"), vec![(9, "A ".into())]);
        assert_eq!(one_row(b"\x01\x1D\x0B\x0BA\x0A\x0A"), vec![(9, " A ".into())]);
        // Between two boxes: on black, and a colour is set there.
        assert_eq!(
            one_row(b"\x01\x1D\x0BA\x0Ax\x02\x0BB"),
            vec![(9, "A ".into()), (7, "   ".into()), (10, "B".into())]
        );
    }

    #[test]
    fn every_row_starts_white_on_black() {
        let (rows, filler) = rows(b"\x01\x1DA\x8AB", BreakMode::Two, 20).unwrap();
        assert_eq!(rows, vec![vec![(9, " A".into())], vec![(7, "B".into())]]);
        assert_eq!(filler, 2);
    }

    #[test]
    fn heights_and_breaks() {
        use BreakMode::{One, Two};
        let err = |text: &[u8], mode| rows(text, mode, 1).unwrap_err();
        let count = |text: &[u8], mode| rows(text, mode, 1).unwrap().0.len();
        assert_eq!(err(b"A\x0D", One), Reason::HeightOrBreak);
        assert_eq!(err(b" \x0D", One), Reason::HeightOrBreak);
        assert_eq!(err(b"\x8A\x0D", One), Reason::HeightOrBreak);
        assert_eq!(err(b"\x0DA\x8AB\x0D", One), Reason::HeightOrBreak);
        assert_eq!(count(b"\x0D\x0D\x07\x0DA\x8A\x0B\x0DB\x8AC", One), 3);
        assert_eq!(count(b"\x0D\x8A\x8A", One), 3);
        assert_eq!(count(b"\x0D\x8A\x8A", Two), 2);
        assert_eq!(count(b"\x0D\x8A\x8A\x8A\x8AB\x8A\x8A\x0DC", Two), 4);
        assert_eq!(err(b"\x0D\x8A\x8A\x8A", Two), Reason::HeightOrBreak);
        assert_eq!(err(b"\x0D\x8A\x8AA\x8A", Two), Reason::HeightOrBreak);
        assert_eq!(count(b"A\x8A\x8A\x8AB", Two), 4);
        assert_eq!(err(b"\x8A\x8A\x0D", Two), Reason::HeightOrBreak);
    }

    #[test]
    fn thirteen_before_fourteen_before_fifteen() {
        let err = |text: &[u8]| rows(text, BreakMode::One, 1).unwrap_err();
        let mut text = vec![b'A'; 65];
        assert_eq!(err(&text), Reason::RowsDoNotFit);
        text.push(0x0D);
        assert_eq!(err(&text), Reason::HeightOrBreak);
        text.push(0x7F);
        assert_eq!(err(&text), Reason::Code);
    }

    #[test]
    fn accents() {
        let err = |text: &[u8]| rows(text, BreakMode::One, 1).unwrap_err();
        assert_eq!(one_row(b"\xC2e"), vec![(7, "\u{E9}".into())]);
        assert_eq!(one_row(b"\xC2X"), vec![(7, "X\u{301}".into())]);
        assert_eq!(one_row(b"\xC2 "), vec![(7, "\u{A0}\u{301}".into())]);
        for bad in [
            &b"\xC2"[..],
            b"\xC2\xA0",
            b"\xC2\x8A",
            b"\xC2\xC2e",
            b"\xC2\x01e",
            b"\xC21",
            b"\xC9a",
            b"\xC9 ",
            b"\xCCa",
            b"\xCC ",
            b"\xC0a",
            b"\xC0 ",
        ] {
            assert_eq!(err(bad), Reason::Code);
        }
    }

    /// U+00A0 with a mark: not trimmed, in a colour, and one cell.
    #[test]
    fn marks_without_a_letter() {
        assert_eq!(one_row(b"  \xC2  "), vec![(7, "\u{A0}\u{301}".into())]);
        assert_eq!(
            one_row(b"A\x01\xCE \x07B"),
            vec![(7, "A ".into()), (1, "\u{A0}\u{328} ".into()), (7, "B".into())]
        );
        assert_eq!(one_row(b"\xC2 \x0BA\x0A\xC2 "), vec![(7, "A".into())]);
        assert_eq!(one_open_row(b"\x82\xC2 \x83 "), vec![(135, "\u{A0}\u{301}".into())]);
        assert_eq!(one_row(&b"\xC2 ".repeat(64)), vec![(7, "\u{A0}\u{301}".repeat(64))]);
        assert_eq!(rows(&b"\xC2 ".repeat(65), BreakMode::One, 1), Err(Reason::RowsDoNotFit));
    }
}
