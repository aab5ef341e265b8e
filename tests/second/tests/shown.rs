//! Documents of open subtitles read back: they show the rows of their files,
//! and their spans are as long as they can be.

use second::characters::{self, Character};
use second::make::sample;
use second::{convert, reader};

/// A cell as a reader of request 1 sees it.
#[derive(PartialEq, Eq, Debug, Clone, Copy)]
struct Cell {
    character: Character,
    italics: bool,
    underline: bool,
}

impl Cell {
    /// "An underlined space is no blank", nor is one with a mark.
    fn is_blank(self) -> bool {
        self.character == Character::SPACE && !self.underline
    }

    /// "equal underline at every cell and equal italics wherever it asks for
    /// equal colour", blanks apart.
    fn shows_like(self, other: Cell) -> bool {
        let plain = |cell: Cell| Cell { italics: cell.italics && !cell.is_blank(), ..cell };
        plain(self) == plain(other)
    }
}

#[test]
fn open_documents_show_their_files() {
    let mut shown = 0;
    for seed in 0..60_000 {
        let sample = sample(seed);
        if sample.file.get(11) != Some(&b'0') {
            continue;
        }
        let mut out = vec![0; sample.room];
        let answer = convert(&sample.file, sample.mode, &mut out);
        if answer.number != 0 {
            continue;
        }
        let document = std::str::from_utf8(&out[..answer.length as usize]).unwrap();
        let paragraphs: Vec<&str> = document.lines().filter(|line| line.starts_with("<tt:p ")).collect();
        let rows_of_screen: usize =
            std::str::from_utf8(&sample.file[253..=254]).unwrap().parse().expect("accepted");
        let subtitles = subtitles(&sample.file[1024..]);
        assert_eq!(paragraphs.len(), subtitles.len());
        for (paragraph, (position, text)) in paragraphs.iter().zip(&subtitles) {
            let expected = rows(text);
            let lines = lines(paragraph);
            // The first row at VP, all of them and the fillers down to MNR.
            assert_eq!(lines.len(), rows_of_screen - position, "seed {seed}");
            for (number, line) in lines.iter().enumerate() {
                let cells: Vec<Cell> = line.concat();
                let expected = expected.get(number).map_or(&[][..], |row| trimmed(row));
                assert_eq!(cells.len(), expected.len(), "seed {seed}");
                assert!(
                    cells.iter().zip(expected).all(|(left, right)| left.shows_like(*right)),
                    "seed {seed}"
                );
                assert!(line.windows(2).all(|pair| !may_join(&pair[0], pair[1][0])), "seed {seed}");
                shown += cells.len();
            }
        }
    }
    assert!(shown > 100_000);
}

/// VP and text of each subtitle set.
fn subtitles(blocks: &[u8]) -> Vec<(usize, Vec<u8>)> {
    let mut subtitles = Vec::new();
    let mut first = true;
    for block in blocks.chunks(128).filter(|block| block[3] != 0xFE) {
        if block[15] == 0 {
            if first {
                subtitles.push((usize::from(block[13]), Vec::new()));
            }
            let text = block[16..].iter().copied().take_while(|&code| code != 0x8F);
            subtitles.last_mut().unwrap().1.extend(text);
        }
        first = block[3] == 0xFF;
    }
    subtitles
}

/// The cells of each row, byte after byte.
fn rows(text: &[u8]) -> Vec<Vec<Cell>> {
    let mut rows = vec![Vec::new()];
    let (mut italics, mut underline) = (false, false);
    let mut bytes = text.iter().copied();
    while let Some(byte) = bytes.next() {
        let character = match byte {
            0x8A => {
                rows.push(Vec::new());
                continue;
            }
            0x80 | 0x81 => {
                italics = byte == 0x80;
                continue;
            }
            0x82 | 0x83 => {
                underline = byte == 0x82;
                continue;
            }
            0xC1..=0xCF => characters::accented(byte, bytes.next().unwrap()),
            _ => characters::latin(byte).map(Character::plain),
        };
        rows.last_mut().unwrap().push(Cell { character: character.unwrap(), italics, underline });
    }
    rows
}

fn trimmed(row: &[Cell]) -> &[Cell] {
    let Some(first) = row.iter().position(|cell| !cell.is_blank()) else { return &[] };
    let last = row.iter().rposition(|cell| !cell.is_blank()).unwrap();
    &row[first..=last]
}

/// The lines of a paragraph, each a list of spans.
fn lines(paragraph: &str) -> Vec<Vec<Vec<Cell>>> {
    let (_, inside) = paragraph.split_once('>').unwrap();
    let inside = inside.strip_suffix("</tt:p>").unwrap();
    inside
        .split("<tt:br/>")
        .map(|line| line.split("<tt:span style=\"s").skip(1).map(span).collect())
        .collect()
}

fn span(text: &str) -> Vec<Cell> {
    let (look, rest) = text.split_once("\">").unwrap();
    let text = rest.strip_suffix("</tt:span>").unwrap();
    let look: u32 = look.parse().unwrap();
    // White on black, single height.
    assert_eq!(look & 127, 7);
    let (italics, underline) = (look & 256 != 0, look & 128 != 0);
    let characters = reader::cells(text).expect("a span of the profile").into_iter();
    let cells: Vec<Cell> = characters.map(|character| Cell { character, italics, underline }).collect();
    // "a span of blanks only is white and upright"
    assert!(!italics || !cells.iter().all(|cell| cell.is_blank()));
    cells
}

/// Whether a span could have taken the first cell of the next.
fn may_join(span: &[Cell], next: Cell) -> bool {
    let ink = span.iter().find(|cell| !cell.is_blank());
    let same_ink = ink.is_none_or(|cell| cell.italics == next.italics);
    span[0].underline == next.underline && (next.is_blank() || same_ink)
}
