//! What holds of every sample, and how often each answer comes. The stored
//! samples.

use second::characters::{self, Character};
use second::make::{sample, Sample};
use second::{convert, Answer};
use std::collections::{BTreeMap, BTreeSet};
use std::process::Command;

const MARK: u8 = 0xA5;

/// The answer, after a look at the whole buffer.
fn checked(sample: &Sample) -> Answer {
    let mut out = vec![MARK; sample.room + 64];
    let answer = convert(&sample.file, sample.mode, &mut out[..sample.room]);
    let counts = [answer.subtitles, answer.comments, answer.continuations, answer.users];
    assert!(answer.number <= 16);
    if answer.number != 0 {
        // "A refusal leaves the output buffer untouched"
        assert!(out.iter().all(|&byte| byte == MARK));
        assert_eq!(counts, [0; 4]);
        assert_eq!(answer.spans, 0);
        assert_eq!(answer.length > sample.room as u64, answer.number == 16);
        assert_eq!(answer.length != 0, answer.number == 16);
    } else {
        let (document, after) = out.split_at(answer.length as usize);
        assert!(after.iter().all(|&byte| byte == MARK));
        let document = std::str::from_utf8(document).unwrap();
        // "The first four counts add up to TNB."
        assert_eq!(counts.iter().sum::<u64>() as usize, (sample.file.len() - 1024) / 128);
        assert_eq!(document.matches("<tt:p ").count() as u64, answer.subtitles);
        assert_eq!(document.matches("<tt:span ").count() as u64, answer.spans);
        // "A style is listed exactly if a span uses it, once, ascending"
        let listed: Vec<&str> = names(document, "<tt:style xml:id=\"s");
        let mut used: Vec<&str> = names(document, "<tt:span style=\"s");
        used.sort_unstable();
        used.dedup();
        assert_eq!(listed, used);
    }
    if answer.number <= 6 || answer.number == 16 {
        assert_eq!(answer.place, 0);
    } else {
        assert!(answer.place <= ((sample.file.len() - 1024) / 128) as u64);
    }
    answer
}

/// The three digits after each place where `start` stands.
fn names<'a>(document: &'a str, start: &str) -> Vec<&'a str> {
    document.match_indices(start).map(|(at, _)| &document[at + start.len()..][..3]).collect()
}

/// What DSC says, if the file has one.
#[derive(PartialEq, Eq, PartialOrd, Ord, Debug, Clone, Copy)]
enum Kind {
    Teletext,
    Open,
    Other,
}

fn kind(sample: &Sample) -> Kind {
    match sample.file.get(11) {
        Some(b'1' | b'2') => Kind::Teletext,
        Some(b'0') => Kind::Open,
        _ => Kind::Other,
    }
}

/// The answers are printed: `cargo test every_answer -- --nocapture`.
#[test]
fn every_answer_comes_often() {
    let mut numbers: BTreeMap<Kind, [u32; 17]> = BTreeMap::new();
    for seed in 0..100_000 {
        let sample = sample(seed);
        let number = checked(&sample).number as usize;
        numbers.entry(kind(&sample)).or_default()[number] += 1;
    }
    let (teletext, open) = (numbers[&Kind::Teletext], numbers[&Kind::Open]);
    let files = |counts: [u32; 17]| counts.iter().sum::<u32>();
    for (kind, counts) in &numbers {
        println!("{kind:?}, {} of 100,000 files, by answer from 0: {counts:?}", files(*counts));
    }
    assert!(files(teletext) >= 50_000 && files(open) >= 38_000);
    // Over two in five are accepted, of either kind.
    assert!(5 * teletext[0] > 2 * files(teletext) && 5 * open[0] > 2 * files(open));
    for number in 1..=16 {
        // A DSC of either kind is not refused, and open subtitles have no
        // height.
        match number {
            4 => assert_eq!((teletext[4], open[4]), (0, 0)),
            14 => assert_eq!(open[14], 0),
            _ => assert!(open[number] >= 200, "{number}"),
        }
        assert!(number == 4 || teletext[number] >= 200, "{number}");
    }
    assert!(numbers[&Kind::Other][4] >= 200);
}

/// Every look, every character of the table and every accent with every letter and
/// 20h stand in some document; every code that is refused stands in some refused
/// text, of either kind; sets of 241 blocks and of one more come.
#[test]
fn every_corner_is_visited() {
    let mut looks = BTreeMap::from([(Kind::Teletext, BTreeSet::new()), (Kind::Open, BTreeSet::new())]);
    let mut seen = BTreeSet::new();
    let mut seen_marked = BTreeSet::new();
    let mut refused_codes = BTreeSet::new();
    let mut refused_pairs = BTreeSet::new();
    let (mut longest, mut one_more) = (0, 0);
    for seed in 0..200_000 {
        let sample = sample(seed);
        let mut out = vec![MARK; sample.room];
        let answer = convert(&sample.file, sample.mode, &mut out);
        let block = 1024 + 128 * answer.place as usize;
        match answer.number {
            0 => {
                let document = std::str::from_utf8(&out[..answer.length as usize]).unwrap();
                let used = names(document, "<tt:span style=\"s").into_iter().map(String::from);
                looks.entry(kind(&sample)).or_default().extend(used);
                let body = document.split("<tt:body>").nth(1).unwrap();
                seen.extend(body.chars());
                let points: Vec<char> = body.chars().collect();
                let marked = points.windows(2).filter(|pair| characters::is_mark(pair[1]));
                seen_marked.extend(marked.map(|pair| (pair[0], pair[1])));
                longest += u64::from(
                    answer.continuations >= 240
                        && sample.file[1024 + 3..].iter().step_by(128).any(|&ebn| ebn == 0xEF),
                );
            }
            7 if block < sample.file.len() => {
                let ebn = |at: usize| sample.file[at + 3];
                one_more += u64::from(answer.place >= 240 && ebn(block) == 0xF0 && ebn(block - 128) == 0xEF);
            }
            13 => {
                let text = &sample.file[block + 16..block + 128];
                let codes = text.iter().copied().take_while(|&code| code != 0x8F);
                refused_codes.extend(codes.map(|code| (kind(&sample), code)));
                refused_pairs.extend(text.windows(2).map(|pair| (pair[0], pair[1])));
            }
            _ => {}
        }
    }
    // "colour is white on black, height single": four looks of 512.
    let open: Vec<&str> = looks[&Kind::Open].iter().map(String::as_str).collect();
    assert_eq!(open, ["007", "135", "263", "391"]);
    let teletext: Vec<String> = (0..128).map(|look| format!("{look:03}")).collect();
    assert_eq!(looks[&Kind::Teletext], BTreeSet::from_iter(teletext));
    let letters = || (b'A'..=b'Z').chain(b'a'..=b'z').chain([b' ']);
    for code in (0x20..=0x7E).chain(0xA0..=0xFF) {
        assert!(characters::latin(code).is_none_or(|character| seen.contains(&character)), "{code:02X}");
    }
    for accent in 0xC1..=0xCF {
        for letter in letters() {
            let here = match characters::accented(accent, letter) {
                Some(Character { first, mark: None }) => seen.contains(&first),
                Some(Character { first, mark: Some(mark) }) => seen_marked.contains(&(first, mark)),
                None => refused_pairs.contains(&(accent, letter)),
            };
            assert!(here, "{accent:02X} {letter:02X}");
        }
    }
    for code in (0x00..=0xFF).filter(|&code| code != 0x8F) {
        assert!(refused_codes.contains(&(Kind::Teletext, code)), "{code:02X}");
        assert!(refused_codes.contains(&(Kind::Open, code)), "{code:02X}");
    }
    assert!(longest > 100 && one_more > 20, "{longest} {one_more}");
}

const SWITCHES: &[u8] = b"\x80\x81\x82\x83";

/// What stands in the samples of open subtitles, and how often.
#[derive(Default)]
struct Corners(BTreeMap<&'static str, u32>);

impl Corners {
    fn count(&mut self, name: &'static str, here: bool) {
        *self.0.entry(name).or_default() += u32::from(here);
    }

    /// The codes of an accepted file, block by block.
    fn count_codes(&mut self, blocks: &[u8], mode: u64) {
        for block in blocks.chunks(128).filter(|block| block[15] == 0 && block[3] != 0xFE) {
            let text = block[16..].split(|&code| code == 0x8F).next().unwrap();
            let ends = |code: Option<&u8>| code.is_some_and(|code| SWITCHES.contains(code));
            let pair = |left: &[u8], right: &[u8]| {
                text.windows(2).any(|pair| left.contains(&pair[0]) && right.contains(&pair[1]))
            };
            self.count("a switch ends a block", block[3] != 0xFF && ends(text.last()));
            self.count("a switch ends the text", block[3] == 0xFF && ends(text.last()));
            self.count("a switch starts a later block", (1..0xF0).contains(&block[3]) && ends(text.first()));
            self.count("a block of 112 switches", text.len() == 112 && text.iter().all(|c| ends(Some(c))));
            self.count("a switch before a row end", pair(SWITCHES, b"\x8A"));
            self.count("a switch after a row end", pair(b"\x8A", SWITCHES));
            self.count("a switch before an accent", pair(SWITCHES, &Vec::from_iter(0xC1..=0xCF)));
            self.count("three switches", text.windows(3).any(|codes| codes.iter().all(|c| ends(Some(c)))));
            let rows = text.split(|&code| code == 0x8A);
            let cells = |row: &[u8]| row.iter().filter(|code| !SWITCHES.contains(code)).count();
            self.count("ten switches and 64 cells", rows.clone().any(|r| cells(r) == 64 && r.len() >= 74));
            self.count("a lone row end in mode 2", mode == 2 && rows.count() == 2);
        }
    }

    fn count_document(&mut self, document: &str) {
        let has = |piece: &str| document.contains(piece);
        for look in ["135", "391"] {
            let span = format!("<tt:span style=\"s{look}\"> ");
            self.count("an underlined space starts a row", has(&format!("<tt:br/>{span}")));
            self.count("an underlined space starts a span", has(&span));
        }
        self.count("a space ends a row", has(" </tt:span><tt:br/>") || has(" </tt:span></tt:p>"));
        self.count("a span of blanks", has("<tt:span style=\"s007\"> </tt:span>"));
        self.count("italics over a row end", has("</tt:span><tt:br/><tt:span style=\"s263\">"));
        self.count("no filler lines", has("</tt:span></tt:p>"));
        self.count("98 filler lines", has(&"<tt:br/>".repeat(98)));
    }
}

/// The sentences of request 1 on both sides.
#[test]
fn every_corner_of_open_subtitles_is_visited() {
    let mut corners = Corners::default();
    let mut screens = BTreeSet::new();
    for seed in 0..200_000 {
        let sample = sample(seed);
        if sample.file.len() < 1024 {
            continue;
        }
        let (gsi, blocks) = sample.file.split_at(1024);
        let open = kind(&sample) == Kind::Open;
        let mut out = vec![MARK; sample.room];
        let answer = convert(&sample.file, sample.mode, &mut out);
        let digits = gsi[253].is_ascii_digit() && gsi[254].is_ascii_digit();
        let good_rows = digits && &gsi[253..=254] != b"00";
        let good_count = gsi[238..=242] == *format!("{:05}", blocks.len() / 128).as_bytes();
        corners.count("a bad MNR in teletext", !open && answer.number == 0 && !good_rows);
        corners.count("a bad MNR and a good TNB", open && answer.number == 6 && good_count);
        corners.count("a good MNR and a bad TNB", open && answer.number == 6 && good_rows);
        corners.count("a bad MNR and a bad TNB", open && answer.number == 6 && !good_rows && !good_count);
        corners.count("a bad MNR and a bad CCT", open && answer.number == 5 && !good_rows);
        corners.count("a bad MNR and a bad DFC", open && answer.number == 3 && !good_rows);
        corners.count("a bad MNR and a bad mode", open && answer.number == 1 && !good_rows);
        if !open || !good_rows {
            continue;
        }
        let rows = 10 * (gsi[253] - b'0') + gsi[254] - b'0';
        let position = blocks.get(128 * answer.place as usize + 13).copied();
        corners.count("VP at MNR", answer.number == 12 && position == Some(rows));
        corners.count("rows past MNR", answer.number == 15 && position.is_some_and(|vp| vp < rows));
        if answer.number == 0 {
            screens.insert(rows);
            let first = (answer.subtitles == 1 && answer.comments + answer.users == 0).then_some(position);
            corners.count("VP 0", first == Some(Some(0)));
            corners.count("VP at MNR less 1", first == Some(Some(rows - 1)));
            corners.count_codes(blocks, sample.mode);
            corners.count_document(std::str::from_utf8(&out[..answer.length as usize]).unwrap());
        }
    }
    println!("{:#?}", corners.0);
    assert_eq!(screens, BTreeSet::from_iter(1..=99));
    assert!(corners.0.values().all(|&count| count >= 50), "{:#?}", corners.0);
}

/// `make_sample` writes what is stored, and both break modes give one document.
#[test]
fn stored_samples() {
    let teletext = stored(&[], include_bytes!("../../../samples/sample.stl"));
    assert_eq!(teletext, [0, 0, 3335, 7, 1, 1, 0, 11]);
    let open = stored(&["open"], include_bytes!("../../../samples/open.stl"));
    assert_eq!(open, [0, 0, 3229, 7, 0, 1, 0, 16]);
}

/// The eight numbers of a stored sample.
fn stored(arguments: &[&str], file: &[u8]) -> [u64; 8] {
    let made = Command::new(env!("CARGO_BIN_EXE_make_sample")).args(arguments).output().unwrap();
    assert!(made.status.success() && made.stdout == file);
    let mut out = vec![MARK; 65_536];
    let answer = convert(file, 1, &mut out);
    let document = out.clone();
    assert_eq!(convert(file, 2, &mut out), answer);
    assert!(out == document);
    answer.numbers()
}
