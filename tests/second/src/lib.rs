//! An independent second converter from EBU STL subtitle files to EBU-TT
//! documents, written from document 01 (the rules), from requests 1 to 5 of
//! document 02 (open subtitles, text after the end box, "Tell me why", accents
//! without a ready-made letter, "Check as it comes off the robot") and from
//! Appendix B of document 004 (the Latin table) alone.
//!
//! * [`characters`]: codes and accent pairs to characters
//! * [`file`]: where the bytes of the file stand
//! * [`display`]: teletext or open subtitles, and the screen of each
//! * [`text`]: a set's text to rows of spans
//! * [`document`]: the words of the document
//! * [`convert`](mod@convert): the order of the tests and the answer
//! * [`explain`](mod@explain): which byte breaks the rule
//! * [`reader`]: a document's span to cells
//! * [`program`]: the input of the programs
//! * [`dice`]: chance from a seed
//! * [`make`]: test files from a seed
//! * [`pairs`]: every accent before every code, at every place
//! * [`assemble`]: files put together field by field

pub mod assemble;
pub mod characters;
pub mod convert;
pub mod dice;
pub mod display;
pub mod document;
pub mod explain;
pub mod file;
pub mod make;
pub mod pairs;
pub mod program;
pub mod reader;
pub mod text;

pub use convert::{answer, convert};
pub use explain::{explain, Explanation};

/// "Every answer holds number, place, a length and five counts."
#[derive(PartialEq, Eq, Debug, Clone, Copy, Default)]
pub struct Answer {
    /// 0 for accepted, otherwise the number of the refusal, 1 to 16.
    pub number: u64,
    /// A block, counted from 0, or 0.
    pub place: u64,
    /// Length of the document; with refusal 16 the length needed.
    pub length: u64,
    /// Subtitle sets.
    pub subtitles: u64,
    /// Comment sets.
    pub comments: u64,
    /// Continuation blocks, "not the first of their set".
    pub continuations: u64,
    /// User blocks.
    pub users: u64,
    /// Spans written.
    pub spans: u64,
}

impl Answer {
    /// The eight numbers in the order of the paper.
    pub fn numbers(&self) -> [u64; 8] {
        [
            self.number,
            self.place,
            self.length,
            self.subtitles,
            self.comments,
            self.continuations,
            self.users,
            self.spans,
        ]
    }
}

/// The rows of the table "What comes back", number 0 left out.
#[derive(PartialEq, Eq, Debug, Clone, Copy)]
pub enum Reason {
    /// break mode not 1 or 2
    BreakMode = 1,
    /// under 1,024 bytes, or the rest no multiple of 128
    Size = 2,
    /// DFC
    DiskFormat = 3,
    /// DSC: "4 for other DSC"
    DisplayStandard = 4,
    /// CCT
    CharacterTable = 5,
    /// TNB not five digits, or not the number of blocks present; "with DSC "0"
    /// a bad MNR is 6, tested after TNB"
    BlockCount = 6,
    /// EBN F0h to FDh, wrong EBN for its place, disagreement inside a set, or
    /// a set open at the end of the file
    Extension = 7,
    /// CF above 01h
    CommentFlag = 8,
    /// SN not above the SN of the set before
    SubtitleNumber = 9,
    /// CS not 00h
    Cumulative = 10,
    /// a time out of range, or TCO not after TCI
    Time = 11,
    /// VP not 1 to 23, or JC above 03h; with DSC "0" VP not below MNR
    Position = 12,
    /// text code or accent pair not listed
    Code = 13,
    /// height or break rule
    HeightOrBreak = 14,
    /// row too long, or rows don't fit; "rows past MNR are 15"
    RowsDoNotFit = 15,
    /// document longer than the buffer
    Buffer = 16,
}
