//! The sets of samples, read anew: nothing of the second converter is used.

use second::make::Sample;

pub fn is_open(sample: &Sample) -> bool {
    sample.file[11] == b'0'
}

pub fn is_accent(code: u8) -> bool {
    (0xC1..=0xCF).contains(&code)
}

/// A set of a sample: its blocks without the user blocks, and its text.
pub struct Set {
    /// Where its blocks begin.
    pub blocks: Vec<usize>,
    /// The offsets of the bytes before the first 8Fh of each block.
    pub text: Vec<usize>,
}

impl Set {
    pub fn of(file: &[u8], place: u64) -> Set {
        let mut set = Set { blocks: Vec::new(), text: Vec::new() };
        let mut block = 1024 + 128 * place as usize;
        loop {
            if file[block + 3] != 0xFE {
                set.blocks.push(block);
                let mut at = block + 16;
                while at < block + 128 && file[at] != 0x8F {
                    set.text.push(at);
                    at += 1;
                }
            }
            if file[block + 3] == 0xFF {
                return set;
            }
            block += 128;
        }
    }

    /// The bytes of the text.
    pub fn codes(&self, sample: &Sample) -> Vec<u8> {
        self.text.iter().map(|&at| sample.file[at]).collect()
    }

    /// The place in the text of the byte at this offset.
    pub fn index_of(&self, offset: usize) -> usize {
        self.text.binary_search(&offset).unwrap()
    }

    /// The offsets of the bytes of each row, where all runs are even if pairs end
    /// rows.
    pub fn rows(&self, sample: &Sample, form: Form) -> Vec<Vec<usize>> {
        let pieces = self.text.split(|&at| sample.file[at] == 0x8A).map(<[usize]>::to_vec);
        pieces.step_by(form.break_length()).collect()
    }

    /// The number of its block in which the offset lies.
    pub fn block_of(&self, offset: usize) -> usize {
        self.blocks.iter().position(|&block| (block..block + 128).contains(&offset)).unwrap()
    }

    /// A user block stands between these two offsets of the set.
    pub fn user_between(&self, one: usize, other: usize) -> bool {
        let blocks = (other - 1024) / 128 - (one - 1024) / 128;
        blocks > self.block_of(other) - self.block_of(one)
    }

    /// The file with only so many bytes of this text.
    pub fn cut(&self, file: &[u8], length: usize) -> Vec<u8> {
        let mut file = file.to_vec();
        let last = self.text.get(length).copied().unwrap_or(usize::MAX);
        for &block in &self.blocks {
            if block + 16 > last {
                file[block + 16] = 0x8F;
            }
        }
        if let Some(byte) = file.get_mut(last) {
            *byte = 0x8F;
        }
        file
    }
}

/// What the rows of a text depend on.
#[derive(PartialEq, Eq, Debug, Clone, Copy)]
pub struct Form {
    pub open: bool,
    pub double: bool,
    pub mode: u64,
}

impl Form {
    /// Open subtitles are single.
    pub const ALL: [Form; 6] = [
        Form { open: false, double: false, mode: 1 },
        Form { open: false, double: false, mode: 2 },
        Form { open: false, double: true, mode: 1 },
        Form { open: false, double: true, mode: 2 },
        Form { open: true, double: false, mode: 1 },
        Form { open: true, double: false, mode: 2 },
    ];

    pub fn of(sample: &Sample, set: &Set) -> Form {
        let mut first_row = set.text.iter().map(|&at| sample.file[at]).take_while(|&code| code != 0x8A);
        let open = is_open(sample);
        Form { open, double: !open && first_row.any(|code| code == 0x0D), mode: sample.mode }
    }

    pub fn break_length(self) -> usize {
        if self.double && self.mode == 2 {
            2
        } else {
            1
        }
    }

    pub fn height(self) -> usize {
        if self.double {
            2
        } else {
            1
        }
    }

    /// The line after the last.
    pub fn end(self, sample: &Sample) -> u8 {
        if self.open {
            10 * (sample.file[253] - b'0') + sample.file[254] - b'0'
        } else {
            24
        }
    }

    pub fn name(self) -> String {
        let Form { open, double, mode } = self;
        let display = if open { "open" } else { "teletext" };
        format!("{display}, {}, mode {mode}", if double { "double" } else { "single" })
    }
}
