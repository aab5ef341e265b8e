//! What a file is made for, and the screen that goes with it.

/// "Teletext files (DSC "1" or "2")", or open subtitles, DSC "0".
#[derive(PartialEq, Eq, Debug, Clone, Copy)]
pub enum Display {
    Teletext,
    /// "MNR gives the rows of the screen", 1 to 99.
    Open {
        rows: u8,
    },
}

impl Display {
    /// The first line of the screen: "VP 1 to 23" in teletext, "VP is 0 up to
    /// MNR less 1" in open subtitles.
    pub fn first(self) -> u8 {
        match self {
            Display::Teletext => 1,
            Display::Open { .. } => 0,
        }
    }

    /// The line after the last.
    pub fn end(self) -> u8 {
        match self {
            Display::Teletext => 24,
            Display::Open { rows } => rows,
        }
    }

    /// Not refusal 12: a subtitle starts on a line of the screen.
    pub fn has_line(self, vertical_position: u8) -> bool {
        (self.first()..self.end()).contains(&vertical_position)
    }

    /// "filler lines = 24 - VP - lines covered, not negative, else 15";
    /// "fillers are MNR less VP less rows".
    pub fn filler_lines(self, vertical_position: u8, covered: usize) -> Option<usize> {
        let below = self.end().checked_sub(vertical_position)?;
        usize::from(below).checked_sub(covered)
    }

    pub fn is_open(self) -> bool {
        self != Display::Teletext
    }
}

#[cfg(test)]
mod tests {
    use super::*;

    #[test]
    fn both_screens() {
        let teletext: Vec<u8> = (0..=255).filter(|&line| Display::Teletext.has_line(line)).collect();
        assert_eq!(teletext, (1..=23).collect::<Vec<u8>>());
        for rows in 1..=99 {
            let open = Display::Open { rows };
            let lines: Vec<u8> = (0..=255).filter(|&line| open.has_line(line)).collect();
            assert_eq!(lines, (0..rows).collect::<Vec<u8>>());
            assert_eq!(open.filler_lines(0, usize::from(rows)), Some(0));
            assert_eq!(open.filler_lines(0, usize::from(rows) + 1), None);
            assert_eq!(open.filler_lines(rows - 1, 1), Some(0));
            assert_eq!(open.filler_lines(rows - 1, 2), None);
        }
        assert_eq!(Display::Teletext.filler_lines(20, 1), Some(3));
        assert_eq!(Display::Teletext.filler_lines(23, 2), None);
    }
}
