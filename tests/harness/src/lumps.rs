//! A file in lumps, cut at random.

use second::dice::Dice;

/// Nothing, a byte, and the lengths around those of a block and of the GSI.
const LENGTHS: [usize; 8] = [0, 1, 127, 128, 129, 1023, 1024, 1025];

/// Below this a lump of chance is, which moves the cuts to any place in a block.
const ANY_LENGTH: usize = 1200;

/// The lumps; joined they are the file.
pub fn cut<'a>(file: &'a [u8], dice: &mut Dice) -> Vec<&'a [u8]> {
    // The rest as one lump ends the cutting, so most files do without.
    let with_rest = dice.chance(30);
    let mut lumps = Vec::new();
    let mut rest = file;
    // Also nothing at all, or empty lumps behind the end.
    while !rest.is_empty() || dice.chance(30) {
        let length = match dice.below(LENGTHS.len() + 2) {
            at if at < LENGTHS.len() => LENGTHS[at],
            at if at == LENGTHS.len() && with_rest => rest.len(),
            _ => dice.below(ANY_LENGTH),
        };
        let (lump, behind) = rest.split_at(length.min(rest.len()));
        lumps.push(lump);
        rest = behind;
    }
    lumps
}
