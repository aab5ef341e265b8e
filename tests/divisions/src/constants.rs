//! The constants of some sources, and which names and numbers are powers of two.

use std::collections::HashMap;

/// The text of each constant's value, by the constant's name without its path. A name
/// may be given more than once.
pub struct Constants<'a>(HashMap<&'a str, Vec<&'a str>>);

impl<'a> Constants<'a> {
    pub fn of(sources: impl Iterator<Item = &'a str>) -> Self {
        let mut all: HashMap<_, Vec<_>> = HashMap::new();
        for part in sources.flat_map(|code| code.split("const ").skip(1)) {
            let value = part.split_once(':').and_then(|(name, rest)| Some((name, rest.split_once('=')?.1)));
            if let Some((name, rest)) = value {
                all.entry(name.trim()).or_default().push(rest.split(';').next().unwrap());
            }
        }
        Constants(all)
    }

    pub fn is_power_of_two(&self, divisor: &str) -> bool {
        self.value(divisor, 8).is_some_and(u64::is_power_of_two)
    }

    /// The value of sums and products of numbers and names, by `depth` names deep; none
    /// where a name is not known or has two values.
    fn value(&self, text: &str, depth: usize) -> Option<u64> {
        let mut sum = 0;
        for product in text.split('+') {
            let mut factors = 1;
            for factor in product.split('*') {
                factors *= number(factor.trim()).or_else(|| self.named(factor.trim(), depth))?;
            }
            sum += factors;
        }
        Some(sum)
    }

    fn named(&self, path: &str, depth: usize) -> Option<u64> {
        let values = self.0.get(path.rsplit("::").next()?)?;
        let depth = depth.checked_sub(1)?;
        let first = self.value(values[0], depth)?;
        values.iter().all(|v| self.value(v, depth) == Some(first)).then_some(first)
    }
}

/// A number in decimal or hexadecimal, perhaps with its type.
fn number(text: &str) -> Option<u64> {
    let plain = text.replace('_', "");
    let plain = plain.split(['u', 'i']).next()?;
    match plain.strip_prefix("0x") {
        Some(digits) => u64::from_str_radix(digits, 16).ok(),
        None => plain.parse().ok(),
    }
}

#[cfg(test)]
mod tests {
    use super::Constants;
    use crate::divisors::divisions;

    const SIZES: &str = "pub const HEAD: usize = 16;\npub const SIZE: usize = HEAD + 7 * 16;\nconst TEN: u16 = 10;\nconst LOOP: u8 = LOOP;\n";
    const TWICE: &str = "const TWICE: u8 = 4;\nconst TWICE: u8 = 5;\nconst AGREED: u8 = 4;\nconst AGREED: u8 = 4;\n";

    fn refused(code: &str) -> usize {
        let constants = Constants::of([SIZES, TWICE].into_iter());
        divisions(code).iter().filter(|d| !constants.is_power_of_two(&d.divisor)).count()
    }

    #[test]
    fn powers_of_two_are_shifts() {
        assert_eq!(refused("n / 8 % 2; n % 65_536; n / 0x40u16; (size - HEAD) / SIZE; n % meaning::SIZE / AGREED"), 0);
    }

    #[test]
    fn all_else_is_refused() {
        assert_eq!(refused("n % 10; n / 0; n / ten; n / TEN; n / LOOP; n / TWICE; n % (8); n /= 100; n / 0x41"), 9);
    }
}
