//! The divisions of some code.

/// A `/` or `%`, also of an assignment, with its line and the name or number behind
/// it; no divisor is told where something else stands there.
#[derive(Debug, PartialEq)]
pub struct Division {
    pub line: usize,
    pub operator: char,
    pub divisor: String,
}

/// In the order of the code, which has no comments, contracts and strings.
pub fn divisions(code: &str) -> Vec<Division> {
    let mut found = Vec::new();
    for (at, operator) in code.match_indices(['/', '%']) {
        let behind = &code[at + 1..];
        let operand = behind.strip_prefix('=').unwrap_or(behind).trim_start();
        let end = operand.find(|c: char| !c.is_alphanumeric() && c != '_' && c != ':').unwrap_or(operand.len());
        found.push(Division {
            line: 1 + code[..at].matches('\n').count(),
            operator: operator.chars().next().unwrap(),
            divisor: operand[..end].to_string(),
        });
    }
    found
}

#[cfg(test)]
mod tests {
    use super::*;

    /// (line, operator, divisor) of each division.
    fn told(code: &str) -> Vec<(usize, char, String)> {
        divisions(code).into_iter().map(|d| (d.line, d.operator, d.divisor)).collect()
    }

    #[test]
    fn each_has_its_divisor() {
        let code = "let a = n / 8 % Look::COUNT;\na /= ten;\nb %=\n    (2 + 1);";
        let expected = [(1, '/', "8"), (1, '%', "Look::COUNT"), (2, '/', "ten"), (3, '%', "")];
        assert_eq!(told(code), expected.map(|(line, operator, divisor)| (line, operator, divisor.to_string())));
    }
}
