//! The code of a source without its comments, contracts, imports of definitions,
//! byte strings and byte literals. All of these are blanked, so that lines stay.

/// What of the source is code.
pub fn alone(source: &str) -> String {
    let mut code = String::new();
    let mut rest = source;
    while let Some(c) = rest.chars().next() {
        let length = skipped(rest, code.chars().last());
        if length > 0 {
            code.extend(rest[..length].chars().map(|c| if c == '\n' { c } else { ' ' }));
            rest = &rest[length..];
        } else {
            code.push(c);
            rest = &rest[c.len_utf8()..];
        }
    }
    code
}

/// How many bytes at the front are no code, where `before` is the character before.
fn skipped(rest: &str, before: Option<char>) -> usize {
    if rest.starts_with("//") {
        return rest.find('\n').unwrap_or(rest.len());
    }
    if is_word(before) {
        return 0;
    }
    for quote in ['"', '\''] {
        if rest.starts_with(&format!("b{quote}")) {
            return 2 + to_the_end(&rest[2..], quote);
        }
    }
    if rest.starts_with("ghost use ") {
        return rest.find(';').unwrap_or(rest.len());
    }
    for keyword in ["requires", "ensures"] {
        if let Some(clause) = rest.strip_prefix(keyword).and_then(clause) {
            return rest.len() - clause.len() + braces(clause);
        }
    }
    0
}

/// The clause in braces, behind a star or its name if there is one.
fn clause(behind: &str) -> Option<&str> {
    if is_word(behind.chars().next()) {
        return None;
    }
    let name = behind.strip_prefix('*').unwrap_or(behind).trim_start();
    let clause = name.trim_start_matches(|c| is_word(Some(c))).trim_start();
    clause.starts_with('{').then_some(clause)
}

fn is_word(c: Option<char>) -> bool {
    c.is_some_and(|c| c.is_alphanumeric() || c == '_')
}

/// Up to a quotation mark that no backslash stands before, and with it.
fn to_the_end(text: &str, quote: char) -> usize {
    let mut escaped = false;
    for (at, c) in text.char_indices() {
        if c == quote && !escaped {
            return at + 1;
        }
        escaped = c == '\\' && !escaped;
    }
    text.len()
}

/// Up to the brace that closes the first, and with it.
fn braces(clause: &str) -> usize {
    let mut open = 0;
    for (at, c) in clause.char_indices() {
        match c {
            '{' => open += 1,
            '}' => open -= 1,
            _ => {}
        }
        if open == 0 {
            return at + 1;
        }
    }
    clause.len()
}

#[cfg(test)]
mod tests {
    use super::alone;

    fn words(source: &str) -> Vec<String> {
        alone(source).split_whitespace().map(String::from).collect()
    }

    #[test]
    fn comments_and_bytes_are_no_code() {
        assert_eq!(words("a // b / c\nd"), ["a", "d"]);
        assert_eq!(words("put(b\"50% \\\" / \\\\\", b'/', b'\\'', x)"), ["put(", ",", ",", ",", "x)"]);
        assert_eq!(words("Block<'a> / 2"), ["Block<'a>", "/", "2"]);
    }

    #[test]
    fn contracts_are_no_code() {
        let source = "ghost use P.{_/_, _%_};\nfn f(n: u8) -> u8\n    requires { ⌜ n / 2 < { 3 } ⌝ }\n    ensures { λ r. ⌜ r ≡ n % 10 ⌝ }\n{\n    n % 10\n}";
        assert_eq!(words(source), [";", "fn", "f(n:", "u8)", "->", "u8", "{", "n", "%", "10", "}"]);
    }

    #[test]
    fn contracts_may_have_names_and_stars() {
        let source = "ghost use P.{\n    ◌/◌, ◌%◌,\n};\nfn f(n: &mut u8)\n    requires* { n / 2 }\n    ensures small { n.new / { 3 } }\n    ensures rest { n.new ≡ n.old % 10 }\n    ensures* kept_2 { n % 2 }\n{\n    n % 7\n}";
        assert_eq!(words(source), [";", "fn", "f(n:", "&mut", "u8)", "{", "n", "%", "7", "}"]);
    }

    #[test]
    fn names_that_begin_or_end_alike_are_code() {
        assert_eq!(words("if ensures_more { a / b }"), ["if", "ensures_more", "{", "a", "/", "b", "}"]);
        assert_eq!(words("x.ensures / 3; mob'/'"), ["x.ensures", "/", "3;", "mob'/'"]);
        assert_eq!(words("ensures / { a }; ensures.x { a / b }"), ["ensures", "/", "{", "a", "};", "ensures.x", "{", "a", "/", "b", "}"]);
    }

    #[test]
    fn lines_stay() {
        let source = "// a\nrequires { b\n}\nb\"\n\" / c";
        assert_eq!(alone(source).lines().count(), source.lines().count());
        assert!(alone(source).lines().last().unwrap().contains('/'));
    }
}
