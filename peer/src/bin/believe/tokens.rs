//! The words of an antt text, and the items that its columns make of them.

/// A word and where it stands, lines counted from 1 and columns from 0.
#[derive(Clone, Debug)]
pub struct Token {
    pub text: String,
    pub line: usize,
    column: usize,
    /// It is the first word of its line.
    first: bool,
}

impl Token {
    /// A word of a text whose columns say nothing.
    pub fn word(text: &str, line: usize) -> Token {
        Token { text: text.to_string(), line, column: 0, first: false }
    }
}

fn stands_alone(c: char) -> bool {
    "(){};,λ".contains(c)
}

fn in_word(c: char) -> bool {
    !c.is_whitespace() && !stands_alone(c) && c != '.'
}

/// Names have dots inside (`search.Finding`), a field has one in front (`.image`), and the dot
/// after a λ's names stands by itself.
fn word_end(line: &[char], start: usize) -> usize {
    let goes_on = |i: usize| line.get(i).is_some_and(|c| in_word(*c));
    let mut end = start + 1;
    if stands_alone(line[start]) {
        return end;
    }
    while goes_on(end) || (line.get(end) == Some(&'.') && line[start] != '.' && goes_on(end + 1)) {
        end += 1;
    }
    end
}

fn comment_starts(line: &[char], at: usize) -> bool {
    line[at..].starts_with(&['-', '-']) && (at == 0 || line[at - 1].is_whitespace())
}

pub fn tokens(text: &[String]) -> Vec<Token> {
    let mut found = Vec::new();
    for (number, line) in text.iter().enumerate() {
        let line: Vec<char> = line.chars().collect();
        let (mut at, mut first) = (0, true);
        while at < line.len() && !comment_starts(&line, at) {
            if line[at].is_whitespace() {
                at += 1;
                continue;
            }
            let end = word_end(&line, at);
            let text = line[at..end].iter().collect();
            found.push(Token { text, line: number + 1, column: at, first });
            (at, first) = (end, false);
        }
    }
    found
}

/// An item starts in the column of the first one, and has all that stands deeper after it.
pub fn items(tokens: &[Token]) -> Vec<&[Token]> {
    let Some(column) = tokens.first().map(|token| token.column) else {
        return Vec::new();
    };
    let starts =
        |token: &Token| token.first && token.column <= column && !")}]".contains(&token.text);
    tokens.chunk_by(|_, next| !starts(next)).collect()
}

pub enum Shape<'a> {
    Use,
    /// A section of arguments that all in it takes first: `module _ .. where`.
    Section {
        head: &'a [Token],
        body: &'a [Token],
    },
    Mutual {
        body: &'a [Token],
    },
    Record {
        head: &'a [Token],
        fields: &'a [Token],
    },
    Data {
        head: &'a [Token],
        constructors: &'a [Token],
    },
    Signature {
        names: &'a [Token],
        of: &'a [Token],
    },
    Unfolding,
    Clause {
        left: &'a [Token],
        right: &'a [Token],
    },
    /// Nothing that is read: how tightly an operator binds, the names of a crate's files.
    Aside,
}

const MODIFIERS: [&str; 3] = ["pub", "abbrev", "unfoldable"];

/// The item without the words that say how it may be used.
pub fn bare(item: &[Token]) -> &[Token] {
    let modifiers = item.iter().take_while(|token| MODIFIERS.contains(&token.text.as_str()));
    &item[modifiers.count()..]
}

pub fn has_modifier(item: &[Token], modifier: &str) -> bool {
    item[..item.len() - bare(item).len()].iter().any(|token| token.text == modifier)
}

/// The first of these words that stands in no bracket.
fn outside(item: &[Token], words: &[&str]) -> Option<usize> {
    let mut depth = 0usize;
    item.iter().position(|token| {
        match token.text.as_str() {
            "(" | "{" => depth += 1,
            ")" | "}" => depth = depth.saturating_sub(1),
            _ => {}
        }
        depth == 0 && words.contains(&token.text.as_str())
    })
}

fn parted<'a>(item: &'a [Token], word: &str) -> (&'a [Token], &'a [Token]) {
    match outside(item, &[word]) {
        Some(at) => (&item[..at], &item[at + 1..]),
        None => (item, &[]),
    }
}

pub fn shape(item: &[Token]) -> Shape<'_> {
    let item = bare(item);
    let (head, body) = parted(item, "where");
    match item.first().map_or("", |token| token.text.as_str()) {
        "use" => Shape::Use,
        "mod" | "infix" | "infixl" | "infixr" | "" => Shape::Aside,
        "module" => Shape::Section { head, body },
        "mutual" => Shape::Mutual { body: &item[1..] },
        "record" => Shape::Record { head, fields: body },
        "data" => Shape::Data { head, constructors: body },
        "unfolding" => Shape::Unfolding,
        _ => match outside(item, &[":", "="]) {
            Some(at) if item[at].text == ":" => {
                Shape::Signature { names: &item[..at], of: &item[at + 1..] }
            }
            _ => {
                let (left, right) = parted(item, "=");
                Shape::Clause { left, right }
            }
        },
    }
}

/// The words that stand in no bracket: of what comes before a `:`, the names.
pub fn outer_words(tokens: &[Token]) -> Vec<String> {
    let mut depth = 0usize;
    let mut words = Vec::new();
    for token in tokens {
        match token.text.as_str() {
            "(" | "{" => depth += 1,
            ")" | "}" => depth = depth.saturating_sub(1),
            text if depth == 0 => words.push(text.to_string()),
            _ => {}
        }
    }
    words
}
