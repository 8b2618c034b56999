//! The tokens of a line of assembler text, and reading them one after the other.

use std::fmt;
use std::ops::RangeInclusive;

#[derive(PartialEq, Eq)]
pub enum Token {
    /// A name or a number.
    Word(String),
    /// Between quotes.
    Text(Vec<u8>),
    Comma,
    Colon,
    /// ->
    Arrow,
    /// ..
    Dots,
}

impl fmt::Display for Token {
    fn fmt(&self, to: &mut fmt::Formatter) -> fmt::Result {
        match self {
            Token::Word(word) => write!(to, "'{}'", word.escape_debug()),
            Token::Text(text) => write!(to, "\"{}\"", text.escape_ascii()),
            Token::Comma => write!(to, "','"),
            Token::Colon => write!(to, "':'"),
            Token::Arrow => write!(to, "'->'"),
            Token::Dots => write!(to, "'..'"),
        }
    }
}

/// Cuts a line into tokens, up to a comment.
pub fn tokens(line: &str) -> Result<Vec<Token>, String> {
    let mut found = Vec::new();
    let mut rest = line.trim_start();
    while let Some(first) = rest.chars().next().filter(|&first| first != ';') {
        let (token, behind) = match first {
            ',' => (Token::Comma, &rest[1..]),
            ':' => (Token::Colon, &rest[1..]),
            '"' => text(&rest[1..])?,
            _ if rest.starts_with("->") => (Token::Arrow, &rest[2..]),
            _ if rest.starts_with("..") => (Token::Dots, &rest[2..]),
            _ => {
                let (word, behind) = rest.split_at(word_len(rest));
                (Token::Word(word.to_string()), behind)
            }
        };
        found.push(token);
        rest = behind.trim_start();
    }
    Ok(found)
}

/// Measures the word that a text begins with.
fn word_len(text: &str) -> usize {
    let ends = |&(at, char): &(usize, char)| {
        let behind = &text[at..];
        char.is_whitespace()
            || matches!(char, ';' | ',' | ':' | '"')
            || behind.starts_with("->")
            || behind.starts_with("..")
    };
    text.char_indices().find(ends).map_or(text.len(), |(at, _)| at)
}

/// Reads up to the closing quote, and answers what stands behind it too. \xNN is a byte; a quote
/// and a backslash have a backslash before them.
fn text(rest: &str) -> Result<(Token, &str), String> {
    let mut bytes = Vec::new();
    let mut rest = rest;
    loop {
        let Some(first) = rest.chars().next() else {
            return Err("expected a closing \", found the end of the line".to_string());
        };
        let (byte, len) = match first {
            '"' => return Ok((Token::Text(bytes), &rest[1..])),
            '\\' if rest[1..].starts_with(['"', '\\']) => (Some(rest.as_bytes()[1]), 2),
            '\\' => (rest.strip_prefix("\\x").and_then(hex_byte), 4),
            ' '..='~' => (Some(first as u8), 1),
            _ => (None, 0),
        };
        let fault = || format!("expected a character or \\xNN, found '{}'", first.escape_debug());
        bytes.push(byte.ok_or_else(fault)?);
        rest = &rest[len..];
    }
}

/// Reads the byte that two hex digits give.
fn hex_byte(text: &str) -> Option<u8> {
    let digits = text.get(..2)?;
    let only_digits = digits.chars().all(|digit| digit.is_ascii_hexdigit());
    u8::from_str_radix(digits, 16).ok().filter(|_| only_digits)
}

/// The tokens of a line that are still to be read.
pub struct Reader<'a> {
    pub rest: &'a [Token],
}

impl<'a> Reader<'a> {
    pub fn next(&mut self) -> Option<&'a Token> {
        let (first, rest) = self.rest.split_first()?;
        self.rest = rest;
        Some(first)
    }

    /// Takes the next token where it is the wanted one.
    pub fn takes(&mut self, wanted: &Token) -> bool {
        let found = self.rest.first() == Some(wanted);
        if found {
            self.next();
        }
        found
    }

    /// Takes the wanted token, or says what stands there.
    pub fn expect(&mut self, wanted: &Token) -> Result<(), String> {
        if self.takes(wanted) {
            Ok(())
        } else {
            Err(self.expected(&wanted.to_string()))
        }
    }

    /// Says what was expected here, and what stands there.
    pub fn expected(&self, what: &str) -> String {
        let found = self.rest.first().map_or("the end of the line".to_string(), Token::to_string);
        format!("expected {what}, found {found}")
    }

    pub fn word(&mut self, what: &str) -> Result<&'a str, String> {
        match self.rest.first() {
            Some(Token::Word(word)) => {
                self.next();
                Ok(word)
            }
            _ => Err(self.expected(what)),
        }
    }

    pub fn number(&mut self, range: RangeInclusive<i64>) -> Result<i64, String> {
        let what = format!("a number from {} to {}", range.start(), range.end());
        let fault = self.expected(&what);
        let number = number(self.word(&what)?);
        number.filter(|number| range.contains(number)).ok_or(fault)
    }

    pub fn end(&self) -> Result<(), String> {
        if self.rest.is_empty() {
            Ok(())
        } else {
            Err(self.expected("the end of the line"))
        }
    }
}

/// Reads a decimal number with or without a sign, or a hex one such as 0x1f.
pub fn number(word: &str) -> Option<i64> {
    match word.strip_prefix("0x") {
        // A sign behind 0x would be read too.
        Some(digits) if digits.starts_with(['+', '-']) => None,
        Some(digits) => i64::from_str_radix(digits, 16).ok(),
        None => word.parse().ok(),
    }
}

/// Tells whether a word can name a label or a procedure.
pub fn is_name(word: &str) -> bool {
    let reserved = matches!(word, "exit" | "else" | "at");
    let letters = |char: char| char.is_ascii_alphanumeric() || char == '_';
    !reserved
        && !word.starts_with(|first: char| first.is_ascii_digit())
        && word.chars().all(letters)
}
