//! The tokens of code.

#[derive(Clone, Copy, PartialEq, Debug)]
pub enum Token<'t> {
    Number(u64),
    Name(&'t str),
    Text(&'t str),
    Mark(char),
    Var,
    End,
}

/// Marks of two bytes, each with the character that stands for it.
const PAIRS: [(&[u8; 2], char); 8] =
    [(b"<<", '«'), (b">>", '»'), (b"<=", '≤'), (b">=", '≥'), (b"==", '≡'), (b"!=", '≠'), (b"&&", '∧'), (b"||", '∨')];

pub struct Lexer<'t> {
    text: &'t str,
    at: usize,
    /// where the last token began
    pub start: usize,
    /// where the last token ended
    pub end: usize,
}

/// No token can be taken where the lexer stands (`start`).
pub struct BadToken;

impl<'t> Lexer<'t> {
    pub fn new(text: &'t str) -> Self {
        Lexer { text, at: 0, start: 0, end: 0 }
    }

    fn rest(&self) -> &'t [u8] {
        &self.text.as_bytes()[self.at..]
    }

    fn skip(&mut self) -> Result<(), BadToken> {
        loop {
            let rest = self.rest();
            match rest {
                [b' ' | b'\t' | b'\r' | b'\n', ..] => self.at += 1,
                [b'/', b'/', ..] => self.at += rest.iter().position(|b| *b == b'\n').unwrap_or(rest.len()),
                [b'/', b'*', inside @ ..] => match inside.windows(2).position(|two| two == b"*/") {
                    Some(length) => self.at += length + 4,
                    None => {
                        self.start = self.at;
                        return Err(BadToken);
                    }
                },
                _ => return Ok(()),
            }
        }
    }

    /// The next token.
    pub fn next(&mut self) -> Result<Token<'t>, BadToken> {
        self.skip()?;
        self.start = self.at;
        let token = match self.rest().first() {
            None => {
                self.start = self.end;
                return Ok(Token::End);
            }
            Some(b'0'..=b'9') => self.number()?,
            Some(b'"') => self.string()?,
            Some(b'A'..=b'Z' | b'a'..=b'z' | b'_') => self.name(),
            Some(_) => self.mark()?,
        };
        self.end = self.at;
        Ok(token)
    }

    fn word(&mut self) -> &'t str {
        let rest = self.rest();
        let length = rest.iter().position(|b| !b.is_ascii_alphanumeric() && *b != b'_').unwrap_or(rest.len());
        self.at += length;
        &self.text[self.at - length..self.at]
    }

    fn name(&mut self) -> Token<'t> {
        match self.word() {
            "__var" => Token::Var,
            name => Token::Name(name),
        }
    }

    fn number(&mut self) -> Result<Token<'t>, BadToken> {
        number(self.word()).map(Token::Number).ok_or(BadToken)
    }

    fn string(&mut self) -> Result<Token<'t>, BadToken> {
        let rest = self.rest();
        let mut length = 1;
        loop {
            match rest.get(length) {
                None | Some(b'\n') => return Err(BadToken),
                Some(b'\\') if rest.get(length + 1) == Some(&b'\n') => return Err(BadToken),
                Some(b'\\') => length += 2,
                Some(b'"') => break,
                Some(_) => length += 1,
            }
        }
        self.at += length + 1;
        Ok(Token::Text(&self.text[self.at - length..self.at - 1]))
    }

    fn mark(&mut self) -> Result<Token<'t>, BadToken> {
        let rest = self.rest();
        if let Some((_, mark)) = PAIRS.iter().find(|(pair, _)| rest.starts_with(*pair)) {
            self.at += 2;
            return Ok(Token::Mark(*mark));
        }
        if !b"(),;?:!~+-*/%<>&^|=".contains(&rest[0]) {
            return Err(BadToken);
        }
        self.at += 1;
        Ok(Token::Mark(char::from(rest[0])))
    }
}

/// The number of a token or of a text of a job: decimal without a leading 0, or hexadecimal.
pub fn number(word: &str) -> Option<u64> {
    let is_of = |digits: &str, radix| !digits.is_empty() && digits.chars().all(|c| c.is_digit(radix));
    match word.strip_prefix("0x").or(word.strip_prefix("0X")) {
        Some(digits) if is_of(digits, 16) => u64::from_str_radix(digits, 16).ok(),
        Some(_) => None,
        None if word.len() > 1 && word.starts_with('0') || !is_of(word, 10) => None,
        None => word.parse().ok(),
    }
}
