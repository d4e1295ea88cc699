// The lexer's algorithm in Rust, as a baseline for the speed of the proved one: form and tokens of a text.
use std::time::Instant;

#[derive(Clone, Copy, PartialEq, Eq)]
enum Class {
    Other,
    White,
    Word,
}

const fn class_table() -> [Class; 256] {
    let marks = b"~!@$%^&*_-+=<>.?/:#";
    let mut table = [Class::Other; 256];
    let mut byte = 0usize;
    while byte < 256 {
        let b = byte as u8;
        if b == 9 || b == 10 || b == 13 || b == 32 {
            table[byte] = Class::White;
        } else if b.is_ascii_alphanumeric() {
            table[byte] = Class::Word;
        }
        byte += 1;
    }
    let mut at = 0;
    while at < marks.len() {
        table[marks[at] as usize] = Class::Word;
        at += 1;
    }
    table
}

static CLASSES: [Class; 256] = class_table();

#[derive(Clone, Copy, Debug, PartialEq, Eq)]
enum Cause {
    BadByte,
    OpenList,
    StrayClose,
}

#[derive(Clone, Copy, Debug)]
struct Refusal {
    cause: Cause,
    at: u64,
}

#[derive(Clone, Copy, PartialEq, Eq)]
enum TokenKind {
    Open,
    Close,
    Text,
    Quoted,
    Word,
}

#[derive(Clone, Copy)]
struct Token {
    kind: TokenKind,
    start: u64,
    end: u64,
}

fn is_white(byte: u8) -> bool {
    CLASSES[byte as usize] == Class::White
}

fn is_word_byte(byte: u8) -> bool {
    CLASSES[byte as usize] == Class::Word
}

fn comment_end(bytes: &[u8], at: usize) -> usize {
    let mut place = at;
    while place < bytes.len() && bytes[place] != b'\n' && bytes[place] != b'\r' {
        place += 1;
    }
    place
}

fn blanks_end(bytes: &[u8], at: usize) -> usize {
    let mut place = at;
    while place < bytes.len() {
        let byte = bytes[place];
        if is_white(byte) {
            place += 1;
        } else if byte == b';' {
            place = comment_end(bytes, place + 1);
        } else {
            break;
        }
    }
    place
}

fn string_end(bytes: &[u8], at: usize) -> Option<usize> {
    let mut place = at;
    while place < bytes.len() {
        if bytes[place] != b'"' {
            place += 1;
        } else if place + 1 < bytes.len() && bytes[place + 1] == b'"' {
            place += 2;
        } else {
            return Some(place + 1);
        }
    }
    None
}

fn digits_len(word: &[u8]) -> usize {
    word.iter().take_while(|b| b.is_ascii_digit()).count()
}

fn is_digits(word: &[u8]) -> bool {
    !word.is_empty() && digits_len(word) == word.len()
}

fn is_numeral(word: &[u8]) -> bool {
    is_digits(word) && (word.len() == 1 || word[0] != b'0')
}

fn is_decimal(word: &[u8]) -> bool {
    let len = digits_len(word);
    if len < word.len() && word[len] == b'.' {
        is_numeral(&word[..len]) && is_digits(&word[len + 1..])
    } else {
        false
    }
}

fn is_ratio(word: &[u8]) -> bool {
    let len = digits_len(word);
    if len < word.len() && word[len] == b'/' {
        is_numeral(&word[..len]) && is_numeral(&word[len + 1..])
    } else {
        false
    }
}

fn is_number(word: &[u8]) -> bool {
    is_numeral(word) || is_decimal(word) || is_ratio(word)
}

#[derive(Clone, Copy)]
struct Lexer<'a> {
    bytes: &'a [u8],
    place: usize,
}

fn bad_byte(at: usize) -> Refusal {
    Refusal { cause: Cause::BadByte, at: at as u64 }
}

fn token(kind: TokenKind, start: usize, end: usize) -> Result<Option<Token>, Refusal> {
    Ok(Some(Token { kind, start: start as u64, end: end as u64 }))
}

fn token_at(bytes: &[u8], at: usize) -> Result<Option<Token>, Refusal> {
    if at == bytes.len() {
        return Ok(None);
    }
    match bytes[at] {
        b'(' => token(TokenKind::Open, at, at + 1),
        b')' => token(TokenKind::Close, at, at + 1),
        b'"' => match string_end(bytes, at + 1) {
            Some(end) => token(TokenKind::Text, at, end),
            None => Err(bad_byte(at)),
        },
        b'|' => {
            let mut end = at + 1;
            while end < bytes.len() && bytes[end] != b'|' && bytes[end] != b'\\' {
                end += 1;
            }
            if end == bytes.len() {
                Err(bad_byte(at))
            } else if bytes[end] == b'|' {
                token(TokenKind::Quoted, at, end + 1)
            } else {
                Err(bad_byte(end))
            }
        }
        byte if is_word_byte(byte) => {
            let mut end = at;
            while end < bytes.len() && is_word_byte(bytes[end]) {
                end += 1;
            }
            if byte.is_ascii_digit() && !is_number(&bytes[at..end]) {
                Err(bad_byte(at))
            } else {
                token(TokenKind::Word, at, end)
            }
        }
        _ => Err(bad_byte(at)),
    }
}

impl Lexer<'_> {
    fn next(&mut self) -> Result<Option<Token>, Refusal> {
        let start = blanks_end(self.bytes, self.place);
        let found = token_at(self.bytes, start)?;
        if let Some(token) = found {
            self.place = token.end as usize;
        }
        Ok(found)
    }
}

fn form(bytes: &[u8]) -> Result<(), Refusal> {
    let mut lexer = Lexer { bytes, place: 0 };
    let mut depth = 0u64;
    let mut outermost = 0u64;
    while let Some(token) = lexer.next()? {
        if depth == 0 {
            outermost = token.start;
        }
        match token.kind {
            TokenKind::Open => depth += 1,
            TokenKind::Close if depth == 0 => {
                return Err(Refusal { cause: Cause::StrayClose, at: token.start });
            }
            TokenKind::Close => depth -= 1,
            TokenKind::Text | TokenKind::Quoted | TokenKind::Word => {}
        }
    }
    if depth == 0 {
        Ok(())
    } else {
        Err(Refusal { cause: Cause::OpenList, at: outermost })
    }
}

fn token_count(text: &[u8]) -> u64 {
    let mut lexer = Lexer { bytes: text, place: 0 };
    let mut count = 0;
    while let Ok(Some(_)) = lexer.next() {
        count += 1;
    }
    count
}

fn main() {
    let path = std::env::args().nth(1).expect("a file");
    let text = std::fs::read(path).expect("a file that can be read");
    let begin = Instant::now();
    match form(&text) {
        Ok(()) => println!("form: ok"),
        Err(refusal) => println!("form: {:?} at {}", refusal.cause, refusal.at),
    }
    let judged = begin.elapsed();
    let begin = Instant::now();
    println!("tokens: {}", token_count(&text));
    let counted = begin.elapsed();
    println!("form: {} us, tokens: {} us", judged.as_micros(), counted.as_micros());
}
