//! The tokens of a text that was JSON once, and what stands between its brackets. Nothing is a fault: what is no token has
//! one of its own, and brackets that do not meet are no group.

use std::ops::Range;

#[derive(Clone, Copy, PartialEq, Eq)]
pub enum Kind {
    Open,
    Close,
    Comma,
    Text,
    /// A number, or a word.
    Word,
    Other,
}

#[derive(Clone)]
pub struct Token {
    pub kind: Kind,
    /// Its bytes.
    pub at: Range<usize>,
}

/// What stands between two brackets.
pub struct Group {
    pub is_object: bool,
    /// The bytes of each element, without commas.
    pub elements: Vec<Range<usize>>,
}

fn is_word(byte: u8) -> bool {
    byte.is_ascii_alphanumeric() || matches!(byte, b'-' | b'+' | b'.')
}

/// The end of the text in quotes that begins here.
fn end_of_text(text: &[u8], first: usize) -> usize {
    let mut at = first + 1;
    while at < text.len() && text[at] != b'"' {
        at += if text[at] == b'\\' { 2 } else { 1 };
    }
    text.len().min(at + 1)
}

pub fn tokens(text: &[u8]) -> Vec<Token> {
    let mut found = Vec::new();
    let mut at = 0;
    while at < text.len() {
        let (kind, end) = match text[at] {
            b'[' | b'{' => (Kind::Open, at + 1),
            b']' | b'}' => (Kind::Close, at + 1),
            b',' => (Kind::Comma, at + 1),
            b'"' => (Kind::Text, end_of_text(text, at)),
            byte if is_word(byte) => {
                let rest = text[at..].iter().position(|&byte| !is_word(byte));
                (Kind::Word, rest.map_or(text.len(), |length| at + length))
            }
            _ => (Kind::Other, at + 1),
        };
        found.push(Token { kind, at: at..end });
        at = end;
    }
    found
}

/// All groups that have elements.
pub fn groups(text: &[u8]) -> Vec<Group> {
    let mut found = Vec::new();
    // of each group that is open: its bracket, where the element begins, and the ones before it
    let mut open: Vec<(u8, usize, Vec<Range<usize>>)> = Vec::new();
    for token in tokens(text) {
        let Range { start, end } = token.at;
        match token.kind {
            Kind::Open => open.push((text[start], end, Vec::new())),
            Kind::Comma => {
                if let Some((_, first, elements)) = open.last_mut() {
                    elements.push(*first..start);
                    *first = end;
                }
            }
            Kind::Close => {
                if let Some((bracket, first, mut elements)) = open.pop() {
                    elements.push(first..start);
                    if elements.len() > 1 || first < start {
                        let is_object = bracket == b'{';
                        found.push(Group {
                            is_object,
                            elements,
                        });
                    }
                }
            }
            _ => {}
        }
    }
    found
}

/// Whether a member of an object may be there twice: one key is another's, or is written with escapes.
pub fn may_have_member_twice(text: &[u8]) -> bool {
    groups(text)
        .iter()
        .filter(|group| group.is_object)
        .any(|group| {
            let mut keys: Vec<&[u8]> = group
                .elements
                .iter()
                .map(|at| key_of(&text[at.clone()]))
                .collect();
            keys.sort_unstable();
            keys.windows(2).any(|pair| pair[0] == pair[1])
                || keys.iter().any(|key| key.contains(&b'\\'))
        })
}

/// What stands before the colon of a member.
fn key_of(member: &[u8]) -> &[u8] {
    let end = member.iter().position(|&byte| byte == b':');
    member[..end.unwrap_or(member.len())].trim_ascii()
}
