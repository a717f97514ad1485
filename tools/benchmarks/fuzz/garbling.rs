//! Texts that are nearly what they were: each change is of a kind that a reader or a test could take for right.

use crate::chance::Chance;
use crate::tokens::{groups, tokens, Group, Kind};
use std::ops::Range;

type Change = fn(&[u8], &mut Chance) -> Option<Vec<u8>>;

/// The kinds of changes; what mostly leaves a text well-formed stands there more often.
const CHANGES: [Change; 18] = [
    with_other_number,
    with_other_number,
    with_other_number,
    with_other_number,
    with_tokens_exchanged,
    with_tokens_exchanged,
    with_elements_exchanged,
    with_elements_exchanged,
    without_element,
    without_edge,
    with_row_twice,
    with_field_twice,
    with_bytes_flipped,
    cut,
    with_more_behind,
    nested,
    with_space,
    with_escapes,
];

/// A text after one to three changes.
pub fn garbled(text: &[u8], chance: &mut Chance) -> Vec<u8> {
    let mut garbled = text.to_vec();
    for _ in 0..chance.pick(&[1, 1, 1, 2, 3]) {
        if let Some(changed) = chance.pick(&CHANGES)(&garbled, chance) {
            garbled = changed;
        }
    }
    garbled
}

/// The text with these bytes in the place of others.
fn replaced(text: &[u8], at: Range<usize>, bytes: &[u8]) -> Vec<u8> {
    [&text[..at.start], bytes, &text[at.end..]].concat()
}

/// The text with the bytes of two ranges exchanged, where neither lies in the other.
fn exchanged(text: &[u8], one: Range<usize>, other: Range<usize>) -> Option<Vec<u8>> {
    let (first, last) = if one.start < other.start {
        (one, other)
    } else {
        (other, one)
    };
    (first.end <= last.start).then(|| {
        let behind = replaced(text, last.clone(), &text[first.clone()]);
        replaced(&behind, first, &text[last])
    })
}

/// The bytes of a token of one of these kinds.
fn token(text: &[u8], kinds: &[Kind], chance: &mut Chance) -> Option<Range<usize>> {
    let mut found = tokens(text);
    found.retain(|token| kinds.contains(&token.kind));
    (!found.is_empty()).then(|| found.swap_remove(chance.below(found.len())).at)
}

/// The elements of a group, and which of them.
fn element(
    text: &[u8],
    is_due: impl Fn(bool, usize) -> bool,
    chance: &mut Chance,
) -> Option<(Vec<Range<usize>>, usize)> {
    let mut found = groups(text);
    found.retain(|group| is_due(group.is_object, group.elements.len()));
    (!found.is_empty()).then(|| {
        let elements = found.swap_remove(chance.below(found.len())).elements;
        let which = chance.below(elements.len());
        (elements, which)
    })
}

fn other_number(digits: &[u8], chance: &mut Chance) -> String {
    let number: u64 = std::str::from_utf8(digits)
        .ok()
        .and_then(|it| it.parse().ok())
        .unwrap_or(0);
    match chance.below(24) {
        0..=5 => (number + 1).to_string(),
        6..=10 => number.saturating_sub(1).to_string(),
        11..=19 => chance.below(12).to_string(),
        20 => chance
            .pick(&[
                63, 64, 1000, 1001, 65_535, 65_536, 65_537, 1_048_576, 1_048_577,
            ])
            .to_string(),
        21 => chance
            .pick(&[u64::from(u32::MAX), 1 << 32, u64::MAX])
            .to_string(),
        22 => format!(
            "{number}{}",
            chance.pick(&[".0", "e0", "E2", ".5", "0", "-"])
        ),
        _ => format!(
            "{}{number}",
            chance.pick(&["-", "0", "+", "1844674407370955161", "."])
        ),
    }
}

fn with_other_number(text: &[u8], chance: &mut Chance) -> Option<Vec<u8>> {
    let at = token(text, &[Kind::Word], chance)?;
    let other = other_number(&text[at.clone()], chance);
    Some(replaced(text, at, other.as_bytes()))
}

fn with_tokens_exchanged(text: &[u8], chance: &mut Chance) -> Option<Vec<u8>> {
    let kinds = chance.pick(&[
        &[Kind::Word][..],
        &[Kind::Word],
        &[Kind::Text],
        &[Kind::Text, Kind::Word],
        &[Kind::Open, Kind::Close, Kind::Comma, Kind::Other],
    ]);
    let (one, other) = (token(text, kinds, chance)?, token(text, kinds, chance)?);
    exchanged(text, one, other)
}

/// Rows or numbers of an array, or members of an object.
fn with_elements_exchanged(text: &[u8], chance: &mut Chance) -> Option<Vec<u8>> {
    let (elements, which) = element(text, |_, count| count > 1, chance)?;
    let other = chance.below(elements.len());
    exchanged(text, elements[which].clone(), elements[other].clone())
}

/// An element of these bytes, with a comma beside it.
fn with_comma(text: &[u8], at: &Range<usize>) -> Range<usize> {
    if text[..at.start].ends_with(b",") {
        at.start - 1..at.end
    } else {
        at.start..at.end + usize::from(text.get(at.end) == Some(&b','))
    }
}

fn without_element(text: &[u8], chance: &mut Chance) -> Option<Vec<u8>> {
    let (elements, which) = element(text, |_, _| true, chance)?;
    Some(replaced(text, with_comma(text, &elements[which]), b""))
}

/// A row with an id, and all places of that id in lists of numbers: so a picture may fall apart.
fn without_edge(text: &[u8], chance: &mut Chance) -> Option<Vec<u8>> {
    let id = &text[token(text, &[Kind::Word], chance)?];
    let member = [b"\"id\":", id].concat();
    let mut gone = Vec::new();
    for Group {
        is_object,
        elements,
    } in groups(text)
    {
        let (first, last) = (elements.first()?.start, elements.last()?.end);
        if is_object && elements.iter().any(|at| text[at.clone()] == member) {
            gone.push(first - 1..last + 1);
        } else if !is_object
            && elements
                .iter()
                .all(|at| text[at.clone()].iter().all(u8::is_ascii_digit))
        {
            gone.extend(elements.into_iter().filter(|at| text[at.clone()] == *id));
        }
    }
    gone.sort_by_key(|at| at.start);
    let mut left = text.to_vec();
    let mut bound = text.len();
    for at in gone
        .iter()
        .rev()
        .map(|at| with_comma(text, at))
        .filter(|at| at.end <= text.len())
    {
        if at.end <= bound {
            left.drain(at.clone());
            bound = at.start;
        }
    }
    Some(left)
}

fn with_row_twice(text: &[u8], chance: &mut Chance) -> Option<Vec<u8>> {
    let (elements, which) = element(text, |is_object, _| !is_object, chance)?;
    let at = elements[which].clone();
    let twice = [&text[at.clone()], b",", &text[at.clone()]].concat();
    Some(replaced(text, at, &twice))
}

fn with_field_twice(text: &[u8], chance: &mut Chance) -> Option<Vec<u8>> {
    let (elements, which) = element(text, |is_object, _| is_object, chance)?;
    let place = elements[chance.below(elements.len())].start;
    let copy = [&text[elements[which].clone()], b","].concat();
    Some(replaced(text, place..place, &copy))
}

fn with_bytes_flipped(text: &[u8], chance: &mut Chance) -> Option<Vec<u8>> {
    let mut flipped = text.to_vec();
    for _ in 0..chance.pick(&[1, 1, 2, 8]) {
        let at = chance.below(flipped.len().max(1));
        *flipped.get_mut(at)? ^= if chance.one_in(2) {
            1 << chance.below(8)
        } else {
            chance.next() as u8
        };
    }
    Some(flipped)
}

fn cut(text: &[u8], chance: &mut Chance) -> Option<Vec<u8>> {
    let first = chance.below(text.len() + 1);
    let end = if chance.one_in(2) {
        text.len()
    } else {
        text.len().min(first + 1 + chance.below(20))
    };
    Some(replaced(text, first..end, b""))
}

fn with_more_behind(text: &[u8], chance: &mut Chance) -> Option<Vec<u8>> {
    let more = chance.pick(&[
        &b" "[..],
        b"\n\t\r ",
        b"\0",
        b"]",
        b"}",
        b",",
        b"{}",
        b"\xef\xbb\xbf",
    ]);
    Some([text, more].concat())
}

/// A value in brackets, with some of them missing at times.
fn nested(text: &[u8], chance: &mut Chance) -> Option<Vec<u8>> {
    let at = token(text, &[Kind::Word, Kind::Text], chance)?;
    let depth = chance.pick(&[1, 2, 100, 118, 122, 124, 126, 127, 128, 129, 1000, 100_000]);
    let closed = if chance.one_in(4) { depth / 2 } else { depth };
    let value = [
        &b"[".repeat(depth),
        &text[at.clone()],
        &b"]".repeat(closed)[..],
    ]
    .concat();
    Some(replaced(text, at, &value))
}

fn with_space(text: &[u8], chance: &mut Chance) -> Option<Vec<u8>> {
    let at = token(
        text,
        &[
            Kind::Word,
            Kind::Text,
            Kind::Open,
            Kind::Close,
            Kind::Comma,
            Kind::Other,
        ],
        chance,
    )?
    .start;
    let space = chance.pick(&[&b" "[..], b"\n", b"\t", b"\r\n", b"\x0b", b"\xc2\xa0"]);
    Some(replaced(text, at..at, space))
}

/// A character of a text, written as its number.
fn with_escapes(text: &[u8], chance: &mut Chance) -> Option<Vec<u8>> {
    let at = token(text, &[Kind::Text], chance)?;
    let place = at.start + 1 + chance.below(at.len().saturating_sub(2).max(1));
    let byte = *text.get(place)?;
    let escape = match chance.below(8) {
        0 => chance
            .pick(&[
                "\\ud800",
                "\\udc00",
                "\\uD83D\\uDE00",
                "\\u12",
                "\\x",
                "\\n",
                "\\u0000",
            ])
            .to_string(),
        1..=3 => format!("\\u{byte:04X}"),
        _ => format!("\\u{byte:04x}"),
    };
    Some(replaced(text, place..place + 1, escape.as_bytes()))
}
