//! Patterns of AppArmor, as docs/policy.md tells them: each as a regex of bytes, and paths that it matches.

use crate::{Numbers, Result};

/// A part of a pattern.
enum Item {
    Byte(u8),
    /// One byte that is listed, or that isn't; zero is never one.
    Class {
        negated: bool,
        members: Vec<(u8, u8)>,
    },
    /// One byte other than the slash.
    One,
    /// A run of stars: over slashes or not, and whether it is a whole segment, which isn't empty.
    Stars {
        slashes: bool,
        segment: bool,
    },
    Group(Vec<Vec<Item>>),
}

/// A pattern, as its items.
pub struct Pattern {
    items: Vec<Item>,
}

impl Pattern {
    /// The pattern of a text that aaset took.
    pub fn of(text: &str) -> Result<Pattern> {
        let mut at = 0;
        let items = items(text.as_bytes(), &mut at, false)?;
        if at != text.len() {
            return Err(format!("a brace closes no group: {text}").into());
        }
        Ok(Pattern { items })
    }

    /// The regex of the texts that the pattern matches, without what anchors it.
    pub fn regex(&self) -> String {
        let mut regex = String::new();
        write_regex(&self.items, &mut regex);
        regex
    }

    /// A path that the pattern matches; where a length is given, one that is filled up to it behind two stars.
    pub fn path(&self, numbers: &mut Numbers, length: Option<usize>) -> Vec<u8> {
        let mut path = Vec::new();
        let mut stars = None;
        write_path(&self.items, numbers, &mut path, &mut stars);
        if let (Some(length), Some(at)) = (length, stars) {
            let missing = length.saturating_sub(path.len());
            path.splice(at..at, b"/folder1/some-name.d".iter().cycle().take(missing).copied());
        }
        path
    }

    /// Whether two stars stand in it.
    pub fn has_stars(&self) -> bool {
        has_stars(&self.items)
    }
}

fn has_stars(items: &[Item]) -> bool {
    items.iter().any(|item| match item {
        Item::Stars { slashes, .. } => *slashes,
        Item::Group(alternatives) => alternatives.iter().any(|alternative| has_stars(alternative)),
        _ => false,
    })
}

/// A byte, or the one behind a backslash.
fn byte(text: &[u8], at: &mut usize) -> Result<u8> {
    if text.get(*at) == Some(&b'\\') {
        *at += 1;
    }
    let byte = *text.get(*at).ok_or("a pattern ends too early")?;
    *at += 1;
    Ok(byte)
}

/// The items up to the text's end, or in a group up to a comma or the brace.
fn items(text: &[u8], at: &mut usize, grouped: bool) -> Result<Vec<Item>> {
    let mut items = Vec::new();
    while let Some(first) = text.get(*at) {
        match first {
            b',' if grouped => break,
            b'}' => break,
            b'*' => {
                let before = *at;
                while text.get(*at) == Some(&b'*') {
                    *at += 1;
                }
                let segment = before > 0 && text[before - 1] == b'/' && matches!(text.get(*at), None | Some(b'/'));
                items.push(Item::Stars { slashes: *at - before > 1, segment });
            }
            b'?' => {
                *at += 1;
                items.push(Item::One);
            }
            b'[' => {
                *at += 1;
                let negated = text.get(*at) == Some(&b'^');
                *at += usize::from(negated);
                let mut members = Vec::new();
                while text.get(*at) != Some(&b']') {
                    let low = byte(text, at)?;
                    let ranges = text.get(*at) == Some(&b'-') && !matches!(text.get(*at + 1), None | Some(b']'));
                    let high = if ranges {
                        *at += 1;
                        byte(text, at)?
                    } else {
                        low
                    };
                    members.push((low, high));
                }
                *at += 1;
                items.push(Item::Class { negated, members });
            }
            b'{' => {
                let mut alternatives = Vec::new();
                while text.get(*at) != Some(&b'}') {
                    *at += 1;
                    alternatives.push(self::items(text, at, true)?);
                    if *at == text.len() {
                        return Err("a group isn't closed".into());
                    }
                }
                *at += 1;
                items.push(Item::Group(alternatives));
            }
            _ => items.push(Item::Byte(byte(text, at)?)),
        }
    }
    Ok(items)
}

fn write_regex(items: &[Item], regex: &mut String) {
    for item in items {
        match item {
            Item::Byte(byte) => regex.push_str(&format!("\\x{byte:02X}")),
            Item::Class { negated, members } => {
                regex.push_str(if *negated { "[^\\x00" } else { "[" });
                for (low, high) in members {
                    regex.push_str(&format!("\\x{low:02X}-\\x{high:02X}"));
                }
                regex.push(']');
            }
            Item::One => regex.push_str("[^/\\x00]"),
            Item::Stars { slashes: false, segment: false } => regex.push_str("[^/\\x00]*"),
            Item::Stars { slashes: false, segment: true } => regex.push_str("[^/\\x00]+"),
            Item::Stars { slashes: true, segment: false } => regex.push_str("[^\\x00]*"),
            Item::Stars { slashes: true, segment: true } => regex.push_str("[^/\\x00][^\\x00]*"),
            Item::Group(alternatives) => {
                regex.push_str("(?:");
                for (at, alternative) in alternatives.iter().enumerate() {
                    if at > 0 {
                        regex.push('|');
                    }
                    write_regex(alternative, regex);
                }
                regex.push(')');
            }
        }
    }
}

/// Some letters and digits, so many at least.
fn write_word(numbers: &mut Numbers, least: usize, path: &mut Vec<u8>) {
    const LETTERS: &[u8] = b"abcdefghijklmnopqrstuvwxyz0123456789";
    for _ in 0..least + numbers.below(8) {
        path.push(LETTERS[numbers.below(LETTERS.len())]);
    }
}

/// What the items match, chosen by numbers, and the place behind the first two stars.
fn write_path(items: &[Item], numbers: &mut Numbers, path: &mut Vec<u8>, stars: &mut Option<usize>) {
    for item in items {
        match item {
            Item::Byte(byte) => path.push(*byte),
            Item::One => path.push(b'a' + numbers.below(26) as u8),
            Item::Class { negated: false, members } => {
                let (low, high) = members[numbers.below(members.len())];
                path.push(low + numbers.below(usize::from(high - low) + 1) as u8);
            }
            Item::Class { negated: true, members } => {
                let others: Vec<u8> =
                    (b'!'..=b'~').filter(|byte| *byte != b'"' && !members.iter().any(|(low, high)| low <= byte && byte <= high)).collect();
                path.push(others.get(numbers.below(others.len().max(1))).copied().unwrap_or(b'a'));
            }
            Item::Stars { slashes, segment } => {
                write_word(numbers, usize::from(*segment), path);
                if *slashes {
                    for _ in 0..numbers.below(3) {
                        path.push(b'/');
                        write_word(numbers, 1, path);
                    }
                    stars.get_or_insert(path.len());
                }
            }
            Item::Group(alternatives) => write_path(&alternatives[numbers.below(alternatives.len())], numbers, path, stars),
        }
    }
}
