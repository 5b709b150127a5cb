//! The rule sheet as a tree: read from bits, written to bits, judged on an image.

use crate::{DEEPEST, LONGEST_SHEET};

const EDITION: u64 = 1;

#[derive(Clone, Debug, PartialEq, Eq)]
pub enum Rule {
    /// The byte at `addr` is from `low` to `high`.
    Range {
        addr: u16,
        low: u8,
        high: u8,
    },
    /// The bytes at the two addresses are equal.
    Same {
        first: u16,
        second: u16,
    },
    All(Vec<Rule>),
    Any(Vec<Rule>),
}

impl Rule {
    pub fn holds(&self, image: &[u8]) -> bool {
        let byte = |addr: &u16| image.get(usize::from(*addr));
        match self {
            Rule::Range { addr, low, high } => {
                byte(addr).is_some_and(|found| (*low..=*high).contains(found))
            }
            Rule::Same { first, second } => match (byte(first), byte(second)) {
                (Some(one), Some(other)) => one == other,
                _ => false,
            },
            Rule::All(members) => members.iter().all(|member| member.holds(image)),
            Rule::Any(members) => members.iter().any(|member| member.holds(image)),
        }
    }

    pub fn depth(&self) -> usize {
        match self {
            Rule::Range { .. } | Rule::Same { .. } => 1,
            Rule::All(members) | Rule::Any(members) => {
                1 + members.iter().map(Rule::depth).max().unwrap_or(0)
            }
        }
    }
}

/// The sheet's rule, or nothing where number 5 applies.
pub fn read_sheet(sheet: &[u8]) -> Option<Rule> {
    if sheet.is_empty() || sheet.len() > LONGEST_SHEET {
        return None;
    }
    let mut bits: Vec<bool> = Vec::new();
    for byte in sheet {
        for place in (0..8).rev() {
            bits.push((byte >> place) & 1 == 1);
        }
    }
    let mut unread = bits.as_slice();
    if take(&mut unread, 4)? != EDITION {
        return None;
    }
    let rule = read_rule(&mut unread)?;
    let filling = unread;
    (rule.depth() <= DEEPEST && filling.len() < 8 && !filling.contains(&true)).then_some(rule)
}

// The whole tree is read before its depth is looked at. That ends, and within 512
// levels, because every level takes 8 bits of at most 512 bytes.
fn read_rule(unread: &mut &[bool]) -> Option<Rule> {
    match take(unread, 2)? {
        0 => Some(Rule::Range {
            addr: take(unread, 16)? as u16,
            low: take(unread, 8)? as u8,
            high: take(unread, 8)? as u8,
        }),
        1 => Some(Rule::Same { first: take(unread, 16)? as u16, second: take(unread, 16)? as u16 }),
        2 => Some(Rule::All(read_members(unread)?)),
        _ => Some(Rule::Any(read_members(unread)?)),
    }
}

fn read_members(unread: &mut &[bool]) -> Option<Vec<Rule>> {
    let count = take(unread, 6)?;
    (0..count).map(|_| read_rule(unread)).collect()
}

/// The number in the next `width` bits, most significant first.
fn take(unread: &mut &[bool], width: usize) -> Option<u64> {
    let (field, rest) = unread.split_at_checked(width)?;
    *unread = rest;
    Some(field.iter().fold(0, |number, bit| 2 * number + u64::from(*bit)))
}

/// The sheet that says `rule`, in edition 1. Groups may have up to 63 members.
pub fn write_sheet(rule: &Rule) -> Vec<u8> {
    let mut bits = Vec::new();
    put(&mut bits, 4, EDITION);
    write_rule(&mut bits, rule);
    while bits.len() % 8 != 0 {
        bits.push(false);
    }
    let byte = |eight: &[bool]| eight.iter().fold(0u8, |byte, bit| 2 * byte + u8::from(*bit));
    bits.chunks(8).map(byte).collect()
}

fn write_rule(bits: &mut Vec<bool>, rule: &Rule) {
    match rule {
        Rule::Range { addr, low, high } => {
            put(bits, 2, 0);
            put(bits, 16, u64::from(*addr));
            put(bits, 8, u64::from(*low));
            put(bits, 8, u64::from(*high));
        }
        Rule::Same { first, second } => {
            put(bits, 2, 1);
            put(bits, 16, u64::from(*first));
            put(bits, 16, u64::from(*second));
        }
        Rule::All(members) => write_group(bits, 2, members),
        Rule::Any(members) => write_group(bits, 3, members),
    }
}

fn write_group(bits: &mut Vec<bool>, tag: u64, members: &[Rule]) {
    assert!(members.len() < 64, "a group's member count has 6 bits");
    put(bits, 2, tag);
    put(bits, 6, members.len() as u64);
    for member in members {
        write_rule(bits, member);
    }
}

fn put(bits: &mut Vec<bool>, width: usize, number: u64) {
    for place in (0..width).rev() {
        bits.push((number >> place) & 1 == 1);
    }
}

#[cfg(test)]
mod tests {
    use super::*;

    fn nested(levels: usize, innermost: Rule) -> Rule {
        (0..levels).fold(innermost, |rule, _| Rule::All(vec![rule]))
    }

    #[test]
    fn document_01s_four_sheets() {
        assert_eq!(read_sheet(&[0x18, 0x00]), Some(Rule::All(vec![])));
        assert_eq!(read_sheet(&[0x1C, 0x00]), Some(Rule::Any(vec![])));
        assert_eq!(
            read_sheet(&[0x14, 0x00, 0x1C, 0x00, 0x20]),
            Some(Rule::Same { first: 7, second: 8 })
        );
        let sheet = [0x1C, 0x20, 0x00, 0x0C, 0x44, 0x44, 0x00, 0x03, 0x22, 0x22];
        let rule = Rule::Any(vec![
            Rule::Range { addr: 3, low: 0x11, high: 0x11 },
            Rule::Range { addr: 3, low: 0x22, high: 0x22 },
        ]);
        assert_eq!(read_sheet(&sheet), Some(rule.clone()));
        assert_eq!(write_sheet(&rule), sheet);
    }

    #[test]
    fn a_group_with_members_at_the_eighth_level_is_too_deep_and_an_empty_one_is_not() {
        assert!(read_sheet(&write_sheet(&nested(7, Rule::All(vec![])))).is_some());
        assert!(read_sheet(&write_sheet(&nested(8, Rule::All(vec![])))).is_none());
        let clause = Rule::Same { first: 0, second: 0 };
        assert!(read_sheet(&write_sheet(&nested(7, clause.clone()))).is_some());
        assert!(read_sheet(&write_sheet(&nested(8, clause))).is_none());
    }

    #[test]
    fn filling_is_short_and_zero() {
        assert!(read_sheet(&[0x18, 0x00, 0x00]).is_none());
        for bit in 0..4 {
            assert!(read_sheet(&[0x18, 1 << bit]).is_none());
        }
        assert!(read_sheet(&[0x18]).is_none());
        assert!(read_sheet(&[0x10]).is_none());
        assert!(read_sheet(&[]).is_none());
        assert!(read_sheet(&[0x08, 0x00]).is_none());
        assert!(read_sheet(&[0x28, 0x00]).is_none());
    }

    #[test]
    fn a_clause_is_false_past_the_image_and_with_low_above_high() {
        let image = [5, 5];
        assert!(Rule::Range { addr: 1, low: 5, high: 5 }.holds(&image));
        assert!(!Rule::Range { addr: 2, low: 0, high: 255 }.holds(&image));
        assert!(!Rule::Range { addr: 1, low: 6, high: 4 }.holds(&image));
        assert!(Rule::Same { first: 0, second: 1 }.holds(&image));
        assert!(!Rule::Same { first: 2, second: 2 }.holds(&image));
    }
}
