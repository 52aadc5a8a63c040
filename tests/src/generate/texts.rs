//! Texts of offset files in many layouts, damaged by the word, by the byte and in length.

use super::layouts::{put_padded, Layout, MOST_DIGITS, SEPARATORS};
use super::random::Random;
use super::FileNumbers;
use crate::peer::ranges::{is_too_long, Range, HALF_BREADTH, ITEM, PARTICULARS, TANK};
use crate::peer::ranges::{LONGEST_FILE, MOST_ITEMS, MOST_TANKS};

/// Widths that leave a padded number none: one digit too many, mostly.
const TOO_MANY_DIGITS: [usize; 4] = [MOST_DIGITS + 1, MOST_DIGITS + 1, MOST_DIGITS + 2, 20];

/// Tokens that just are a number, then those that are none.
const ODD_TOKENS: [&[u8]; 47] = [
    b"00",
    b"05",
    b"010",
    b"-01",
    b"-08",
    b"000000000",
    b"000000005",
    b"-000000001",
    b"999999999",
    b"-999999999",
    b"-",
    b"-0",
    b"-00",
    b"-000000000",
    b"-0000000000",
    b"0000000000",
    b"0000000005",
    b"-0000000005",
    b"1000000000",
    b"1234567890",
    b"-1234567890",
    b"4294967301",
    b"9223372036854775808",
    b"18446744073709551616",
    b"18446744073709551621",
    b"--1",
    b"+1",
    b"5-",
    b"1-1",
    b"00-1",
    b"00000000-1",
    b"0x5",
    b"5.0",
    b"5,0",
    b"5e0",
    b"/:",
    b"\0",
    b"5\0",
    b"\x085",
    b"\x0b",
    b"\x0b5",
    b"5\x0b",
    b"\x0c5",
    b"5\x0c",
    b"5\x0e",
    b"\xff",
    b"\xc2\xa0",
];

/// A number of the file with the range it must keep, or the bytes that stand instead of it.
struct Word {
    number: i64,
    range: Range,
    instead: Option<Vec<u8>>,
}

/// The particulars with the counts before and after them.
const FIRST_WORDS: usize = 1 + PARTICULARS.len() + 1;

/// The file's text with so many things wrong.
pub fn text(random: &mut Random, numbers: &FileNumbers, damages: u64) -> Vec<u8> {
    if damages > 0 && random.one_in(30) {
        return rubbish(random);
    }
    let mut words = words(numbers);
    let in_words = random.below(damages + 1);
    for _ in 0..in_words {
        // what is wrong further back is not seen where the hull is too long
        let among_first = is_too_long(&numbers.particulars) || random.one_in(3);
        damage_word(random, &mut words, if among_first { FIRST_WORDS } else { usize::MAX });
    }
    let mut text = laid_out(random, &words);
    for _ in in_words..damages {
        damage_bytes(random, &mut text);
    }
    if random.one_in(40) {
        lengthen(random, &mut text);
    }
    text
}

fn words(numbers: &FileNumbers) -> Vec<Word> {
    let FileNumbers { particulars, half_breadths, items, tanks } = numbers;
    let mut words = Vec::with_capacity(4 + 5 + half_breadths.len() + items.len() + tanks.len());
    let exactly = |count: usize| Range { least: count as i64, greatest: count as i64 };
    let up_to = |count: usize| Range { least: 0, greatest: count as i64 };
    section(&mut words, 5, exactly(5), particulars.iter().map(|&number| number as i64), &PARTICULARS);
    let count = half_breadths.len();
    section(&mut words, count, exactly(count), half_breadths.iter().map(|&y| y as i64), &[HALF_BREADTH]);
    section(&mut words, items.len() / ITEM.len(), up_to(MOST_ITEMS), items.iter().copied(), &ITEM);
    section(&mut words, tanks.len() / TANK.len(), up_to(MOST_TANKS), tanks.iter().copied(), &TANK);
    words
}

/// A count and its numbers, whose ranges repeat.
fn section(words: &mut Vec<Word>, count: usize, counts: Range, numbers: impl Iterator<Item = i64>, ranges: &[Range]) {
    words.push(Word { number: count as i64, range: counts, instead: None });
    let ranges = ranges.iter().cycle();
    words.extend(numbers.zip(ranges).map(|(number, &range)| Word { number, range, instead: None }));
}

/// Damages one of so many words, or of all if they are fewer.
fn damage_word(random: &mut Random, words: &mut Vec<Word>, among: usize) {
    if words.is_empty() {
        return;
    }
    let at = random.index(words.len().min(among));
    let Range { least, greatest } = words[at].range;
    match random.below(12) {
        0..=2 => words[at].instead = Some(odd_token(random)),
        3..=5 => words[at].number = random.pick(&[least - 1, least, greatest, greatest + 1, -greatest]),
        6 => words[at].number = random.between(-999_999_999, 999_999_999),
        7 => drop(words.remove(at)),
        8 => words.insert(at, Word { number: random.between(0, 40), range: words[at].range, instead: None }),
        9 => words[at].instead = Some(padded_too_far(random, words[at].number)),
        10 => words.truncate(at),
        _ => {
            let instead = if random.one_in(2) { Some(odd_token(random)) } else { None };
            words.push(Word { number: random.between(-5, 5), range: words[at].range, instead });
        }
    }
}

fn odd_token(random: &mut Random) -> Vec<u8> {
    if random.one_in(4) {
        let length = random.between(1, 12);
        return (0..length).map(|_| any_byte(random)).collect();
    }
    random.pick(&ODD_TOKENS).to_vec()
}

fn padded_too_far(random: &mut Random, number: i64) -> Vec<u8> {
    let mut token = Vec::new();
    put_padded(&mut token, number, random.pick(&TOO_MANY_DIGITS));
    token
}

/// Often one that stands in numbers or separates them, or a neighbour of those.
fn any_byte(random: &mut Random) -> u8 {
    if random.one_in(2) {
        random.pick(b"0123456789- \n\t\r\x0b\x0c+")
    } else {
        random.next() as u8
    }
}

fn laid_out(random: &mut Random, words: &[Word]) -> Vec<u8> {
    let layout = Layout::any(random);
    let mut text = Vec::with_capacity(8 * words.len() + 8);
    layout.put_margin(random, &mut text);
    for (i, word) in words.iter().enumerate() {
        if i > 0 {
            layout.put_gap(random, &mut text);
        }
        match &word.instead {
            Some(bytes) => text.extend(bytes),
            None => layout.put_number(random, &mut text, word.number),
        }
    }
    layout.put_margin(random, &mut text);
    text
}

fn damage_bytes(random: &mut Random, text: &mut Vec<u8>) {
    if text.is_empty() {
        return;
    }
    let at = random.index(text.len());
    let byte = any_byte(random);
    match random.below(5) {
        0 => text.truncate(at),
        1 => text[at] = byte,
        2 => text.insert(at, byte),
        3 => drop(text.remove(at)),
        _ => text.push(byte),
    }
}

/// Fills up with separators to the greatest length or half of it, to one less or more, or beyond: in front, behind, or
/// inside.
fn lengthen(random: &mut Random, text: &mut Vec<u8>) {
    let whole = random.pick(&[LONGEST_FILE, LONGEST_FILE, LONGEST_FILE / 2]);
    let beyond = whole + random.index(whole);
    let length = random.pick(&[whole - 1, whole, whole, whole + 1, beyond]);
    let inside = text.iter().position(|byte| SEPARATORS.contains(byte)).unwrap_or(0);
    let at = random.pick(&[0, inside, text.len()]);
    let separator = random.pick(&SEPARATORS);
    let missing = length.saturating_sub(text.len());
    text.splice(at..at, std::iter::repeat_n(separator, missing));
}

/// Nothing, separators alone, or bytes of any kind.
fn rubbish(random: &mut Random) -> Vec<u8> {
    let length = random.index(40);
    match random.below(4) {
        0 => Vec::new(),
        1 => (0..length).map(|_| random.pick(&SEPARATORS)).collect(),
        2 => (0..length).map(|_| random.pick(b"0123456789 \n\t\r-")).collect(),
        _ => (0..length).map(|_| random.next() as u8).collect(),
    }
}
