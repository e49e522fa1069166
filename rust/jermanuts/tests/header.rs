//! The crate says the numbers and lengths that the header for C says.

use jermanuts::Refusal;

const HEADER: &str = include_str!("../../../include/jermanuts.h");

/// The number that a line gives to a name, as `NAME = 1,` in the enum or `#define NAME 1`.
fn value(name: &str) -> Option<u32> {
    HEADER.lines().find_map(|line| {
        let words: Vec<&str> = line
            .split([' ', ',', '='])
            .filter(|w| !w.is_empty())
            .collect();
        let at = words.iter().position(|word| *word == name)?;
        words.get(at + 1)?.parse().ok()
    })
}

/// A name as the header spells it: `BadTable` is `JERMANUTS_BAD_TABLE`.
fn spelled(name: &str) -> String {
    let mut spelled = "JERMANUTS".to_string();
    for letter in name.chars() {
        if letter.is_uppercase() {
            spelled.push('_');
        }
        spelled.push(letter.to_ascii_uppercase());
    }
    spelled
}

#[test]
fn numbers() {
    assert_eq!(value("JERMANUTS_TAKEN"), Some(0));
    for refusal in Refusal::ALL {
        let name = spelled(&format!("{refusal:?}"));
        assert_eq!(value(&name), Some(refusal.number()), "{name}");
    }
    let named = HEADER.matches("    JERMANUTS_").count();
    assert_eq!(named, 1 + Refusal::ALL.len());
}

#[test]
fn numbers_rise_from_1() {
    for (at, refusal) in Refusal::ALL.iter().enumerate() {
        assert_eq!(refusal.number() as usize, at + 1);
    }
}

#[test]
fn lengths() {
    let lengths = [
        ("JERMANUTS_SESSION", jermanuts::SESSION),
        ("JERMANUTS_WORK", jermanuts::WORK),
        ("JERMANUTS_SHELF", jermanuts::SHELF),
        ("JERMANUTS_TAPE", jermanuts::TAPE),
        ("JERMANUTS_OUT", jermanuts::OUT),
        ("JERMANUTS_FILE", jermanuts::FILE),
    ];
    for (name, length) in lengths {
        assert_eq!(value(name), Some(length as u32), "{name}");
    }
}

#[test]
fn sentences_differ() {
    for refusal in Refusal::ALL {
        let same = Refusal::ALL
            .iter()
            .filter(|other| other.to_string() == refusal.to_string());
        assert_eq!(same.count(), 1, "{refusal}");
    }
}
