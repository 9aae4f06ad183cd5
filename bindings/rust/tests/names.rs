//! The names of flags, launch modes and editions, there and back; and what flags
//! do with each other.

#[path = "common/flags.rs"]
mod flags;

use std::fmt::{Debug, Display};
use std::str::FromStr;

use flags::{CTP, NOH, NONE, NTK, STP};
use milchkompass::{Edition, Flags, LaunchMode};

/// The text that each displays is parsed to the same.
fn comes_back<T>(one: T, text: &str)
where
    T: Copy + Debug + Display + PartialEq + FromStr,
    T::Err: Debug + PartialEq,
{
    assert_eq!(one.to_string(), text);
    assert_eq!(text.parse::<T>(), Ok(one));
}

/// The text is none of them, and the error says so.
fn is_none<T>(text: &str, said: &str)
where
    T: Debug + FromStr,
    T::Err: Display,
{
    let error = text.parse::<T>().expect_err(text);
    assert_eq!(error.to_string(), said);
}

#[test]
fn launch_modes() {
    let names = ["standard", "single-top", "single-task", "single-instance"];
    assert_eq!(LaunchMode::ALL.len(), names.len());
    for (mode, name) in LaunchMode::ALL.iter().zip(names) {
        comes_back(*mode, name);
        assert_eq!(LaunchMode::try_from(mode.number()), Ok(*mode));
    }
    assert_eq!(format!("{:>12}|", LaunchMode::SingleTop), "  single-top|");
    for other in ["", "singleTop", "Standard", "single-top ", "0"] {
        let said = format!("'{other}' is the name of no launch mode");
        is_none::<LaunchMode>(other, &said);
    }
}

#[test]
fn editions() {
    comes_back(Edition::Android6, "Android 6.0");
    comes_back(Edition::Android7, "Android 7.0");
    comes_back(Edition::Android8, "Android 8.0");
    for other in ["", "8", "Android 8", "Android 9.0", "android 8.0"] {
        let said = format!("'{other}' is the name of no edition");
        is_none::<Edition>(other, &said);
    }
}

#[test]
fn texts_of_flags() {
    comes_back(NONE, "");
    comes_back(STP | NTK, "NEW_TASK|SINGLE_TOP");
    comes_back(Flags::from_bits_retain(0x4000_0001), "NO_HISTORY|0x1");
    comes_back(Flags::from_bits_retain(0x8000_0000), "0x80000000");
    assert_eq!(format!("{:>10}|", CTP), " CLEAR_TOP|");
    assert_eq!(" CLEAR_TOP | NEW_TASK ".parse(), Ok(NTK | CTP));
    assert_eq!(
        "0x10000001|0x1".parse(),
        Ok(NTK | Flags::from_bits_retain(1))
    );
    assert_eq!("  ".parse(), Ok(NONE));
    for (text, part) in [
        ("CLEAR", "CLEAR"),
        ("new_task", "new_task"),
        ("NEW_TASK|", ""),
        ("NEW_TASK|CLEAR TOP", "CLEAR TOP"),
        ("0x", "0x"),
        ("0x+1", "0x+1"),
        ("0x100000000", "0x100000000"),
        ("1", "1"),
    ] {
        is_none::<Flags>(text, &format!("'{part}' is the name of no flag"));
    }
}

/// The words of each choice among the seven flags, with these other bits.
fn words(other: u32) -> impl Iterator<Item = Flags> {
    let all: Vec<Flags> = Flags::all().iter_names().map(|(_, flag)| flag).collect();
    (0..1 << all.len()).map(move |choice: u32| {
        let chosen = all.iter().enumerate().filter(|(i, _)| choice >> i & 1 == 1);
        chosen.fold(Flags::from_bits_retain(other), |word, (_, flag)| {
            word | *flag
        })
    })
}

#[test]
fn every_word_comes_back() {
    for other in [0, 1, 0x8000_0000, !Flags::all().bits()] {
        assert_eq!(words(other).count(), 128);
        for word in words(other) {
            comes_back(word, &word.to_string());
        }
    }
}

#[test]
fn operations() {
    for word in words(0) {
        assert_eq!((word | !word, word & !word), (Flags::all(), NONE));
        assert_eq!(!!word, word);
        for other in [NONE, NTK, NTK | STP, Flags::all()] {
            let (mut more, mut less, mut apart) = (word, word, word);
            more.insert(other);
            less.remove(other);
            apart -= other;
            assert_eq!(more, word | other);
            assert_eq!(less, word & !other);
            assert_eq!((word - other, apart), (less, less));
            assert_eq!(word.intersects(other), word & other != NONE);
        }
    }
}

/// Bits outside the seven: `!` gives none of them, and `-` takes those named.
#[test]
fn other_bits() {
    let bits = Flags::from_bits_retain;
    assert_eq!(!bits(1), Flags::all());
    assert_eq!(!(bits(1) | NOH) | NOH, Flags::all());
    assert_eq!(bits(3) - bits(1), bits(2));
    let mut word = bits(2) | NTK;
    assert!(word.intersects(bits(6)) && !word.intersects(bits(4)));
    word.remove(NTK);
    assert_eq!(word, bits(2));
    word.insert(bits(1));
    assert_eq!(word, bits(3));
}
