//! The refusals here, in ../include/digribbon.h and in docs/REFUSALS.md are the same, by name too in the first two.

use digribbon::{Error, Refusal};
use std::fs;
use std::path::Path;

fn lines(file: &str) -> Vec<String> {
    let path = Path::new(env!("CARGO_MANIFEST_DIR")).join(file);
    let text = fs::read_to_string(&path).unwrap_or_else(|error| panic!("{}: {error}", path.display()));
    text.lines().map(str::to_string).collect()
}

/// The lines with a number in the place after `start`.
fn numbered(file: &str, start: &str) -> Vec<String> {
    let is_numbered = |line: &String| {
        line.trim_start().strip_prefix(start).is_some_and(|rest| rest.starts_with(|c: char| c.is_ascii_digit()))
    };
    lines(file).into_iter().filter(is_numbered).collect()
}

#[test]
fn docs_have_the_same_table() {
    let table = Refusal::ALL.iter().map(|refusal| {
        let (number, sentence, cause) = (refusal.number(), refusal.sentence(), refusal.cause());
        format!("| {number} | {sentence} | {cause} |")
    });
    assert_eq!(numbered("../../docs/REFUSALS.md", "| "), table.collect::<Vec<_>>());
}

/// `TextAbove65535` as `DIGRIBBON_TEXT_ABOVE_65535`.
fn name_in_c(refusal: Refusal) -> String {
    let mut name = "DIGRIBBON".to_string();
    let mut in_number = false;
    for character in format!("{refusal:?}").chars() {
        let is_digit = character.is_ascii_digit();
        if character.is_ascii_uppercase() || is_digit && !in_number {
            name.push('_');
        }
        in_number = is_digit;
        name.push(character.to_ascii_uppercase());
    }
    name
}

#[test]
fn header_has_the_same_table() {
    let table = Refusal::ALL.iter().map(|refusal| {
        let (number, sentence, cause) = (refusal.number(), refusal.sentence(), refusal.cause());
        format!("refusal({number}, {}, \"{cause}\", \"{sentence}\")", name_in_c(*refusal))
    });
    let header = numbered("../include/digribbon.h", "refusal(");
    let header = header.iter().map(|line| line.trim_end_matches('\\').trim().to_string());
    assert_eq!(header.collect::<Vec<_>>(), table.collect::<Vec<_>>());
}

#[test]
fn numbers_lead_back() {
    for (place, refusal) in Refusal::ALL.iter().enumerate() {
        assert_eq!(refusal.number(), place as u64 + 1);
        assert_eq!(Refusal::from_number(refusal.number()), Some(*refusal));
    }
    assert_eq!(Refusal::from_number(0), None);
    assert_eq!(Refusal::from_number(Refusal::ALL.len() as u64 + 1), None);
    assert_eq!(Refusal::from_number(u64::MAX), None);
}

#[test]
fn errors_say_what_their_refusal_says() {
    for refusal in Refusal::ALL {
        let error = Error::from(*refusal);
        assert_eq!((error.refusal(), error.value_position(), error.pair_position()), (*refusal, None, None));
        assert_eq!((error.number(), error.cause()), (refusal.number(), refusal.cause()));
        assert_eq!(error.to_string(), format!("refusal {}: {}", refusal.number(), refusal.sentence()));
    }
}
