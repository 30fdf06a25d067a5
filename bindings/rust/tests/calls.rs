//! The calls through the library, and the words of faults beside those of the header for C.

use helgrothy::{End, Error, Kind, count, fault, fault_text, list, total};

const SEVEN: &[u8] = b"a b c d e f g\nc e\na d g\nb c f\na d f\nb g\nd e g\n";
const LISTING: &[u8] = b"1:\n a d f (2 of 2)\n b g (1 of 1)\n c e (1 of 1)\n";

#[test]
fn counts_up_to_a_limit() {
    assert_eq!(count(Kind::Plain, SEVEN, 2), Ok((1, End::Done)));
    assert_eq!(count(Kind::Plain, SEVEN, 1), Ok((1, End::Limit)));
}

#[test]
fn totals_have_any_length() {
    assert_eq!(total(Kind::Plain, SEVEN, 1_000_000), Ok("1".to_string()));
    let items: Vec<String> = (0..300).map(|i| format!("i{i}")).collect();
    let options: String = items.iter().map(|item| format!("{item}\n{item}\n")).collect();
    let text = format!("{}\n{options}", items.join(" "));
    let digits = total(Kind::Plain, text.as_bytes(), 1_000_000).unwrap();
    assert_eq!((digits.len(), &digits[..10]), (91, "2037035976"));
}

#[test]
fn lists_what_has_room() {
    let mut buffer = [0; 1000];
    assert_eq!(list(Kind::Plain, SEVEN, 1, 2, &mut buffer), Ok((LISTING.len(), End::Done)));
    assert_eq!(&buffer[..LISTING.len()], LISTING);
    assert_eq!(list(Kind::Plain, SEVEN, 1, 2, &mut buffer[..9]), Ok((9, End::NoRoom)));
}

#[test]
fn a_fault_is_an_error_with_words() {
    let error = fault(Kind::Colours, b"A | x\nA x:").unwrap_err();
    assert_eq!(error, Error::Fault { line: 2, number: 14 });
    let error: Box<dyn std::error::Error> = error.into();
    assert_eq!(error.to_string(), "line 2: bad colour");
    assert_eq!(Error::Memory.to_string(), "out of memory");
}

#[test]
fn words_are_those_of_the_header() {
    let header = include_str!("../../c/helgrothy.h");
    let (_, rest) = header.split_once("texts[] = {").unwrap();
    let (list, _) = rest.split_once("};").unwrap();
    let words: Vec<&str> = list.split('"').skip(1).step_by(2).collect();
    assert_eq!(words.len(), 18);
    for (number, words) in (0..).zip(words) {
        assert_eq!(fault_text(number), words);
    }
    assert_eq!(fault_text(18), "unknown fault");
}
