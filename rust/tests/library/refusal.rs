//! The numbers and texts of refusals.

use std::collections::BTreeSet;
use std::error::Error;

use jugnayap::Refusal;

/// In the order of their numbers: 1 to 17, then 41 to 43.
const ALL: [Refusal; 20] = [
    Refusal::FILE_SHORT,
    Refusal::FILE_SIZES,
    Refusal::FILE_COUNT,
    Refusal::FILE_START,
    Refusal::FILE_LENGTH,
    Refusal::FILE_MEMBER,
    Refusal::FILE_BIT,
    Refusal::FRAME_LENGTH,
    Refusal::FRAME_NUMBER,
    Refusal::CERTIFICATE_LENGTH,
    Refusal::CERTIFICATE_SCALE,
    Refusal::ENTRY,
    Refusal::ENTRY_MASK,
    Refusal::ENTRY_ORDER,
    Refusal::WORD,
    Refusal::POINT,
    Refusal::REQUEST,
    Refusal::BUFFER,
    Refusal::ENDED,
    Refusal::STATE,
];

#[test]
fn numbers() {
    assert_eq!(ALL.map(|refusal| refusal.0).to_vec(), (1..=17).chain(41..=43).collect::<Vec<u32>>());
}

#[test]
fn each_has_a_text_of_its_own() {
    let known: BTreeSet<&str> = ALL.iter().map(|refusal| refusal.meaning()).collect();
    assert_eq!(known.len(), ALL.len());
    assert!(!known.contains("no known refusal"));
    for number in [0, 18, 40, 44, u32::MAX] {
        assert_eq!(Refusal(number).meaning(), "no known refusal");
    }
}

#[test]
fn as_text() {
    let refusal: Box<dyn Error> = Refusal::ENDED.into();
    assert_eq!(refusal.to_string(), "refused 42: run already certified or spent");
    assert_eq!(format!("{:?}", Refusal(44)), "refused 44");
}
