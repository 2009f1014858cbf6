//! Codes from their checks' members, and what they tell.

use jugnayap::{limits, Code, Refusal};

use crate::gen::{Rng, Table};

#[test]
fn tells_what_it_was_made_of() {
    let mut rng = Rng::new(3);
    for checks in [1, 2, 9, 60, 500] {
        let table = Table::random(&mut rng, checks, limits::DEGREE).with_empty(&mut rng, 9);
        let code = table.code();
        let members: Vec<Vec<u16>> = (0..code.checks()).map(|check| code.members(check)).collect();
        assert_eq!((code.bits(), &members), (table.bits, &table.checks));
        assert_eq!(code.edges(), table.checks.iter().map(Vec::len).sum());
        let degree = |bit| table.checks.iter().filter(|members| members.contains(&bit)).count();
        assert_eq!(code.bit_degrees(), (0..table.bits as u16).map(degree).collect::<Vec<_>>());
    }
}

#[test]
#[should_panic(expected = "check 2 of 2")]
fn members_of_no_check() {
    Code::from_checks(3, &[[0, 1], [1, 2]]).unwrap().members(2);
}

#[test]
fn file_is_contents_then_bodies() {
    let checks: Vec<Vec<u16>> = vec![vec![0, 1], vec![2], vec![1, 2]];
    let code = Code::from_checks(3, &checks).unwrap();
    let contents = [3, 0, 3, 0, 0, 0, 2, 0, 2, 0, 1, 0, 3, 0, 2, 0];
    let bodies = [0, 0, 1, 0, 2, 0, 1, 0, 2, 0];
    assert_eq!(code.file(), [&contents[..], &bodies[..]].concat());
}

fn refused(bits: usize, checks: &[Vec<u16>], refusal: Refusal) {
    assert_eq!(Code::from_checks(bits, checks), Err(refusal), "{bits} bits, {} checks", checks.len());
}

/// So many checks of the first bits.
fn rows(count: usize, degree: u16) -> Vec<Vec<u16>> {
    vec![(0..degree).collect(); count]
}

#[test]
fn numbers_of_bits_and_checks() {
    for bits in [0, 2049, 65_535, 65_536 + 2, usize::MAX] {
        refused(bits, &rows(1, 2), Refusal::FILE_SIZES);
    }
    for checks in [0, 2049, 65_536 + 1] {
        refused(2, &rows(checks, 2), Refusal::FILE_SIZES);
    }
}

#[test]
fn counts_and_edges() {
    for degree in [33, 2048, u16::MAX] {
        refused(2048, &[vec![0, 1], (0..degree).collect()], Refusal::FILE_COUNT);
    }
    // 65,536 + 2 members: a count of 2 in 16 bits.
    refused(2, &[vec![0; 65_538]], Refusal::FILE_COUNT);
    let mut checks = rows(256, 32);
    refused(32, &checks, Refusal::FILE_BIT);
    checks.push(vec![0]);
    refused(32, &checks, Refusal::FILE_START);
    refused(32, &rows(2048, 32), Refusal::FILE_START);
}

#[test]
fn empty_checks() {
    let checks: [Vec<u16>; 5] = [vec![], vec![1, 2], vec![], vec![], vec![0]];
    let code = Code::from_checks(3, &checks).unwrap();
    let contents = [3, 0, 5, 0, 0, 0, 0, 0, 0, 0, 2, 0, 2, 0, 0, 0, 2, 0, 0, 0, 2, 0, 1, 0];
    assert_eq!(code.file(), [&contents[..], &[1, 0, 2, 0, 0, 0]].concat());
    assert_eq!((code.checks(), code.edges(), code.bit_degrees()), (5, 3, vec![1, 1, 1]));
    assert_eq!([0, 1, 2, 3, 4].map(|check| code.members(check)), checks);
    // All but one of as many as there may be.
    let mut checks = vec![vec![]; limits::CHECKS];
    checks[1000].push(0);
    assert_eq!(Code::from_checks(1, &checks).map(|code| code.edges()), Ok(1));
    checks.push(vec![]);
    refused(1, &checks, Refusal::FILE_SIZES);
    // Each bit stands in a check.
    refused(1, &[vec![]], Refusal::FILE_BIT);
    refused(3, &[vec![0, 1], vec![]], Refusal::FILE_BIT);
}

#[test]
fn members_and_degrees_of_bits() {
    refused(2, &[vec![0, 2]], Refusal::FILE_MEMBER);
    refused(2, &[vec![1, 0]], Refusal::FILE_MEMBER);
    refused(2, &[vec![0, 1, 1]], Refusal::FILE_MEMBER);
    refused(3, &[vec![0, 2]], Refusal::FILE_BIT);
    refused(2, &rows(33, 2), Refusal::FILE_BIT);
    assert!(Code::from_checks(2, &rows(32, 2)).is_ok());
}

/// Of several refusals the first of the code file's order, however far a number is out.
#[test]
fn order_of_refusals() {
    refused(0, &[vec![0; 70_000]], Refusal::FILE_SIZES);
    refused(70_000, &rows(300, 33), Refusal::FILE_SIZES);
    let mut checks = rows(257, 32);
    checks[256].push(32);
    checks.push(vec![9; 32]);
    refused(2, &checks, Refusal::FILE_COUNT);
    refused(2, &rows(257, 32), Refusal::FILE_START);
    refused(5, &[vec![1, 1]], Refusal::FILE_MEMBER);
}
