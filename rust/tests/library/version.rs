//! The crate and the library that it is linked to are of one version.

#[test]
fn library_is_of_the_crates_version() {
    let numbers = env!("CARGO_PKG_VERSION").split('.').map(|number| number.parse::<u32>().unwrap());
    assert_eq!(numbers.fold(0, |all, number| 100 * all + number), jugnayap::calls::version());
}
