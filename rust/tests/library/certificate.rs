//! Certificates as bytes, as entries and as text.

use jugnayap::{limits, Certificate, Entry, Refusal};

/// Two entries, each number at an end of its width.
const ENTRIES: [Entry; 3] = [
    Entry { check: 0, multiplier: u32::MAX, mask: 0 },
    Entry { check: u16::MAX, multiplier: 0, mask: u32::MAX },
    Entry { check: 0x0102, multiplier: 0x0304_0506, mask: 0x0708_090a },
];
const TEXT: &str = "scale 65535 0:4294967295:0 65535:0:4294967295 258:50595078:117967114";
const BYTES: [u8; 34] = [
    3, 0, 255, 255, // entries and scale
    0, 0, 255, 255, 255, 255, 255, 255, 0, 0, 0, 0, 2, 1, 6, 5, 4, 3, // checks and multipliers
    0, 0, 0, 0, 255, 255, 255, 255, 10, 9, 8, 7, // masks
];

fn whole() -> Certificate {
    Certificate::from_entries(u16::MAX, &ENTRIES).unwrap()
}

#[test]
fn bytes_both_ways() {
    assert_eq!(whole().bytes(), BYTES);
    let read = Certificate::from_bytes(BYTES).unwrap();
    assert_eq!((read.scale(), read.cuts()), (u16::MAX, 3));
    assert_eq!(read.entries().collect::<Vec<_>>(), ENTRIES);
}

#[test]
fn text_both_ways() {
    assert_eq!(whole().to_string(), TEXT);
    assert_eq!(TEXT.parse(), Ok(whole()));
    assert_eq!(
        "\t scale  65535\n0:4294967295:0 65535:0:4294967295\r\n258:50595078:117967114 ".parse(),
        Ok(whole())
    );
    assert_eq!("258:50595078:117967114".parse(), Ok(ENTRIES[2]));
    assert_eq!("scale 00 007:1:01".parse::<Certificate>().unwrap().to_string(), "scale 0 7:1:1");
}

#[test]
fn none_at_all() {
    let none = Certificate::from_entries(1, &[]).unwrap();
    assert_eq!((none.bytes(), none.cuts(), none.entries().count()), (&[0, 0, 1, 0][..], 0, 0));
    assert_eq!((none.to_string().as_str(), "scale 1".parse()), ("scale 1", Ok(none.clone())));
}

#[test]
fn as_many_as_may_be() {
    let entry = |k: u16| Entry { check: k, multiplier: u32::from(k) << 9, mask: u32::from(k) << 17 | 1 };
    let mut entries: Vec<Entry> = (0..4096).map(entry).collect();
    let most = Certificate::from_entries(7, &entries).unwrap();
    assert_eq!((most.cuts(), most.bytes().len()), (4096, 40_964));
    assert_eq!(most.entries().collect::<Vec<_>>(), entries);
    assert_eq!(most.to_string().parse(), Ok(most.clone()));
    assert_eq!(Certificate::from_bytes(most.bytes()), Ok(most.clone()));
    entries.push(entry(4096));
    assert_eq!(Certificate::from_entries(7, &entries), Err(Refusal::CERTIFICATE_LENGTH));
    let more = most.to_string() + " 4096:1:1";
    let error = more.parse::<Certificate>().unwrap_err();
    assert_eq!(error.to_string(), "4097 entries, at most 4096 wanted");
}

#[test]
fn lengths_refused() {
    for length in 0..BYTES.len() {
        assert_eq!(Certificate::from_bytes(&BYTES[..length]), Err(Refusal::CERTIFICATE_LENGTH), "{length}");
        assert_eq!(Certificate::at_front(&BYTES[..length]), Err(Refusal::CERTIFICATE_LENGTH), "{length}");
    }
    assert_eq!(Certificate::from_bytes([&BYTES[..], &[0]].concat()), Err(Refusal::CERTIFICATE_LENGTH));
    // One entry too many, in bytes enough for it.
    let mut long = vec![0; Certificate::length(limits::ENTRIES + 1)];
    long[..2].copy_from_slice(&4097u16.to_le_bytes());
    assert_eq!(Certificate::from_bytes(&long[..]), Err(Refusal::CERTIFICATE_LENGTH));
    assert_eq!(Certificate::at_front(&long), Err(Refusal::CERTIFICATE_LENGTH));
    assert_eq!(Certificate::length_at_front(&long), None);
}

#[test]
fn at_the_front_of_longer_bytes() {
    for behind in [0, 1, 9, 10, 20_000] {
        let bytes = [&BYTES[..], &vec![0xa5; behind]].concat();
        assert_eq!(Certificate::at_front(&bytes), Ok(whole()), "{behind}");
    }
    let lengths = [&[][..], &[9], &[9, 0], &[0, 16, 1]].map(Certificate::length_at_front);
    assert_eq!(lengths, [None, None, Some(94), Some(40_964)]);
}

#[test]
fn other_scales() {
    for scale in [0, 1, 1023, 0x1234, u16::MAX] {
        let scaled = whole().at_scale(scale);
        assert_eq!(scaled, Certificate::from_entries(scale, &ENTRIES).unwrap());
        assert_eq!(scaled.scale(), scale);
    }
}

#[test]
fn text_refused() {
    for (text, message) in [
        ("", "\"\" where \"scale\" should stand"),
        ("Scale 1", "\"Scale\" where \"scale\" should stand"),
        ("1 0:1:1", "\"1\" where \"scale\" should stand"),
        ("scale", "\"\" where the scale should stand"),
        ("scale 0:1:1", "\"0:1:1\" where the scale should stand"),
        ("scale 65536", "\"65536\" where the scale should stand"),
        ("scale -1", "\"-1\" where the scale should stand"),
        ("scale 1 0:1", "\"0:1\" where CHECK:MULTIPLIER:MASK should stand"),
        ("scale 1 0:1:1:1", "\"0:1:1:1\" where CHECK:MULTIPLIER:MASK should stand"),
        ("scale 1 0:1:1,", "\"1,\" where a mask should stand"),
        ("scale 1 0:1:", "\"\" where a mask should stand"),
        ("scale 1 0:1:0x1", "\"0x1\" where a mask should stand"),
        ("scale 1 0:1:4294967296", "\"4294967296\" where a mask should stand"),
        ("scale 1 0:4294967296:1", "\"4294967296\" where a multiplier should stand"),
        ("scale 1 0:+1:1", "\"+1\" where a multiplier should stand"),
        ("scale 1 0:1:1 65536:1:1", "\"65536\" where a check's number should stand"),
        ("scale 1 :1:1", "\"\" where a check's number should stand"),
    ] {
        assert_eq!(text.parse::<Certificate>().unwrap_err().to_string(), message, "{text}");
    }
    let long = format!("scale {}", "1".repeat(5000)).parse::<Certificate>().unwrap_err();
    assert_eq!(long.to_string(), "\"11111111111111111111...\" where the scale should stand");
}
