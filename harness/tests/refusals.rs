//! Worked refusals at their edges, and their order, on every decoder.

use harness::decoder::{Called, Decoder, Record, Refusal, Sizes, StartBuffers, Verdict};
use harness::gen::code::{bytes_of, three_bits};
use harness::gen::state::{Lengths, Shape, State};
use harness::independent::table::Table;
use harness::ALL;

fn set(code: &[u8], place: usize, value: u16) -> Vec<u8> {
    let mut code = code.to_vec();
    code[place..place + 2].copy_from_slice(&value.to_le_bytes());
    code
}

fn table_refused(code: &[u8], number: u32) {
    for decoder in ALL {
        assert_eq!(decoder.check_table(code), Err(Refusal(number)), "{}", decoder.name());
    }
}

/// Two checks, on bits 0, 1 and on bits 1, 2. Starts are at bytes 4 and 8, counts at 6 and 10,
/// members from 12 on.
fn chain() -> Vec<u8> {
    bytes_of(3, &[vec![0, 1], vec![1, 2]])
}

#[test]
fn code_files() {
    for decoder in ALL {
        assert_eq!(decoder.check_table(&chain()), Ok(Sizes { bits: 3, checks: 2, edges: 4 }));
    }
    let code = chain();
    table_refused(&[], 1);
    table_refused(&code[..3], 1);
    table_refused(&set(&code, 0, 0), 2);
    table_refused(&set(&code, 2, 2049), 2);
    table_refused(&set(&code, 6, 33), 3);
    table_refused(&set(&code, 10, u16::MAX), 3);
    table_refused(&set(&code, 4, 1), 4);
    table_refused(&set(&code, 8, 1), 4);
    table_refused(&code[..code.len() - 1], 5);
    table_refused(&set(&code, 12, 1), 6);
    table_refused(&set(&code, 18, 3), 6);
    table_refused(&set(&code, 0, 4), 7);
    table_refused(&bytes_of(1, &vec![vec![0]; 33]), 7);
}

#[test]
fn code_files_in_order() {
    let code = chain();
    // Contents that don't fit come before a wrong count, and a wrong count before a wrong start.
    table_refused(&set(&code, 6, 33)[..11], 5);
    table_refused(&set(&set(&code, 4, 9), 10, 33), 3);
    // Too many edges are refused though the bodies are missing.
    let large = bytes_of(2048, &vec![(0..32).collect(); 257]);
    table_refused(&large[..4 + 4 * 257], 4);
    // A wrong member in the last check comes before a bit without checks.
    table_refused(&set(&set(&code, 0, 4), 18, 1), 6);
}

/// Three checks, the second one empty. Starts are at bytes 4, 8 and 12, counts at 6, 10 and 14, members from
/// 16 on.
fn with_empty() -> Vec<u8> {
    bytes_of(3, &[vec![1, 2], vec![], vec![0, 1, 2]])
}

#[test]
fn code_files_with_empty_checks() {
    let accepted = |code: &[u8], bits, checks, edges| {
        for decoder in ALL {
            let sizes = Sizes { bits, checks, edges };
            assert_eq!(decoder.check_table(code), Ok(sizes), "{}", decoder.name());
        }
    };
    let code = with_empty();
    accepted(&code, 3, 3, 5);
    accepted(&bytes_of(1, &[vec![], vec![0]]), 1, 2, 1);
    accepted(&bytes_of(1, &[vec![0], vec![]]), 1, 2, 1);
    // Of a count set to 0 the next start is wrong, and then the length.
    table_refused(&set(&code, 6, 0), 4);
    table_refused(&set(&code, 14, 0), 5);
    // An empty check has a start like the others.
    table_refused(&set(&code, 8, 0), 4);
    table_refused(&set(&code, 8, 3), 4);
    table_refused(&bytes_of(3, &[vec![1, 2], vec![], vec![0, 2, 1]]), 6);
    table_refused(&bytes_of(3, &[vec![1, 3], vec![], vec![0, 1, 2]]), 6);
    // Every bit stands in a check, so there is an edge.
    table_refused(&bytes_of(1, &[vec![]]), 7);
    table_refused(&bytes_of(2048, &vec![vec![]; 2048]), 7);
    table_refused(&bytes_of(3, &[vec![0, 1], vec![], vec![0, 1]]), 7);
    // A count too large is refused before an empty check's wrong start.
    table_refused(&set(&set(&code, 8, 9), 14, 33), 3);
}

fn judge_refused(frame: &[i16], word: &[u8], certificate: &[u8], number: u32) {
    for decoder in ALL {
        let verdict = decoder.judge(&three_bits(), frame, word, certificate);
        assert_eq!(verdict, Err(Refusal(number)), "{}", decoder.name());
    }
}

/// A certificate of scale 1.
fn certificate(entries: &[(u16, u32, u32)]) -> Vec<u8> {
    let mut bytes = vec![entries.len() as u8, 0, 1, 0];
    for (check, multiplier, _) in entries {
        bytes.extend(check.to_le_bytes());
        bytes.extend(multiplier.to_le_bytes());
    }
    bytes.extend(entries.iter().flat_map(|(_, _, mask)| mask.to_le_bytes()));
    bytes
}

#[test]
fn certificates() {
    let (frame, word) = ([4000, 4000, -2000], [0, 0, 0]);
    let refused =
        |entries: &[(u16, u32, u32)], number| judge_refused(&frame, &word, &certificate(entries), number);
    judge_refused(&frame, &word, &[0, 0, 1], 10);
    judge_refused(&frame, &word, &[1, 0, 1, 0], 10);
    judge_refused(&frame, &word, &[0, 0, 0, 0], 11);
    judge_refused(&frame, &word, &[0, 0, 0, 4], 11);
    refused(&[(1, 5, 1)], 12);
    refused(&[(0, 0, 1)], 12);
    refused(&[(0, 16_777_216, 1)], 12);
    refused(&[(0, 5, 3)], 13);
    refused(&[(0, 5, 8)], 13);
    refused(&[(0, 5, 2), (0, 5, 2)], 14);
    refused(&[(0, 5, 2), (0, 5, 1)], 14);
    // Entry by entry: 14 of the second comes before 12 of the third.
    refused(&[(0, 5, 2), (0, 5, 1), (9, 5, 1)], 14);
    refused(&[(0, 5, 2), (9, 5, 1), (0, 5, 1)], 12);
    // One too many entries, of a fitting length.
    let mut long = vec![0; 4 + 10 * 4097];
    (long[0], long[1]) = (0x01, 0x10);
    judge_refused(&frame, &word, &long, 10);
}

/// An entry that names the empty check meets 12 by its multiplier, or 13 whatever its mask is.
#[test]
fn certificates_naming_empty_checks() {
    let refused = |word: &[u8], entries: &[(u16, u32, u32)], number| {
        for decoder in ALL {
            let verdict = decoder.judge(&with_empty(), &[5, 5, 5], word, &certificate(entries));
            assert_eq!(verdict, Err(Refusal(number)), "{} {entries:?}", decoder.name());
        }
    };
    for mask in [0, 1, 2, 3, 7, 1 << 31, u32::MAX >> 1, u32::MAX] {
        for multiplier in [1, 5, 16_777_215] {
            refused(&[0, 0, 0], &[(1, multiplier, mask)], 13);
            // A word that breaks a check is no sooner seen.
            refused(&[1, 0, 0], &[(1, multiplier, mask)], 13);
        }
        for multiplier in [0, 16_777_216, u32::MAX] {
            refused(&[0, 0, 0], &[(1, multiplier, mask)], 12);
        }
    }
    // In its turn: after what is wrong with entries before it, before its own order and the entries behind.
    refused(&[0, 0, 0], &[(0, 5, 1), (1, 5, 1), (2, 0, 1)], 13);
    refused(&[0, 0, 0], &[(2, 5, 1), (1, 5, 1)], 13);
    refused(&[0, 0, 0], &[(0, 5, 2), (0, 5, 1), (1, 5, 1)], 14);
    refused(&[0, 0, 0], &[(3, 5, 1), (1, 5, 1)], 12);
    for decoder in ALL {
        // The reduced numbers are 6, 5 and 3.
        let passed = decoder.judge(&with_empty(), &[5; 3], &[0; 3], &certificate(&[(0, 1, 1), (2, 1, 1)]));
        assert_eq!(passed, Ok(Verdict::Certified { sole: true }), "{}", decoder.name());
    }
}

#[test]
fn frames_and_words() {
    let sound = certificate(&[]);
    judge_refused(&[1, 1], &[0, 0, 0], &sound, 8);
    judge_refused(&[1, 1, 8192], &[0, 0, 0], &sound, 9);
    judge_refused(&[1, 1, i16::MIN], &[0, 0], &[], 9);
    judge_refused(&[1, 1, -8191], &[0, 0], &[], 15);
    judge_refused(&[1, 1, 8191], &[0, 0, 2], &[], 15);
    let whole = certificate(&[(0, 1, 1), (0, 1, 7)]);
    for decoder in ALL {
        let verdict = decoder.judge(&three_bits(), &[1, 1, 1], &[1, 1, 1], &whole);
        assert_eq!(verdict, Ok(Verdict::Broken(0)));
    }
}

/// At degree 32 every bit of a mask is a member. The last one's reduced number is 2, the others' are 0.
#[test]
fn full_mask() {
    let code = bytes_of(32, &[(0..32).collect()]);
    for decoder in ALL {
        let judge = |mask| decoder.judge(&code, &[1; 32], &[0; 32], &certificate(&[(0, 1, mask)]));
        assert_eq!(judge(1 << 31), Ok(Verdict::Certified { sole: false }));
        assert_eq!(judge(u32::MAX), Err(Refusal::ENTRY_MASK));
    }
}

/// A call on three bits; `change` edits record, wanted and buffers before it. The sums are true.
fn call(number: u32, change: impl Fn(&mut Record, &mut u32, &mut State, &mut Lengths)) {
    call_as_is(number, |record, wanted, state, lengths| {
        change(record, wanted, state, lengths);
        state.set_sums(&Table::parse(&three_bits()).unwrap());
    });
}

/// The same, but the sums are 0 if `change` does not edit them.
fn call_as_is(number: u32, change: impl Fn(&mut Record, &mut u32, &mut State, &mut Lengths)) {
    for decoder in ALL {
        let mut state = State::zeroed(&Shape::of(&three_bits()).unwrap());
        let (mut record, mut wanted) = (Record::FRESH, 1);
        let mut lengths = state.lengths();
        change(&mut record, &mut wanted, &mut state, &mut lengths);
        let before = state.clone();
        let called = decoder.rounds(&three_bits(), &[40, 40, -20], record, wanted, state.lend(&lengths));
        if number == 0 {
            assert_eq!(called.refusal, None, "{}", decoder.name());
        } else {
            assert_eq!(called, Called::refused(Refusal(number), record), "{}", decoder.name());
            assert!(state == before, "{}", decoder.name());
        }
    }
}

#[test]
fn calls() {
    call(0, |_, wanted, _, _| *wanted = 0);
    call(17, |_, wanted, _, _| *wanted = 1025);
    for buffer in 0..Lengths::default().len() {
        call(41, |_, _, _, lengths| lengths[buffer] -= 1);
    }
    call(42, |record, _, _, _| record.status = Record::CERTIFIED);
    call(42, |record, wanted, _, _| (record.status, *wanted) = (Record::SPENT, 0));
    call(43, |record, wanted, _, _| (record.rounds, *wanted) = (1024, 0));
    call(43, |record, _, _, _| record.rounds = u32::MAX);
    call(43, |record, _, _, _| record.status = 3);
    call(43, |_, _, state, _| state.copies.lent_mut()[2] = -4097);
    call(43, |_, _, state, _| state.offsets.lent_mut()[0] = 1);
    call(0, |record, _, state, _| {
        record.rounds = 1023;
        state.offsets.lent_mut()[0] = -8192 * 1023;
        state.copies.lent_mut()[0] = -4096;
    });
    call(43, |record, _, state, _| {
        record.rounds = 1023;
        state.offsets.lent_mut()[0] = -8192 * 1023 - 1;
    });
}

#[test]
fn calls_in_order() {
    call(17, |record, wanted, _, lengths| {
        (record.status, *wanted) = (Record::SPENT, u32::MAX);
        lengths[0] = 0;
    });
    call(41, |record, _, _, lengths| {
        record.status = Record::SPENT;
        *lengths.last_mut().unwrap() -= 1;
    });
    call(42, |record, _, state, _| {
        *record = Record { rounds: 5000, status: Record::CERTIFIED };
        state.copies.lent_mut()[0] = i32::MIN;
    });
    // With a wrong sum too.
    let wrong_sum = |state: &mut State| state.sums.lent_mut()[1] = 1;
    call_as_is(17, |_, wanted, state, _| {
        *wanted = 1025;
        wrong_sum(state);
    });
    call_as_is(41, |_, _, state, lengths| {
        lengths[0] = 0;
        wrong_sum(state);
    });
    for status in [Record::CERTIFIED, Record::SPENT] {
        call_as_is(42, |record, _, state, _| {
            record.status = status;
            wrong_sum(state);
        });
    }
}

/// A half-done run whose sums are 40, 40 and 20.
#[test]
fn sums() {
    let half_done = |record: &mut Record, state: &mut State, sums: [i32; 3]| {
        record.rounds = 1;
        state.copies.lent_mut().copy_from_slice(&[40, 30, 0]);
        state.offsets.lent_mut().copy_from_slice(&[0, -10, -20]);
        state.sums.lent_mut().copy_from_slice(&sums);
    };
    for rounds in [0, 1, 1024] {
        let sums = |number: u32, sums: [i32; 3]| {
            call_as_is(number, |record, wanted, state, _| {
                *wanted = rounds;
                half_done(record, state, sums);
            });
        };
        sums(0, [40, 40, 20]);
        for (bit, true_sum) in [40, 40, 20].into_iter().enumerate() {
            for wrong in [true_sum - 1, true_sum + 1, -true_sum, 0, i32::MIN, i32::MAX, true_sum + (1 << 16)]
            {
                let mut wrong_sums = [40, 40, 20];
                wrong_sums[bit] = wrong;
                sums(43, wrong_sums);
            }
        }
        sums(43, [41, 39, 20]);
        sums(43, [20, 40, 40]);
    }
}

/// A start that is lent so many sevens as copies, offsets and sums: its answer, and what it leaves.
fn start(decoder: &dyn Decoder, code: &[u8], lent: [usize; 3]) -> (Result<Record, Refusal>, [[i32; 5]; 3]) {
    let mut left = [[7; 5]; 3];
    let [copies, offsets, sums] = &mut left;
    let [z, y, s] = lent;
    let lent = StartBuffers { copies: &mut copies[..z], offsets: &mut offsets[..y], sums: &mut sums[..s] };
    (decoder.start(code, lent), left)
}

#[test]
fn starts() {
    for decoder in ALL {
        for short in [[2, 3, 3], [4, 2, 4], [3, 4, 2], [0, 0, 0]] {
            assert_eq!(start(decoder, &three_bits(), short), (Err(Refusal::BUFFER), [[7; 5]; 3]));
        }
        assert_eq!(start(decoder, &three_bits(), [4, 4, 4]), (Ok(Record::FRESH), [[0, 0, 0, 7, 7]; 3]));
    }
}

/// Three bits and four edges: other lengths of copies and offsets than of sums.
#[test]
fn starts_of_other_lengths() {
    for decoder in ALL {
        for short in [[3, 5, 4], [5, 3, 4], [5, 5, 2]] {
            assert_eq!(start(decoder, &chain(), short), (Err(Refusal::BUFFER), [[7; 5]; 3]));
        }
        let left = [[0, 0, 0, 0, 7], [0, 0, 0, 0, 7], [0, 0, 0, 7, 7]];
        assert_eq!(start(decoder, &chain(), [4, 4, 3]), (Ok(Record::FRESH), left));
    }
}
