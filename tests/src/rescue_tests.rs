//! Request 11 of paper 02: the head and every whole record before the first tear are copied, and what is dropped is counted.

use super::*;

/// What a rescue answers, and its output, which was all 9.
fn rescued(log: &[u8], room: usize) -> ([usize; ANSWER], Vec<u8>) {
    let mut out = vec![9; room];
    (rescue(log, &mut out), out)
}

/// So many records and bytes are kept, in outputs as long as the log and longer, and the other bytes of each stay.
fn expect(log: &[u8], records: usize, kept: usize) {
    for room in [log.len(), log.len() + 1, log.len() + 99] {
        let (answer, out) = rescued(log, room);
        let dropped = log.len() - kept;
        assert_eq!(answer, [0, 0, records, kept, dropped, kept], "{log:?}");
        assert_eq!(out, [&log[..kept], &vec![9; room - kept]].concat());
    }
}

/// A log is refused by this number in an output of this length, and the output stays.
fn expect_refusal(log: &[u8], room: usize, number: usize) {
    let expected = ([number, 0, 0, 0, 0, 0], vec![9; room]);
    assert_eq!(rescued(log, room), expected, "{log:?}");
}

/// A log cut at each offset: `ends` are the offsets where its head and its records end.
fn expect_cuts(log: &[u8], ends: &[usize]) {
    for length in 0..=log.len() {
        let log = &log[..length];
        let whole = ends.iter().filter(|end| **end <= length);
        match whole.enumerate().last() {
            Some((records, end)) => expect(log, records, *end),
            None => expect_refusal(log, length, 12),
        }
    }
}

/// Bodies of 9, 3 and 1 bytes, and in version 2 of 11, 5 and 3, each after two bytes of length.
#[test]
fn worked_logs() {
    expect_cuts(&generate::WORKED_LOG, &[3, 14, 19, 22]);
    expect_cuts(&generate::WORKED_SEEN_LOG, &[3, 16, 23, 28]);
}

/// Each worked log under the other's version byte: the last body of the first is one byte long.
#[test]
fn worked_logs_of_the_other_version() {
    let (mut first, mut second) = (generate::WORKED_LOG, generate::WORKED_SEEN_LOG);
    (first[0], second[0]) = (2, 1);
    expect(&first, 2, 19);
    expect(&second, 3, 28);
}

#[test]
fn head_alone() {
    for head in [[1, 0, 0], [1, 4, 4], [2, 0, 0], [2, 4, 4], [1, 0, 4]] {
        expect(&head, 0, 3);
    }
}

/// Records behind a head of each version: records and bytes kept in version 1, then in version 2.
fn expect_versions(records: &[u8], kept: [(usize, usize); 2]) {
    for (version, (count, kept)) in [1, 2].into_iter().zip(kept) {
        expect(&[&[version, 1, 0], records].concat(), count, kept);
    }
}

/// A body of no byte is whole in version 1; under two bytes it is the tear in version 2.
#[test]
fn short_bodies() {
    expect_versions(&[0, 0], [(1, 5), (0, 3)]);
    expect_versions(&[0, 0, 0, 0], [(2, 7), (0, 3)]);
    expect_versions(&[0, 0, 0, 0, 0], [(2, 7), (0, 3)]);
    expect_versions(&[0, 1, 7], [(1, 6), (0, 3)]);
    expect_versions(&[0, 2, 7, 7], [(1, 7), (1, 7)]);
    expect_versions(&[0, 2, 7, 7, 0, 0], [(2, 9), (1, 7)]);
    expect_versions(&[0, 2, 7, 7, 0, 1, 7], [(2, 10), (1, 7)]);
    expect_versions(&[0, 2, 7, 7, 0, 3, 7, 7, 7], [(2, 12), (2, 12)]);
}

/// A length field that is cut, and a body that is: no byte of it, one less than the length says, or far less.
#[test]
fn cut_records() {
    for end in [
        &[0][..],
        &[7],
        &[0, 1],
        &[0, 2],
        &[0, 2, 7],
        &[1, 0, 7, 7],
        &[0xFF, 0xFF, 0],
    ] {
        expect_versions(end, [(0, 3); 2]);
        expect_versions(&[&[0, 2, 7, 7], end].concat(), [(1, 7); 2]);
        expect_versions(
            &[&[0, 4, 7, 7, 7, 7, 0, 2, 0, 0], end].concat(),
            [(2, 13); 2],
        );
    }
}

/// What stands behind the first tear is dropped, though it could be read as records.
#[test]
fn behind_the_tear() {
    expect(&[2, 1, 0, 0, 1, 7, 0, 2, 0, 0], 0, 3);
    expect(&[2, 1, 0, 0, 0, 0, 2, 0, 0], 0, 3);
    expect(&[2, 1, 0, 0, 2, 0, 0, 0, 1, 7, 0, 2, 0, 0], 1, 7);
    expect(&[1, 1, 0, 1, 0, 0, 1, 0x70, 0, 1, 0x70], 0, 3);
}

/// A transfer that a replay refuses is whole: empty, over-long, with an undefined command or stray bits.
#[test]
fn refused_transfers_are_kept() {
    let transfers = [
        vec![],
        vec![0x70; 4097],
        vec![0x70, 0x00, 0xFC],
        vec![0x70, 0x3F],
        vec![0x50],
    ];
    let log = generate::log_of(1, 0, &transfers);
    expect(&log, 5, 3 + 5 * 2 + 4097 + 3 + 2 + 1);
    let seen = transfers.map(|bytes| (9, bytes));
    let log = generate::seen_log_of(1, 0, &seen);
    expect(&log, 5, 3 + 5 * 4 + 4097 + 3 + 2 + 1);
}

/// A log of 65,536 bytes with one record to its end, with one byte too few for it, and with 32,766 records of two bytes and a byte.
#[test]
fn longest() {
    let mut log = vec![0; 65536];
    for version in [1, 2] {
        log[0] = version;
        log[3..5].copy_from_slice(&65531_u16.to_be_bytes());
        expect(&log, 1, 65536);
        log[4] += 1;
        expect(&log, 0, 3);
    }
    log[..5].copy_from_slice(&[1, 0, 0, 0, 0]);
    expect(&log, 32766, 65535);
    log[0] = 2;
    expect(&log, 0, 3);
}

/// The order is 14, 12, 3, 9: one fault after another is mended.
#[test]
fn order_of_refusals() {
    let mut log = vec![0; 65537];
    log[1] = 5;
    expect_refusal(&log, 65536, 14);
    log.pop();
    expect_refusal(&log, 65535, 12);
    for version in [1, 2] {
        (log[0], log[1]) = (version, 5);
        expect_refusal(&log, 65535, 3);
        log[1] = 4;
        expect_refusal(&log, 65535, 9);
        log[2] = 5;
        expect_refusal(&log, 65536, 3);
        log[2] = 4;
    }
    expect(&log, 0, 3);
}

/// Logs under three bytes, each version, and counts on both sides of 4, with room and without.
#[test]
fn heads() {
    for log in [&[][..], &[1], &[2], &[1, 5], &[2, 0]] {
        expect_refusal(log, 0, 12);
        expect_refusal(log, 99, 12);
    }
    for version in 0..=255 {
        match version {
            1 | 2 => expect(&[version, 4, 4], 0, 3),
            _ => expect_refusal(&[version, 5, 0], 2, 12),
        }
    }
    for counts in [[5, 0], [0, 5], [255, 4], [5, 5]] {
        expect_refusal(&[1, counts[0], counts[1]], 2, 3);
        expect_refusal(&[2, counts[0], counts[1], 0], 99, 3);
    }
}

/// The output is held to the log's length, also where less is kept.
#[test]
fn room() {
    for room in 0..22 {
        expect_refusal(&generate::WORKED_LOG, room, 9);
    }
    let torn = [1, 0, 0, 0, 9, 0x70];
    for room in 0..6 {
        expect_refusal(&torn, room, 9);
    }
    expect(&torn, 0, 3);
}

/// What is promised of a rescue that is taken: all is counted, the reader takes what is kept, and so does a second rescue.
fn check_promises(log: &[u8], [_, _, count, kept, dropped, tear]: [usize; ANSWER], out: &[u8]) {
    let sound = &out[..kept];
    assert_eq!((kept + dropped, tear), (log.len(), kept));
    assert!(matches!(records(sound), Ok(records) if records.len() == count));
    let again = rescued(sound, kept);
    assert_eq!(again, ([0, 0, count, kept, 0, kept], sound.to_vec()));
}

/// The reader's refusal of a log, if it has one, is where the tear is.
fn check_tear(log: &[u8], answer: [usize; ANSWER]) -> usize {
    let (number, expected) = match records(log) {
        Ok(_) => (0, [0, 0, log.len()]),
        Err((number @ (13 | 20), place)) => (number, [0, 0, place]),
        Err((number, _)) => (number, [number, 0, 0]),
    };
    assert_eq!([answer[0], answer[1], answer[5]], expected);
    number
}

/// Generated logs, sound, torn and damaged: each refusal of the reader is among those of each version.
#[test]
fn generated_logs() {
    let mut met = Vec::new();
    for seed in 0..400 {
        for make in [generate::log, generate::seen_log, generate::torn_log] {
            let log = make(&mut Random::new(seed));
            let (answer, out) = rescued(&log, log.len());
            met.push((log.first().copied(), check_tear(&log, answer)));
            if answer[0] == 0 {
                check_promises(&log, answer, &out);
            }
        }
    }
    for (version, numbers) in [(1, &[0, 3, 13][..]), (2, &[0, 3, 13, 20]), (3, &[12])] {
        let met = |number: &usize| met.contains(&(Some(version), *number));
        assert!(numbers.iter().all(met), "{version}");
    }
}
