//! Rescue of torn logs: the library against the model, and what the paper promises of what it keeps.

use crate::{for_seeds, library, replay};
use humtrellis_tests::generate::{self, WORKED_LOG, WORKED_SEEN_LOG};
use humtrellis_tests::model::{self, log_text, ANSWER, LOG_LIMIT};
use humtrellis_tests::random::Random;

/// The buffers of a call; after the call, what they have become.
#[derive(Clone, Debug, PartialEq)]
struct Case {
    log: Vec<u8>,
    out: Vec<u8>,
    answer: Vec<usize>,
}

impl Case {
    /// An output of which every byte differs from the log's at its place, so that each one written shows.
    fn new(log: &[u8], room: usize) -> Self {
        let mut out: Vec<u8> = log.iter().map(|byte| !byte).collect();
        out.resize(room, 0xEE);
        Case {
            log: log.to_vec(),
            out,
            answer: vec![77; ANSWER],
        }
    }

    fn by_model(&mut self) -> u8 {
        if self.answer.len() != ANSWER {
            return library::SIZE;
        }
        self.answer = model::rescue(&self.log, &mut self.out).to_vec();
        self.answer[0] as u8
    }

    /// Makes the call both ways, holds all results together, and gives the number returned.
    fn compare(&mut self) -> u8 {
        let mut other = self.clone();
        let number = library::rescue(&mut self.log, &mut self.out, &mut self.answer);
        let expected = other.by_model();
        if number != expected || *self != other {
            panic!("rescue differs\n library {number} {self:?}\n model {expected} {other:?}");
        }
        number
    }
}

/// A log in outputs longer, one byte shorter and of its own length; the last call, which is held to the paper if it is taken.
fn compare(log: &[u8]) -> Case {
    for room in [log.len() + 1, log.len() + 300, log.len().saturating_sub(1)] {
        Case::new(log, room).compare();
    }
    let mut case = Case::new(log, log.len());
    if case.compare() == 0 {
        check_promises(&case);
    }
    case
}

/// Kept and dropped make the log, the reader takes what is kept, and a second rescue changes nothing.
fn check_promises(case: &Case) {
    let [_, _, records, kept, dropped, tear] = case.answer[..] else {
        panic!("an answer of another size");
    };
    assert_eq!((kept + dropped, tear), (case.log.len(), kept));
    let sound = &case.out[..kept];
    assert!(case.log.starts_with(sound));
    let text = log_text(sound);
    let lines = text.split(|&byte| byte == b'\n');
    let transfers = lines.filter(|line| line.starts_with(b"T"));
    assert!(!text.starts_with(b"X") && transfers.count() == records);
    let mut again = Case::new(sound, kept);
    again.compare();
    assert_eq!(again.answer, [0, 0, records, kept, 0, kept]);
    assert_eq!(again.out, sound);
}

/// What is left of a log when it is torn at each offset; each part that is kept is replayed once by the library too.
fn compare_torn(log: &[u8]) {
    let mut before = 0;
    for length in 0..=log.len() {
        let case = compare(&log[..length]);
        let kept = case.answer[3];
        if kept != before {
            replay::compare(&case.out[..kept]);
        }
        before = kept;
    }
}

/// A rescue of a log keeps so many records and bytes.
fn expect(log: &[u8], records: usize, kept: usize) {
    let dropped = log.len() - kept;
    let expected = [0, 0, records, kept, dropped, kept];
    assert_eq!(compare(log).answer, expected, "{log:?}");
}

#[test]
fn rescue_paper() {
    compare_torn(&WORKED_LOG);
    compare_torn(&WORKED_SEEN_LOG);
    expect(&WORKED_LOG, 3, 22);
    expect(&WORKED_LOG[..21], 2, 19);
    expect(&WORKED_SEEN_LOG, 3, 28);
    expect(&WORKED_SEEN_LOG[..27], 2, 23);
    expect(&[1, 0, 0, 0, 0], 1, 5);
    expect(&[2, 0, 0, 0, 0], 0, 3);
}

#[test]
fn rescue_every_bit() {
    let logs = replay::turned(&WORKED_LOG).chain(replay::turned(&WORKED_SEEN_LOG));
    for log in logs {
        compare(&log);
    }
}

/// Records, and the greatest version in which each is whole: bodies of 0 to 3 bytes, and one that is cut.
const RECORDS: [(&[u8], u8); 5] = [
    (&[0, 0], 1),
    (&[0, 1, 7], 1),
    (&[0, 2, 0, 0], 2),
    (&[0, 3, 0, 1, 0x70], 2),
    (&[0xFF, 0xFF, 0], 0),
];

/// Four records of every kind in either version: those before the first that is not whole are kept.
#[test]
fn rescue_every_order_of_records() {
    for order in 0..5 * 5 * 5 * 5 {
        let kinds = [order % 5, order / 5 % 5, order / 25 % 5, order / 125];
        let records = kinds.map(|kind| RECORDS[kind]);
        let bytes = records.map(|(record, _)| record).concat();
        for version in [1, 2] {
            let whole = records.iter().take_while(|record| record.1 >= version);
            let lengths: Vec<_> = whole.map(|(record, _)| record.len()).collect();
            let (log, kept) = (
                [&[version, 1, 0], &bytes[..]].concat(),
                lengths.iter().sum::<usize>(),
            );
            expect(&log, lengths.len(), 3 + kept);
        }
    }
}

/// What refuses a log in an output of this length, by the paper's order.
fn refusal(log: &[u8], room: usize) -> u8 {
    let order = [
        (log.len() > 65536, 14),
        (log.len() < 3 || !matches!(log[0], 1 | 2), 12),
        (log.iter().skip(1).take(2).any(|&count| count > 4), 3),
        (room < log.len(), 9),
    ];
    let first = order.into_iter().find(|(fault, _)| *fault);
    first.map_or(0, |(_, number)| number)
}

/// Logs of this length with each version and chip counts on both sides of 4, and 00 or FF behind the head.
fn heads(length: usize) -> Vec<Vec<u8>> {
    let mut logs = Vec::new();
    for version in [0, 1, 2, 3, 255] {
        for counts in [[0, 0], [4, 4], [5, 0], [0, 5], [255, 255]] {
            for byte in [0x00, 0xFF] {
                let mut log = vec![version, counts[0], counts[1]];
                log.resize(length, byte);
                logs.push(log);
            }
        }
    }
    logs
}

/// Each head with lengths and outputs on both sides of their limits, and an answer of this size.
fn for_faults(answer: usize, expected: fn(&[u8], usize) -> u8) {
    for length in [0, 1, 2, 3, 4, 30, LOG_LIMIT, LOG_LIMIT + 1] {
        for log in heads(length) {
            for room in [0, length.saturating_sub(1), length, length + 1] {
                let mut case = Case::new(&log, room);
                case.answer.resize(answer, 77);
                assert_eq!(case.compare(), expected(&log, room));
            }
        }
    }
}

#[test]
fn rescue_every_order_of_refusals() {
    for_faults(ANSWER, refusal);
}

/// An answer of another size comes before every refusal, and nothing is written.
#[test]
fn rescue_sizes() {
    for size in [0, 1, ANSWER - 1, ANSWER + 1, 2 * ANSWER] {
        for_faults(size, |_, _| library::SIZE);
    }
}

/// The output is held to the log's length, whatever is kept of it.
#[test]
fn rescue_every_room() {
    for log in [&WORKED_LOG[..], &WORKED_SEEN_LOG[..17], &[2, 0, 0, 0, 0]] {
        for room in 0..2 * log.len() {
            let number = Case::new(log, room).compare();
            assert_eq!(number, if room < log.len() { 9 } else { 0 });
        }
    }
}

#[test]
fn rescue_generated() {
    for_seeds(1000, |random| {
        for make in [generate::log, generate::seen_log, generate::torn_log] {
            compare(&make(random));
        }
    });
}

/// A few generated logs of each version, torn at each offset.
#[test]
fn rescue_torn() {
    for make in [generate::good_log, generate::seen_log] {
        let logs = (0..).map(|seed| make(&mut Random::new(seed)));
        let short = logs.filter(|log| (150..400).contains(&log.len()));
        short.take(4).for_each(|log| compare_torn(&log));
    }
}

/// The longest logs and one byte more, sound and torn, of few records and of many.
#[test]
fn rescue_long() {
    let mut random = Random::new(11);
    for make in [generate::log_of_length, generate::seen_log_of_length] {
        for length in [LOG_LIMIT - 1, LOG_LIMIT, LOG_LIMIT + 1] {
            let log = make(&mut random, length);
            compare(&log);
            compare(&log[..random.between(3, length)]);
            compare(&vec![log[0]; length]);
        }
    }
    for log in [
        generate::log_of_long_text(),
        generate::seen_log_of_long_text(),
    ] {
        assert_eq!(compare(&log).answer[3..], [log.len(), 0, log.len()]);
    }
}

/// One record to the end of the longest log, and one that is a byte longer.
#[test]
fn rescue_longest_record() {
    for version in [1, 2] {
        let mut log = vec![version, 4, 4, 0xFF, 0xFB];
        log.resize(LOG_LIMIT, 0x70);
        expect(&log, 1, LOG_LIMIT);
        log[4] += 1;
        expect(&log, 0, 3);
    }
}
