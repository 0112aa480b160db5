//! Request 10 of paper 02: logs of version 2, with the acknowledged bytes that an analyser saw.

use super::*;
use humtrellis::raw::TEXT;

/// A text without lit columns: these lines and the totals, or a refusal alone.
fn dark(lines: &str) -> String {
    match lines.starts_with('X') {
        true => lines.to_string(),
        false => format!("{lines}G 0 0\nG 1 0\n"),
    }
}

/// One transfer to one chip of group 0, once for each count seen, gives these lines.
fn expect(bytes: &[u8], counts: &[u16], lines: &str) {
    let records: Vec<_> = counts.iter().map(|seen| (*seen, bytes.to_vec())).collect();
    assert_eq!(
        text(&generate::seen_log_of(1, 0, &records)),
        dark(lines),
        "{bytes:?}"
    );
}

/// Bytes seen 9, 3 and 0: the first and the last agree, the refused second does not.
const WORKED_TEXT: &str = "T 0 0 0 9 8 0 1
T 1 7 2 0 0 0 4
A 1 3 0
T 2 0 0 0 0 0 4
S 0 159 5
S 0 160 10
G 0 4
G 1 0
";

#[test]
fn worked_log() {
    assert_eq!(text(&generate::WORKED_SEEN_LOG), WORKED_TEXT);
    let records = [
        (9, generate::WORKED_LOG[5..14].to_vec()),
        (3, vec![0x70, 0x00, 0xFC]),
        (0, vec![0x50]),
    ];
    let log = generate::seen_log_of(2, 0, &records);
    assert_eq!(log, generate::WORKED_SEEN_LOG);
}

/// The same log with a line more after its first record and other ones after the second and third.
fn expect_worked(log: &[u8], first: &str, second: &str, third: &str) {
    let lines = WORKED_TEXT.replace("A 1 3 0\n", second);
    let lines = lines.replace("T 1", &format!("{first}T 1"));
    assert_eq!(
        text(log),
        lines.replace("S 0 159", &format!("{third}S 0 159"))
    );
}

/// Each count changed, then both bytes of the first two counts changed round.
#[test]
fn worked_log_of_other_counts() {
    let mut log = generate::WORKED_SEEN_LOG;
    (log[6], log[19], log[26]) = (10, 0, 1);
    expect_worked(&log, "A 0 10 9\n", "", "A 2 1 0\n");
    let mut log = generate::WORKED_SEEN_LOG;
    log[5..7].reverse();
    log[18..20].reverse();
    expect_worked(&log, "A 0 2304 9\n", "A 1 768 0\n", "");
}

/// Each worked log under the other's version byte; the last transfer of the first is one byte long.
#[test]
fn worked_logs_of_the_other_version() {
    let (mut first, mut second) = (generate::WORKED_LOG, generate::WORKED_SEEN_LOG);
    (first[0], second[0]) = (2, 1);
    assert_eq!(text(&first), "X 20 19\n");
    let lines = "T 0 0 0 0 0 0 4\nA 0 28800 0\nT 1 0 0 0 0 0 4\nA 1 28672 0\n";
    assert_eq!(text(&first[..19]), dark(lines));
    let lines = "T 0 0 0 0 0 0 4\nT 1 0 0 0 0 0 4\nT 2 0 0 0 0 0 4\n";
    assert_eq!(text(&second), dark(lines));
}

/// One byte is acknowledged; seen are none, one, two, 256 and the most that two bytes can say.
#[test]
fn equal_less_and_more() {
    let lines = [
        "T 0 0 0 1 0 0 4\nA 0 0 1\n",
        "T 1 0 0 1 0 0 4\n",
        "T 2 0 0 1 0 0 4\nA 2 2 1\n",
        "T 3 0 0 1 0 0 4\nA 3 256 1\n",
        "T 4 0 0 1 0 0 4\nA 4 65535 1\n",
    ];
    expect(&[0x70], &[0, 1, 2, 256, 65535], &lines.concat());
}

/// 1:3, one chip, P 159, FF: eight of nine bytes are acknowledged.
#[test]
fn data_byte_not_acknowledged() {
    let bytes = generate::commands_then_data(0x70, &[0xC3, 0x09, 0x4F], &[0xFF]);
    expect(&bytes, &[8], "T 0 0 0 8 3 5 4\n");
    expect(&bytes, &[9], "T 0 0 0 8 3 5 4\nA 0 9 8\n");
}

/// A transfer with this number and place and a modelled count of 0, of which an analyser saw 0, 1, 0 and 515 bytes.
fn expect_none(bytes: &[u8], answer: &str) {
    let lines = [
        format!("T 0 {answer} 0 0 0 4\n"),
        format!("T 1 {answer} 0 0 0 4\nA 1 1 0\n"),
        format!("T 2 {answer} 0 0 0 4\n"),
        format!("T 3 {answer} 0 0 0 4\nA 3 515 0\n"),
    ];
    expect(bytes, &[0, 1, 0, 515], &lines.concat());
}

/// Places count from after the bytes seen.
#[test]
fn refused_transfers() {
    expect_none(&[], "1 0");
    expect_none(&[0x70; 4097], "2 0");
    expect_none(&[0x50; 4097], "2 0");
    expect_none(&[0x70, 0x00, 0xC8, 0xFC], "7 3");
    expect_none(&[0x70, 0x80, 0x0A], "7 2");
    expect_none(&[0x70, 0x81], "17 1");
    expect_none(&[0x70, 0xC0, 0xA5, 0x01], "17 3");
}

#[test]
fn unheard_transfers() {
    for address in [0x71, 0x72, 0x73, 0x50, 0x00] {
        expect_none(&[address], "0 0");
        expect_none(&[address, 0x3F, 0xFC], "0 0");
    }
}

/// A record in a log of each version gives these lines.
fn expect_versions(record: &[u8], lines: [&str; 2]) {
    let texts = [1, 2].map(|version| text(&[&[version, 1, 0], record].concat()));
    assert_eq!(texts, lines.map(dark), "{record:?}");
}

/// Bodies of 0 to 3 bytes; in version 2 the transfer begins behind the first two.
#[test]
fn short_bodies() {
    let unheard = "T 0 0 0 0 0 0 4\n";
    expect_versions(&[0, 0], ["T 0 1 0 0 0 0 4\n", "X 20 3\n"]);
    expect_versions(&[0, 1, 0], [unheard, "X 20 3\n"]);
    expect_versions(&[0, 1, 0x70], ["T 0 0 0 1 0 0 4\n", "X 20 3\n"]);
    expect_versions(&[0, 2, 0, 0], [unheard, "T 0 1 0 0 0 0 4\n"]);
    let seen = "T 0 1 0 0 0 0 4\nA 0 28672 0\n";
    expect_versions(&[0, 2, 0x70, 0], ["T 0 0 0 2 0 0 4\n", seen]);
    expect_versions(&[0, 3, 0, 1, 0x70], [unheard, "T 0 0 0 1 0 0 4\n"]);
    let seen = "T 0 0 0 0 0 0 4\nA 0 28672 0\n";
    expect_versions(&[0, 3, 0x70, 0, 0xC8], ["T 0 0 0 3 0 0 4\n", seen]);
}

/// A record that is cut short is 13, whatever its length says; the first faulty record counts.
#[test]
fn cut_records_and_short_bodies() {
    let faulty: [(&[u8], &str); 13] = [
        (&[0], "X 13 3\n"),
        (&[1], "X 13 3\n"),
        (&[0, 1], "X 13 3\n"),
        (&[0, 2], "X 13 3\n"),
        (&[0, 2, 0], "X 13 3\n"),
        (&[0, 3, 0, 1], "X 13 3\n"),
        (&[0, 0, 0], "X 20 3\n"),
        (&[0, 0, 0, 9, 0], "X 20 3\n"),
        (&[0, 9, 0, 0, 0, 0], "X 13 3\n"),
        (&[0, 3, 0, 1, 0x70, 0, 1, 7, 0, 5, 1], "X 20 8\n"),
        (&[0, 3, 0, 1, 0x70, 0, 8, 7, 0, 0, 0], "X 13 8\n"),
        (&[0, 2, 0, 0, 0, 1, 9, 0, 0], "X 20 7\n"),
        (&[0, 2, 0, 0, 0], "X 13 7\n"),
    ];
    for (records, refusal) in faulty {
        assert_eq!(text(&[&[2, 1, 0], records].concat()), refusal);
    }
}

/// Versions 1 and 2 are read; with another one 12 comes before a chip count over 4.
#[test]
fn versions() {
    for version in 0..=255 {
        let [whole, crowded] = match version {
            1 | 2 => ["", "X 3 0\n"],
            _ => ["X 12 0\n"; 2],
        };
        assert_eq!(text(&[version, 4, 4]), dark(whole));
        assert_eq!(text(&[version, 5, 0]), crowded);
        assert_eq!(text(&[version, 4]), "X 12 0\n");
    }
}

/// The order is 14, 12, 3, then 13 and 20.
#[test]
fn order_of_log_refusals() {
    assert_eq!(text(&[2]), "X 12 0\n");
    assert_eq!(text(&[3, 0, 5, 0, 0]), "X 12 0\n");
    assert_eq!(text(&[2, 0, 5, 0, 0]), "X 3 0\n");
    assert_eq!(text(&[2, 5, 0, 0]), "X 3 0\n");
    let mut long = vec![0; 65537];
    long[0] = 2;
    assert_eq!(text(&long), "X 14 0\n");
    assert_eq!(text(&long[..65536]), "X 20 3\n");
}

/// A body of 4,098 bytes is a transfer of 4,096: in 1:4 one chip has room for 80 of its 4,094 data bytes.
#[test]
fn longest_transfer() {
    let mut bytes = vec![0x70, 0x40];
    bytes.resize(4096, 0xA5);
    expect(&bytes, &[82], "T 0 0 0 82 640 32112 4\n");
    expect(&bytes, &[4096], "T 0 0 0 82 640 32112 4\nA 0 4096 82\n");
    bytes.push(0xA5);
    expect(&bytes, &[0], "T 0 2 0 0 0 0 4\n");
    expect(&bytes, &[82], "T 0 2 0 0 0 0 4\nA 0 82 0\n");
}

/// A modelled count that needs both bytes: all of 4,096.
#[test]
fn count_of_two_bytes() {
    let lines = [
        "T 0 0 0 4096 0 0 4\n",
        "T 1 0 0 4096 0 0 4\nA 1 4095 4096\n",
        "T 2 0 0 4096 0 0 4\nA 2 16 4096\n",
    ];
    let bytes = [vec![0x70], vec![0x00; 4095]].concat();
    expect(&bytes, &[4096, 4095, 16], &lines.concat());
}

/// Two records of 88 bytes that light 1,280 columns, then records of four: a T and an A line each.
#[test]
fn longest_texts() {
    let log = generate::seen_log_of_long_text();
    assert!(log.len() <= 65536 && log.len() + 4 > 65536);
    let records = 2 + (log.len() - 3 - 2 * 88) / 4;
    assert_eq!(text(&log).lines().count(), 2 * records + 1280 + 2);
    for log in [log, generate::log_of_long_text()] {
        assert!(log_text(&log).len() <= TEXT);
    }
}

/// The text of these records in version 1, with A lines put in by what its T lines say.
fn text_by_version_1(log: &[u8], records: &[Record]) -> String {
    let transfers: Vec<_> = records.iter().map(|r| r.bytes.to_vec()).collect();
    let mut lines = String::new();
    for line in text(&generate::log_of(log[1], log[2], &transfers)).lines() {
        lines += &format!("{line}\n");
        let fields: Vec<_> = line.split(' ').collect();
        if let ["T", index, _, _, modelled, ..] = fields[..] {
            let seen = records[index.parse::<usize>().unwrap()].seen.unwrap();
            if seen.to_string() != modelled {
                lines += &format!("A {index} {seen} {modelled}\n");
            }
        }
    }
    lines
}

/// Generated logs of version 2 have a text that differs from version 1's by A lines alone, and each kind of refusal is among them.
#[test]
fn generated_logs() {
    let (mut refusals, mut taken) = (Vec::new(), 0);
    for seed in 0..300 {
        let log = generate::seen_log(&mut Random::new(seed));
        match records(&log) {
            Err((number, _)) => refusals.push(number),
            Ok(records) if log[0] == 2 => {
                assert_eq!(text(&log), text_by_version_1(&log, &records));
                taken += text(&log).contains("\nA ") as usize;
            }
            Ok(_) => {}
        }
    }
    assert!([3, 12, 13, 20]
        .iter()
        .all(|number| refusals.contains(number)));
    assert!(taken > 100 && refusals.len() < 100);
}
