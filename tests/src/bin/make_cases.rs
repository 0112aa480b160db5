//! Writes crates/cases/stdin and crates/cases/stdout: logs, and what the model says of them.
//! The repository's root is the first argument, or the folder above this package.

use humtrellis_tests::generate::{self, commands_then_data, log_of, seen_log_of};
use humtrellis_tests::model::{log_text, LOG_LIMIT};
use humtrellis_tests::random::Random;
use std::path::PathBuf;

const SEED: u64 = 8532;
const GENERATED: usize = 400;
/// Generated logs of version 2.
const GENERATED_SEEN: usize = 50;
/// A last transfer that enables the display in 1:4, so that the log shows all four rows.
const SHOW: [u8; 3] = [0x70, 0x00, 0xC8];

/// A log with one edge case of the paper: commands and data, then every row shown.
fn edge(chips: u8, commands: &[u8], data: &[u8]) -> Vec<u8> {
    let case = commands_then_data(0x70, commands, data);
    log_of(chips, 0, &[case, SHOW.to_vec()])
}

/// A log with one transfer to one chip of group 0.
fn single(bytes: &[u8]) -> Vec<u8> {
    log_of(1, 0, &[bytes.to_vec()])
}

/// 1:3 with 00 over columns of 15, which a first transfer writes.
fn over_full_columns() -> Vec<u8> {
    let fill = commands_then_data(0x70, &[0x09, 0x4E], &[0xFF; 3]);
    let case = commands_then_data(0x70, &[0xC3, 0xE0, 0x09, 0x4F], &[0x00]);
    log_of(2, 0, &[fill, case, SHOW.to_vec()])
}

/// 1:2 with column 12 and alternate blinking on: a log shows phase 0, once in each output bank.
fn other_bank(output: u8) -> Vec<u8> {
    let commands = [0xCA, 0xFA | output, 0xF5];
    log_of(1, 0, &[commands_then_data(0x70, &commands, &[0xFF])])
}

/// P 159, then command 00, then a byte that shows where P is.
fn pointer_high() -> Vec<u8> {
    edge(1, &[0x09, 0x4F, 0x00], &[0xA5])
}

fn paper_cases() -> Vec<Vec<u8>> {
    let mut logs = vec![
        single(&[0x70]),
        single(&[0x71]),
        edge(2, &[0x09, 0x4F], &[0xA5]),
        edge(2, &[0xC3, 0x09, 0x4F], &[0xFF]),
        over_full_columns(),
        edge(2, &[0xC1, 0x09, 0x4C], &[0x81]),
        edge(2, &[0xC2, 0xFA, 0x09, 0x4E], &[0xFF]),
        edge(1, &[0xC3, 0x09, 0x4F], &[0xFF]),
        edge(4, &[0xE3, 0x09, 0x4E], &[0xFF, 0xFF]),
        pointer_high(),
    ];
    let commands = [0x09, 0x0A, 0xE3, 0xE4, 0xFB, 0xFC];
    logs.extend(commands.map(|command| single(&[0x70, 0x00, command])));
    logs.extend([other_bank(0), other_bank(1)]);
    logs.extend([every_stray_bit(), stray_bits_among_others(), last_chips()]);
    logs.push(generate::WORKED_LOG.to_vec());
    logs
}

/// Each stray bit of a control byte under each Co and RS; a display that is off at the end shows that none is taken.
fn every_stray_bit() -> Vec<u8> {
    let mut transfers = vec![commands_then_data(0x70, &[0xC0], &[0xFF; 3])];
    for control in [0x00, 0x40, 0x80, 0xC0] {
        transfers.extend((0..6).map(|bit| vec![0x70, control | 1 << bit, 0xC8]));
    }
    log_of(1, 0, &transfers)
}

/// Stray bits among faults, as the last byte, in data and where no chip hears.
fn stray_bits_among_others() -> Vec<u8> {
    let transfers = [
        vec![0x70, 0x81, 0xFC, 0x00, 0xC8],
        vec![0x70, 0x80, 0xFC, 0x01, 0xC8],
        vec![0x70, 0x80, 0x08, 0xC0, 0xA5, 0x00, 0x0A, 0x3F],
        vec![0x70, 0x80, 0x08, 0xC0, 0xA5, 0x20],
        vec![0x71, 0x3F, 0xFC],
        vec![0x72, 0x3F, 0xFC],
        vec![0x70, 0x80, 0xC8, 0xC0, 0x3F, 0x40, 0x7F, 0xBF],
    ];
    log_of(2, 0, &transfers)
}

/// Last data bytes that chip 1, chip 0 and no chip acknowledge, one with a command behind it, and transfers without one.
fn last_chips() -> Vec<u8> {
    let transfers = [
        commands_then_data(0x70, &[0xE0, 0x09, 0x4E], &[0xA5; 2]),
        vec![0x72, 0x40, 0xA5],
        commands_then_data(0x70, &[0xE1, 0x09, 0x4E], &[0xA5; 2]),
        vec![
            0x70, 0x80, 0xE3, 0xC0, 0xA5, 0x80, 0xE1, 0xC0, 0xA5, 0x00, 0xE0,
        ],
        vec![0x70, 0x80, 0xE1, 0x40],
        vec![0x70, 0xC0, 0xA5, 0x00, 0xFC],
        vec![0x71, 0x40, 0xA5],
    ];
    log_of(2, 1, &transfers)
}

/// Empty, short, longest and too long logs, and one cut inside a length field.
fn size_cases(random: &mut Random) -> Vec<Vec<u8>> {
    let mut cut = generate::WORKED_LOG.to_vec();
    cut.push(0);
    vec![
        vec![],
        vec![1],
        vec![1, 1],
        vec![1, 1, 1],
        generate::log_of_length(random, LOG_LIMIT),
        generate::too_long_log(random),
        cut,
    ]
}

/// Request 10: the worked log in version 2, counts that agree and differ, short and long bodies, and other versions.
fn seen_cases() -> Vec<Vec<u8>> {
    let mut logs = vec![
        generate::WORKED_SEEN_LOG.to_vec(),
        every_kind_seen(),
        long_transfers_seen(),
    ];
    logs.extend([0, 3, 255].map(|version| [&[version], &generate::WORKED_SEEN_LOG[1..]].concat()));
    logs.extend([vec![2], vec![2, 1], vec![2, 1, 1], vec![2, 5, 0, 0, 0]]);
    for version in [1, 2] {
        logs.extend(FEW_RECORDS.map(|records| [&[version, 1, 0], records].concat()));
    }
    logs
}

/// Bodies of 0 to 3 bytes, and short bodies before and behind a record that is cut.
const FEW_RECORDS: [&[u8]; 9] = [
    &[0, 0],
    &[0, 1, 0x70],
    &[0, 2, 0, 0],
    &[0, 2, 0x70, 0],
    &[0, 3, 0, 1, 0x70],
    &[0, 3, 0, 1, 0x70, 0, 0, 0, 9, 0],
    &[0, 3, 0, 1, 0x70, 0, 9, 0, 0, 0],
    &[0, 3, 0, 1, 0x70, 0, 1],
    &[0, 3, 0, 1, 0x70, 0, 2, 0],
];

/// Transfers that are taken, not acknowledged to their end, refused and unheard, each seen as modelled and otherwise.
fn every_kind_seen() -> Vec<u8> {
    let transfers = [
        (1, vec![0x70]),
        (
            11,
            commands_then_data(0x70, &[0xCB, 0xE0, 0x09, 0x4C], &[0xFF; 2]),
        ),
        (0, vec![]),
        (0, vec![0x70, 0x00, 0xC8, 0xFC]),
        (0, vec![0x70, 0x81, 0xC8]),
        (0, vec![0x71, 0x40, 0xA5]),
        (0, vec![0x72, 0x40, 0xA5]),
    ];
    let mut records = Vec::new();
    for (modelled, bytes) in transfers {
        let counts = [modelled, modelled + 1, u16::MAX, modelled << 8];
        records.extend(counts.map(|seen| (seen, bytes.clone())));
    }
    seen_log_of(1, 0, &records)
}

/// Transfers of 4,096 and 4,097 bytes: the limit counts from after the bytes seen.
fn long_transfers_seen() -> Vec<u8> {
    let bytes = |length: usize| [vec![0x70], vec![0x00; length - 1]].concat();
    seen_log_of(1, 0, &[(4096, bytes(4096)), (4097, bytes(4097))])
}

/// Every case; those of request 10 stand last, so that the others keep their places.
fn all_cases() -> Vec<Vec<u8>> {
    let mut random = Random::new(SEED);
    let mut logs = paper_cases();
    logs.extend(size_cases(&mut random));
    logs.extend((0..GENERATED).map(|_| generate::clean_log(&mut random)));
    logs.extend(seen_cases());
    logs.extend((0..GENERATED_SEEN).map(|_| generate::seen_log(&mut random)));
    logs
}

fn root() -> PathBuf {
    match std::env::args().nth(1) {
        Some(root) => PathBuf::from(root),
        None => PathBuf::from(concat!(env!("CARGO_MANIFEST_DIR"), "/..")),
    }
}

fn main() -> std::io::Result<()> {
    let (mut input, mut output) = (Vec::new(), Vec::new());
    let logs = all_cases();
    for (index, log) in logs.iter().enumerate() {
        input.extend((log.len() as u32).to_be_bytes());
        input.extend(log);
        output.extend(format!("L {index}\n").into_bytes());
        output.extend(log_text(log));
    }
    let folder = root().join("crates/cases");
    std::fs::create_dir_all(&folder)?;
    std::fs::write(folder.join("stdin"), &input)?;
    std::fs::write(folder.join("stdout"), &output)?;
    println!(
        "{} logs, {} bytes in, {} bytes out",
        logs.len(),
        input.len(),
        output.len()
    );
    Ok(())
}
