//! A transfer: the checks, then its bytes.

use super::held::{Bytes, Held};
use super::packed::Packed;
use super::part::{Part, Pca85133, Pcf8532};
use super::{checks, commands, group_range, refused, run};
use super::{Refusal, ANSWER, DEVICE, HIGH, SET, UNKNOWN_PART};

#[inline(never)]
pub fn transfer(
    part: u8,
    chips: [u8; 2],
    registers: &mut [u8; 2 * SET],
    ram: &mut [u8],
    bytes: &[u8],
    bits: u8,
    answer: &mut [usize; ANSWER],
) {
    *answer = transfer_in::<Bytes>(part, chips, registers, ram, bytes, bits);
}

#[inline(never)]
pub fn packed_transfer(
    part: u8,
    chips: [u8; 2],
    registers: &mut [u8; 2 * SET],
    ram: &mut [u8],
    bytes: &[u8],
    bits: u8,
    answer: &mut [usize; ANSWER],
) {
    *answer = transfer_in::<Packed>(part, chips, registers, ram, bytes, bits);
}

#[inline(always)]
fn transfer_in<Form: Held>(
    part: u8,
    chips: [u8; 2],
    registers: &mut [u8; 2 * SET],
    ram: &mut [u8],
    bytes: &[u8],
    bits: u8,
) -> [usize; ANSWER] {
    match part {
        0 => transfer_to::<Pcf8532, Form>(chips, registers, ram, bytes, bits),
        1 => transfer_to::<Pca85133, Form>(chips, registers, ram, bytes, bits),
        // Paper 02, request 5: the number for none is then the PCF8532's.
        _ => refused(UNKNOWN_PART, Pcf8532::MOST),
    }
}

fn transfer_to<Chosen: Part, Form: Held>(
    chips: [u8; 2],
    registers: &mut [u8; 2 * SET],
    ram: &mut [u8],
    bytes: &[u8],
    bits: u8,
) -> [usize; ANSWER] {
    match checks::check_state::<Chosen, Form>(chips, registers, ram) {
        Err(refusal) => refused(refusal, Chosen::MOST),
        Ok(()) => send::<Chosen, Form>(chips, registers, ram, bytes, bits),
    }
}

/// To a bus that is in range; in line with what it calls, so that neither a transfer nor a replay pays for the other's use of it.
#[inline(always)]
pub fn send<Chosen: Part, Form: Held>(
    chips: [u8; 2],
    registers: &mut [u8; 2 * SET],
    ram: &mut [u8],
    bytes: &[u8],
    bits: u8,
) -> [usize; ANSWER] {
    let group = match hearing_group::<Chosen>(chips, registers, bytes, bits) {
        Err(refusal) => return refused(refusal, Chosen::MOST),
        Ok(None) => return [0, 0, 0, 0, 0, Chosen::MOST],
        Ok(Some(group)) => group,
    };
    let own = &mut ram[group_range::<Chosen, Form>(chips, group)];
    let set = &mut registers.as_chunks_mut::<SET>().0[group];
    let counted = carry_out::<Chosen, Form>(set, own, bytes, whole_bytes(bytes, bits));
    let ([acknowledged, stored, discarded], last) = counted;
    [0, 0, acknowledged, stored, discarded, last]
}

/// All bytes, but for a last one that is cut.
fn whole_bytes(bytes: &[u8], bits: u8) -> usize {
    bytes.len() - (bits < 8) as usize
}

/// The group that hears a transfer, if one does, after all checks of its bytes.
#[inline(always)]
fn hearing_group<Chosen: Part>(
    chips: [u8; 2],
    registers: &[u8; 2 * SET],
    bytes: &[u8],
    bits: u8,
) -> Result<Option<usize>, Refusal> {
    let Some(address) = bytes.first() else {
        return Err((1, 0));
    };
    if bytes.len() > 4096 {
        return Err((2, 0));
    }
    if !matches!(bits, 1..=8) {
        return Err((19, 0));
    }
    let whole = whole_bytes(bytes, bits);
    let group = match address {
        112 if chips[0] > 0 && whole > 0 => 0,
        114 if chips[1] > 0 && whole > 0 => 1,
        _ => return Ok(None),
    };
    let set = &registers.as_chunks::<SET>().0[group];
    commands::check_bytes::<Chosen>(set, bytes, whole)?;
    Ok(Some(group))
}

/// Goes from control byte to control byte; every whole byte but a data byte is acknowledged. The counts, and the chip of the last data byte.
#[inline(always)]
fn carry_out<Chosen: Part, Form: Held>(
    set: &mut [u8; SET],
    ram: &mut [u8],
    bytes: &[u8],
    whole: usize,
) -> ([usize; 3], usize) {
    let mut counts = [1, 0, 0];
    let mut last = Chosen::MOST;
    let mut rest = &bytes[1..whole];
    // Data would come next, which only the end of the whole bytes leaves so.
    let mut open = false;
    while let Some((control, after)) = rest.split_first() {
        counts[0] += 1;
        let length = match control & 0x80 {
            0 => after.len(),
            _ => after.len().min(1),
        };
        let (some, next) = after.split_at(length);
        if control & 0x40 == 0 {
            counts[0] += length;
            some.iter().for_each(|byte| Chosen::obey(set, *byte));
        } else {
            if !some.is_empty() {
                last = run::store::<Chosen, Form>(set, ram, some, &mut counts);
            }
            open = control & 0x80 == 0 || some.is_empty();
        }
        rest = next;
    }
    if open && whole < bytes.len() {
        set[HIGH..=DEVICE].fill(1);
    }
    (counts, last)
}
