//! Plain chips, each of which follows every byte by itself.

use crate::bus::{Part, Picture, Register};
use crate::calls;
use crate::raw::{self, CHIP, CHIP_REGISTERS, CHIP_SA0, CHIP_SUBADDRESS};
use crate::refusal::Refused;

/// One plain chip.
#[derive(Clone, Debug, PartialEq, Eq)]
pub struct Chip {
    part: Part,
    state: [u8; CHIP],
}

impl Chip {
    /// A chip from power-on with columns of 0.
    pub fn new(part: Part, sa0: u8, subaddress: u8) -> Result<Chip, Refused> {
        let state = [0; CHIP];
        let mut chip = Chip { part, state };
        chip.state[CHIP_SA0] = sa0;
        chip.state[CHIP_SUBADDRESS] = subaddress;
        chip.power_on()?;
        Ok(chip)
    }

    /// The header's bytes of a chip: columns, SA0, subaddress, registers.
    pub fn state(&self) -> &[u8; CHIP] {
        &self.state
    }

    /// The same, to change in place; a call refuses what is out of range.
    pub fn state_mut(&mut self) -> &mut [u8; CHIP] {
        &mut self.state
    }

    /// The columns that the part has.
    pub fn columns(&self) -> &[u8] {
        &self.state[..self.part.columns()]
    }

    /// One register.
    pub fn register(&self, register: Register) -> u8 {
        self.state[CHIP_REGISTERS + register as usize]
    }

    /// Makes the registers the power-on ones, also where it is refused; the rest stays.
    pub fn power_on(&mut self) -> Result<(), Refused> {
        calls::chip_power_on(self.part as u8, &mut self.state)?;
        Ok(())
    }

    /// The lit elements of this chip at a blink phase.
    pub fn picture(&self, phase: u8) -> Result<Picture, Refused> {
        let mut columns = vec![0; self.part.columns()];
        let answer = calls::chip_picture(self.part as u8, &self.state, phase, &mut columns)?;
        let lit = answer[raw::LIT];
        Ok(Picture { columns, lit })
    }
}

/// What a transfer to plain chips did: a byte counts once, and the smallest subaddress is named.
#[derive(Clone, Copy, Debug, PartialEq, Eq)]
pub struct PlainAnswer {
    pub acknowledged: usize,
    pub acknowledged_by: Option<u8>,
}

/// One transfer to a list of chips of a part, of whose last byte so many bits came, 8 for a whole one. Panics if a chip is of the other part.
///
/// ```
/// use humtrellis::{plain_transfer, raw::WHOLE, Chip, Part, PlainAnswer};
///
/// let mut chips = [Chip::new(Part::Pcf8532, 0, 0)?, Chip::new(Part::Pcf8532, 0, 1)?];
/// let bytes = [0x70, 0x80, 0xC8, 0x80, 0x09, 0x80, 0x4F, 0x40, 0xA5];
/// let answer = plain_transfer(Part::Pcf8532, &mut chips, &bytes, WHOLE)?;
/// assert_eq!(answer, PlainAnswer { acknowledged: 9, acknowledged_by: Some(1) });
/// assert_eq!((chips[0].columns()[159], chips[1].columns()[0]), (5, 10));
/// assert_eq!(chips[1].picture(0)?.lit, 2);
/// # Ok::<(), humtrellis::Refused>(())
/// ```
pub fn plain_transfer(
    part: Part,
    chips: &mut [Chip],
    bytes: &[u8],
    bits: u8,
) -> Result<PlainAnswer, Refused> {
    let other = chips.iter().position(|chip| chip.part != part);
    assert_eq!(other, None, "a chip of another part than {part:?}");
    let mut states: Vec<u8> = chips.iter().flat_map(|chip| chip.state).collect();
    let answer = calls::plain_transfer(part as u8, &mut states, bytes, bits)?;
    for (chip, state) in chips.iter_mut().zip(states.chunks_exact(CHIP)) {
        chip.state.copy_from_slice(state);
    }
    Ok(PlainAnswer {
        acknowledged: answer[raw::ACKNOWLEDGED],
        acknowledged_by: part.acknowledged_by(answer[raw::ACKNOWLEDGED_BY]),
    })
}
