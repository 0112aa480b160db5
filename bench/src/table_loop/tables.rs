//! For each mode and data byte the columns that the byte fills, and in 1:3 the bits that a column fills; built at compile time.

pub type Table<const WIDTH: usize> = [[u8; WIDTH]; 256];

pub static STATIC: Table<8> = columns(1);
pub static TWO: Table<4> = columns(2);
/// A fourth column of no rows, so that an entry is one word.
pub static THREE: Table<4> = columns(3);
pub static FOUR: Table<2> = columns(4);

/// Bit k, counted from the most significant, goes to row k mod m of column k div m.
const fn columns<const WIDTH: usize>(backplanes: usize) -> Table<WIDTH> {
    let mut table = [[0; WIDTH]; 256];
    let mut byte = 0;
    while byte < 256 {
        let mut k = 0;
        while k < 8 {
            let bit = (byte >> (7 - k) & 1) as u8;
            table[byte][k / backplanes] |= bit << (k % backplanes);
            k += 1;
        }
        byte += 1;
    }
    table
}

/// In 1:3 a data byte's bits for each value of its first, second and third column; for every u8, so that no index is tested.
pub static BITS_OF_THREE: [[u8; 256]; 3] = bits_of_three();

/// Row r of column j is bit 3 j + r, counted from the most significant; the last column's row 2 has none.
const fn bits_of_three() -> [[u8; 256]; 3] {
    let mut bits = [[0; 256]; 3];
    let mut k = 0;
    while k < 8 {
        let mut column = 0;
        while column < 256 {
            bits[k / 3][column] |= ((column >> (k % 3) & 1) as u8) << (7 - k);
            column += 1;
        }
        k += 1;
    }
    bits
}

/// The same columns packed, four bits each, the first lowest.
pub static PACKED_STATIC: [u32; 256] = packed(1);
pub static PACKED_TWO: [u16; 256] = packed_pairs(2);
pub static PACKED_THREE: [u16; 256] = packed_pairs(3);
pub static PACKED_FOUR: [u8; 256] = packed_bytes();

const fn packed(backplanes: usize) -> [u32; 256] {
    let mut table = [0; 256];
    let mut byte = 0;
    while byte < 256 {
        let mut k = 0;
        while k < 8 {
            let bit = (byte >> (7 - k) & 1) as u32;
            table[byte] |= bit << (4 * (k / backplanes) + k % backplanes);
            k += 1;
        }
        byte += 1;
    }
    table
}

const fn packed_pairs(backplanes: usize) -> [u16; 256] {
    let wide = packed(backplanes);
    let mut table = [0; 256];
    let mut byte = 0;
    while byte < 256 {
        table[byte] = wide[byte] as u16;
        byte += 1;
    }
    table
}

const fn packed_bytes() -> [u8; 256] {
    let wide = packed(4);
    let mut table = [0; 256];
    let mut byte = 0;
    while byte < 256 {
        table[byte] = wide[byte] as u8;
        byte += 1;
    }
    table
}

/// For each even column: device-select 0, pointer high and pointer low after 80, and C0.
pub static PCF8532_PLACES: [u64; 80] = {
    let mut places = [0; 80];
    let mut pair = 0;
    while pair < 80 {
        let column = 2 * pair as u8;
        let (high, low) = (column / 16, 0x40 | (column % 16));
        places[pair] = u64::from_le_bytes([0x80, 0xE0, 0x80, high, 0x80, low, 0xC0, 0]);
        pair += 1;
    }
    places
};

/// The same with the one pointer command.
pub static PCA85133_PLACES: [u64; 40] = {
    let mut places = [0; 40];
    let mut pair = 0;
    while pair < 40 {
        places[pair] = u64::from_le_bytes([0x80, 0xE0, 0x80, 2 * pair as u8, 0xC0, 0, 0, 0]);
        pair += 1;
    }
    places
};
