//! Stands in for the crate `crc` 3; every checksum value of the given Rust rests on it. It has the
//! real crate's names and types as far as src/crc.rs and src/cfdp/pdu/mod.rs use them; the code is
//! written anew. Its three forms are the real crate's too, so that times taken with it are fair:
//! `NoTable` goes bit by bit, `Table<1>` byte by byte through 256 remainders, `Table<16>` 16 bytes
//! at a time through 16 such tables.
#![no_std]

/// What an algorithm is: 16 bits, most significant bit first. (The real one also has the
/// reflections, which are false here, and two numbers more.)
pub struct Algorithm<W> {
    pub poly: W,
    pub init: W,
    pub xorout: W,
    pub check: W,
}

/// x^16 + x^12 + x^5 + 1, start 0xFFFF, most significant bit first, nothing inverted at the end.
pub const CRC_16_IBM_3740: Algorithm<u16> = Algorithm {
    poly: 0x1021,
    init: 0xffff,
    xorout: 0x0000,
    check: 0x29b1,
};

pub struct NoTable;
pub struct Table<const L: usize>;

pub trait Implementation {
    type Data;
}
impl Implementation for NoTable {
    type Data = ();
}
impl<const L: usize> Implementation for Table<L> {
    type Data = [[u16; 256]; L];
}

pub struct Crc<W: 'static, I: Implementation = Table<1>> {
    pub algorithm: &'static Algorithm<W>,
    data: I::Data,
}

pub struct Digest<'a, W: 'static, I: Implementation = Table<1>> {
    crc: &'a Crc<W, I>,
    value: u16,
}

/// The remainder after eight more zero bits.
const fn eight_steps(poly: u16, mut value: u16) -> u16 {
    let mut i = 0;
    while i < 8 {
        value = (value << 1) ^ (((value >> 15) & 1) * poly);
        i += 1;
    }
    value
}

/// `tables[k][b]`: the remainder of byte b followed by k zero bytes.
const fn tables<const L: usize>(poly: u16) -> [[u16; 256]; L] {
    let mut t = [[0u16; 256]; L];
    let mut b = 0;
    while b < 256 {
        t[0][b] = eight_steps(poly, (b as u16) << 8);
        let mut k = 1;
        while k < L {
            t[k][b] = eight_steps(poly, t[k - 1][b]);
            k += 1;
        }
        b += 1;
    }
    t
}

macro_rules! form {
    ($form:ty, $data:expr, $update:expr) => {
        impl Crc<u16, $form> {
            pub const fn new(algorithm: &'static Algorithm<u16>) -> Self {
                Self {
                    algorithm,
                    data: $data(algorithm.poly),
                }
            }

            pub const fn checksum(&self, bytes: &[u8]) -> u16 {
                let value = self.algorithm.init;
                $update(self.algorithm.poly, &self.data, value, bytes) ^ self.algorithm.xorout
            }

            pub const fn digest(&self) -> Digest<'_, u16, $form> {
                Digest {
                    crc: self,
                    value: self.algorithm.init,
                }
            }
        }

        impl<'a> Digest<'a, u16, $form> {
            pub const fn update(&mut self, bytes: &[u8]) {
                self.value = $update(self.crc.algorithm.poly, &self.crc.data, self.value, bytes);
            }

            pub const fn finalize(self) -> u16 {
                self.value ^ self.crc.algorithm.xorout
            }
        }
    };
}

form!(NoTable, no_table, bit_by_bit);
form!(Table<1>, tables::<1>, one_table);
form!(Table<16>, tables::<16>, sixteen_tables);

const fn no_table(_poly: u16) {}

const fn bit_by_bit(poly: u16, _: &(), mut value: u16, bytes: &[u8]) -> u16 {
    let mut i = 0;
    while i < bytes.len() {
        value = eight_steps(poly, value ^ ((bytes[i] as u16) << 8));
        i += 1;
    }
    value
}

const fn one_table(_poly: u16, t: &[[u16; 256]; 1], value: u16, bytes: &[u8]) -> u16 {
    byte_by_byte(&t[0], value, bytes, 0)
}

const fn byte_by_byte(t: &[u16; 256], mut value: u16, bytes: &[u8], mut i: usize) -> u16 {
    while i < bytes.len() {
        value = t[((value >> 8) ^ bytes[i] as u16) as usize & 0xff] ^ (value << 8);
        i += 1;
    }
    value
}

const fn sixteen_tables(_poly: u16, t: &[[u16; 256]; 16], mut value: u16, bytes: &[u8]) -> u16 {
    let mut i = 0;
    while i + 16 <= bytes.len() {
        let first = bytes[i] ^ (value >> 8) as u8;
        let second = bytes[i + 1] ^ (value & 0xff) as u8;
        value = t[15][first as usize]
            ^ t[14][second as usize]
            ^ t[13][bytes[i + 2] as usize]
            ^ t[12][bytes[i + 3] as usize]
            ^ t[11][bytes[i + 4] as usize]
            ^ t[10][bytes[i + 5] as usize]
            ^ t[9][bytes[i + 6] as usize]
            ^ t[8][bytes[i + 7] as usize]
            ^ t[7][bytes[i + 8] as usize]
            ^ t[6][bytes[i + 9] as usize]
            ^ t[5][bytes[i + 10] as usize]
            ^ t[4][bytes[i + 11] as usize]
            ^ t[3][bytes[i + 12] as usize]
            ^ t[2][bytes[i + 13] as usize]
            ^ t[1][bytes[i + 14] as usize]
            ^ t[0][bytes[i + 15] as usize];
        i += 16;
    }
    byte_by_byte(&t[0], value, bytes, i)
}
