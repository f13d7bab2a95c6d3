//! Amounts and standings, and their bytes.

use std::fmt::Debug;

#[derive(Clone, Copy, Debug, PartialEq, Eq)]
pub enum ValueFault {
    UnlistedCurrency,
    NotAValue,
    OutOfRange,
}

impl ValueFault {
    pub fn number(self) -> u8 {
        match self {
            ValueFault::UnlistedCurrency => 15,
            ValueFault::NotAValue => 16,
            ValueFault::OutOfRange => 17,
        }
    }
}

/// A kind of value: its number, its width in bytes, and its bytes both ways.
pub trait Value: Copy + Eq + Debug {
    const KIND: u16;
    const WIDTH: usize;
    /// The fixed value that fills unused cells.
    const SPARE: Self;

    /// Writes the bytes of the value. The place has exactly the width.
    fn encode(&self, place: &mut [u8]);

    fn decode(bytes: &[u8]) -> Result<Self, ValueFault>;
}

const LISTED: [u64; 6] = [840, 978, 826, 191, 392, 414];
const MOST_UNITS: i64 = 999_999_999_999;

/// A number of smallest units of a listed currency.
#[derive(Clone, Copy, Debug, PartialEq, Eq)]
pub struct Amount {
    currency: u16,
    units: i64,
}

impl Amount {
    pub fn from_numbers(number: u64, units: i64) -> Result<Amount, ValueFault> {
        if !LISTED.contains(&number) {
            return Err(ValueFault::UnlistedCurrency);
        }
        if !(-MOST_UNITS..=MOST_UNITS).contains(&units) {
            return Err(ValueFault::OutOfRange);
        }
        Ok(Amount {
            currency: number as u16,
            units,
        })
    }

    pub fn currency(&self) -> u16 {
        self.currency
    }

    pub fn units(&self) -> i64 {
        self.units
    }
}

impl Value for Amount {
    const KIND: u16 = 1;
    const WIDTH: usize = 10;
    const SPARE: Amount = Amount {
        currency: 840,
        units: 0,
    };

    fn encode(&self, place: &mut [u8]) {
        place[..2].copy_from_slice(&self.currency.to_le_bytes());
        place[2..].copy_from_slice(&self.units.to_le_bytes());
    }

    fn decode(bytes: &[u8]) -> Result<Amount, ValueFault> {
        let bytes: &[u8; 10] = bytes.try_into().map_err(|_| ValueFault::NotAValue)?;
        let [low, high, units @ ..] = *bytes;
        let number = u64::from(u16::from_le_bytes([low, high]));
        Amount::from_numbers(number, i64::from_le_bytes(units)).map_err(|_| ValueFault::NotAValue)
    }
}

const LAST_REASON: u64 = 99;

/// Where goods stand: lodged or released on a day, or stopped for a reason.
#[derive(Clone, Copy, Debug, PartialEq, Eq)]
pub enum Standing {
    Lodged(u32),
    Released(u32),
    Stopped(u8),
}

impl Standing {
    pub fn stopped(reason: u64) -> Result<Standing, ValueFault> {
        if reason > LAST_REASON {
            return Err(ValueFault::OutOfRange);
        }
        Ok(Standing::Stopped(reason as u8))
    }
}

impl Value for Standing {
    const KIND: u16 = 2;
    const WIDTH: usize = 5;
    const SPARE: Standing = Standing::Stopped(0);

    fn encode(&self, place: &mut [u8]) {
        let (state, number) = match *self {
            Standing::Lodged(day) => (1, day),
            Standing::Released(day) => (2, day),
            Standing::Stopped(reason) => (3, u32::from(reason)),
        };
        place[0] = state;
        place[1..].copy_from_slice(&number.to_le_bytes());
    }

    fn decode(bytes: &[u8]) -> Result<Standing, ValueFault> {
        let bytes: &[u8; 5] = bytes.try_into().map_err(|_| ValueFault::NotAValue)?;
        let [state, number @ ..] = *bytes;
        // The bytes behind a reason are zero, so that the whole number is at most 99.
        let number = u32::from_le_bytes(number);
        match state {
            1 => Ok(Standing::Lodged(number)),
            2 => Ok(Standing::Released(number)),
            3 => Standing::stopped(number.into()).map_err(|_| ValueFault::NotAValue),
            _ => Err(ValueFault::NotAValue),
        }
    }
}
