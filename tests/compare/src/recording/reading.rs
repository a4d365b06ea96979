//! What becomes of an operation in bytes, told without the model: by the bytes alone.

use model::own_fields;

/// What is wrong with a number.
#[derive(Clone, Copy, Debug, PartialEq, Eq)]
pub enum Fault {
    /// The input ends before it.
    Missing,
    /// The input ends inside it.
    CutOff,
    /// It has a shorter form.
    NotShortest,
    /// It has ten bytes and is 2^64 or more.
    TooLarge,
    /// Its tenth byte says that more follow.
    TooLong,
}

/// What becomes of an operation.
#[derive(Clone, Copy, Debug, PartialEq, Eq)]
pub enum Reading {
    /// It is read.
    Operation,
    /// Its code is above the last one; what is wrong with the cycles after it is not looked at.
    UnknownCode { cycles: Option<Fault> },
    /// The first number that is wrong: 0 the code, 1 the cycles, 2 to 5 the fields.
    Faulty { number: usize, fault: Fault },
}

impl Reading {
    /// What becomes of the operation at a position.
    pub fn of(bytes: &[u8], at: usize) -> Reading {
        let mut rest = bytes.get(at..).unwrap_or(&[]);
        let (mut number, mut numbers) = (0, 1);
        while number < numbers {
            let length = match length(rest) {
                Ok(length) => length,
                Err(fault) => return Reading::Faulty { number, fault },
            };
            if number == 0 {
                let fields = if length == 1 { own_fields(u64::from(rest[0])) } else { None };
                let Some(fields) = fields else {
                    return Reading::UnknownCode { cycles: self::length(&rest[length..]).err() };
                };
                numbers = 2 + fields;
            }
            rest = &rest[length..];
            number += 1;
        }
        Reading::Operation
    }

    /// The refusal's number in document 01's table, 0 for none.
    pub fn number(self) -> u64 {
        match self {
            Reading::Operation => 0,
            Reading::UnknownCode { .. } => 2,
            Reading::Faulty { .. } => 1,
        }
    }
}

/// How many bytes the number has that stands first, or what is wrong with it.
pub fn length(bytes: &[u8]) -> Result<usize, Fault> {
    let first_ten = &bytes[..bytes.len().min(10)];
    match first_ten.iter().position(|&byte| byte < 0x80) {
        None if bytes.is_empty() => Err(Fault::Missing),
        None if bytes.len() < 10 => Err(Fault::CutOff),
        None => Err(Fault::TooLong),
        Some(last) if last > 0 && bytes[last] == 0 => Err(Fault::NotShortest),
        Some(9) if bytes[9] > 1 => Err(Fault::TooLarge),
        Some(last) => Ok(last + 1),
    }
}

#[cfg(test)]
mod tests {
    use super::*;

    #[test]
    fn faults() {
        assert_eq!(length(&[0xAC, 0x02, 0xFF]), Ok(2));
        assert_eq!(length(&[]), Err(Fault::Missing));
        assert_eq!(length(&[0x80; 9]), Err(Fault::CutOff));
        assert_eq!(length(&[0x80; 10]), Err(Fault::TooLong));
        assert_eq!(length(&[0x80, 0x00]), Err(Fault::NotShortest));
        assert_eq!(length(&[0xFF, 0xFF, 0xFF, 0xFF, 0xFF, 0xFF, 0xFF, 0xFF, 0xFF, 2]), Err(Fault::TooLarge));
    }

    #[test]
    fn readings() {
        assert_eq!(Reading::of(&[5, 0xAC, 0x02, 32], 0), Reading::Operation);
        assert_eq!(Reading::of(&[5, 0xAC, 0x02], 0), Reading::Faulty { number: 2, fault: Fault::Missing });
        assert_eq!(Reading::of(&[7, 0], 9), Reading::Faulty { number: 0, fault: Fault::Missing });
        assert_eq!(Reading::of(&[9, 0, 8], 0), Reading::Faulty { number: 3, fault: Fault::Missing });
        assert_eq!(Reading::of(&[10, 0, 1, 5, 6], 0), Reading::Faulty { number: 5, fault: Fault::Missing });
        assert_eq!(Reading::of(&[11], 0), Reading::UnknownCode { cycles: Some(Fault::Missing) });
        assert_eq!(Reading::of(&[0x85, 1, 0], 0), Reading::UnknownCode { cycles: None });
    }
}
