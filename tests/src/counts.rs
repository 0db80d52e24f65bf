//! Dose counts in packed decimal (document 02, request (e)), worked out by their digits written as text.

pub const PAYLOAD: usize = 496;
pub const COUNTS: u32 = 124;
pub const LARGEST: u32 = 99_999_999;

#[derive(Clone, Copy, Debug, PartialEq)]
pub enum Count {
    Absent,
    Hundredths(u32),
}

use Count::*;

/// The count of four bytes: written in hex they are FFFFFFFF, or eight digits 0 to 9, which are then the number.
pub fn count_of(bytes: &[u8]) -> Option<Count> {
    let text: String = bytes.iter().map(|byte| format!("{byte:02X}")).collect();
    if text == "FFFFFFFF" {
        return Some(Absent);
    }
    let decimal = text.len() == 8 && text.chars().all(|digit| digit.is_ascii_digit());
    decimal.then(|| Hundredths(text.parse().unwrap()))
}

/// The four bytes of a count in range.
pub fn bytes_of(count: Count) -> Option<Vec<u8>> {
    let text = match count {
        Absent => "FFFFFFFF".to_string(),
        Hundredths(number) if number <= LARGEST => format!("{number:08}"),
        Hundredths(_) => return None,
    };
    let byte = |at: usize| u8::from_str_radix(&text[at..at + 2], 16).unwrap();
    Some([0, 2, 4, 6].map(byte).to_vec())
}

/// Where the four bytes of a count stand: 3 unless the payload has 496 bytes, then 16 for a count number of 124 or more.
fn place(payload: &[u8], which: u32) -> Result<usize, u32> {
    match (payload.len() == PAYLOAD, which < COUNTS) {
        (false, _) => Err(3),
        (true, false) => Err(16),
        (true, true) => Ok(4 * which as usize),
    }
}

pub fn read(payload: &[u8], which: u32) -> Result<Count, u32> {
    let at = place(payload, which)?;
    count_of(&payload[at..at + 4]).ok_or(16)
}

pub fn write(payload: &mut [u8], which: u32, count: Count) -> Result<(), u32> {
    let at = place(payload, which)?;
    let bytes = bytes_of(count).ok_or(16u32)?;
    payload[at..at + 4].copy_from_slice(&bytes);
    Ok(())
}

#[cfg(test)]
mod tests {
    use super::*;

    #[test]
    fn six_whole_digits_and_two_of_hundredths() {
        let examples = [
            ([0x00, 0x01, 0x23, 0x45], Some(Hundredths(12345))),
            ([0x00, 0x00, 0x02, 0x50], Some(Hundredths(250))),
            ([0x00, 0x00, 0x02, 0x5a], None),
            ([0x00, 0x00, 0x00, 0x00], Some(Hundredths(0))),
            ([0x99, 0x99, 0x99, 0x99], Some(Hundredths(LARGEST))),
            ([0xff, 0xff, 0xff, 0xff], Some(Absent)),
            ([0xff, 0x00, 0x00, 0x00], None),
            ([0x00, 0x00, 0x00, 0x0a], None),
        ];
        for (bytes, count) in examples {
            assert_eq!(count_of(&bytes), count, "{bytes:?}");
            if let Some(count) = count {
                assert_eq!(bytes_of(count).as_deref(), Some(&bytes[..]), "{count:?}");
            }
        }
        assert_eq!(bytes_of(Hundredths(LARGEST + 1)), None);
    }

    /// Each pair of digits is read as ten times the first and the second, and stands in the order of its byte.
    #[test]
    fn the_high_digit_first() {
        for (high, low, byte) in [(0, 1, 0), (2, 7, 1), (9, 0, 2), (5, 8, 3)] {
            let mut bytes = [0; 4];
            bytes[byte] = 16 * high + low;
            let number = (10 * high + low) as u32 * 100u32.pow(3 - byte as u32);
            assert_eq!(count_of(&bytes), Some(Hundredths(number)));
        }
    }

    #[test]
    fn three_before_sixteen() {
        assert_eq!(read(&[0x0a; 495], 124), Err(3));
        assert_eq!(read(&[0; 496], 124), Err(16));
        assert_eq!(write(&mut [0; 495], 124, Hundredths(u32::MAX)), Err(3));
        assert_eq!(write(&mut [0; 496], 124, Absent), Err(16));
    }
}
