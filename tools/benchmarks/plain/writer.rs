//! Writes the numbers and texts of JSON into a list of bytes.

const PAIRS: &[u8; 200] = b"0001020304050607080910111213141516171819202122232425262728293031323334353637383940414243444546474849\
5051525354555657585960616263646566676869707172737475767778798081828384858687888990919293949596979899";

pub fn push_text(out: &mut Vec<u8>, text: &str) {
    out.extend_from_slice(text.as_bytes());
}

pub fn push_long(out: &mut Vec<u8>, mut value: u64) {
    let mut digits = [0; 20];
    let mut first = 20;
    while value >= 100 {
        let pair = (value % 100) as usize * 2;
        value /= 100;
        first -= 2;
        digits[first..first + 2].copy_from_slice(&PAIRS[pair..pair + 2]);
    }
    if value >= 10 {
        let pair = value as usize * 2;
        first -= 2;
        digits[first..first + 2].copy_from_slice(&PAIRS[pair..pair + 2]);
    } else {
        first -= 1;
        digits[first] = b'0' + value as u8;
    }
    out.extend_from_slice(&digits[first..]);
}

pub fn push_number(out: &mut Vec<u8>, value: u32) {
    push_long(out, u64::from(value));
}

/// Numbers with commas between them.
pub fn push_numbers<'n>(out: &mut Vec<u8>, numbers: impl IntoIterator<Item = &'n u32>) {
    let mut is_first = true;
    for number in numbers {
        if !is_first {
            out.push(b',');
        }
        is_first = false;
        push_number(out, *number);
    }
}
