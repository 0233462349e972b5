use crate::failure::Failure;

/// A number as a command line or a hex file has it: 256, 0x100 or 100h, up to the largest that is allowed.
pub fn number(text: &str, largest: u32) -> Result<u32, Failure> {
    let lower = text.to_ascii_lowercase();
    let value = if let Some(digits) = lower.strip_prefix("0x") {
        u32::from_str_radix(digits, 16)
    } else if let Some(digits) = lower.strip_suffix('h') {
        u32::from_str_radix(digits, 16)
    } else {
        lower.parse()
    };
    match value {
        Ok(value) if value <= largest => Ok(value),
        Ok(value) => Err(Failure::Usage(format!("{value} is too large; at most {largest}"))),
        Err(_) => Err(Failure::Usage(format!("'{text}' is no number; write 256, 0x100 or 100h"))),
    }
}

#[cfg(test)]
mod tests {
    use super::*;

    #[test]
    fn three_ways_to_write_it() {
        for text in ["256", "0x100", "100h", "0X100", "0100H"] {
            assert_eq!(number(text, 65_535).ok(), Some(256), "{text}");
        }
        for text in ["", "h", "0x", "1F", "-1", "12x", "65536"] {
            assert!(number(text, 65_535).is_err(), "{text}");
        }
    }
}
