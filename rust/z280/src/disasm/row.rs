use super::Class;

/// A format of the manual: the bits of the operation code, and how the instruction is written.
///
/// In the bits 0 and 1 stand for themselves and a letter for any bit. In the template a word in braces is filled in
/// ([`Reader::fill`](super::operand::Reader::fill)); its letter is the one that marks its bits.
pub(super) struct Row {
    bits: &'static str,
    pub(super) template: &'static str,
    pub(super) class: Class,
}

pub(super) const fn built(bits: &'static str, template: &'static str) -> Row {
    Row { bits, template, class: Class::Built }
}

pub(super) const fn port(bits: &'static str, template: &'static str) -> Row {
    Row { bits, template, class: Class::Port }
}

pub(super) const fn left_out(bits: &'static str, template: &'static str) -> Row {
    Row { bits, template, class: Class::LeftOut }
}

pub(super) const fn extended(bits: &'static str, template: &'static str) -> Row {
    Row { bits, template, class: Class::Extended }
}

/// A code that a later row would take, but that no page gives.
pub(super) const fn undefined(bits: &'static str) -> Row {
    Row { bits, template: "{-}", class: Class::Undefined }
}

/// The first row that fits the operation code.
pub(super) fn find(rows: &'static [Row], code: u8) -> Option<&'static Row> {
    rows.iter().find(|row| fits(row.bits, code))
}

fn fits(bits: &str, code: u8) -> bool {
    bits.bytes().enumerate().all(|(i, wanted)| {
        let bit = code >> (7 - i) & 1;
        match wanted {
            b'0' => bit == 0,
            b'1' => bit == 1,
            _ => true,
        }
    })
}

#[cfg(test)]
mod tests {
    use super::super::{ed, index, plain};
    use super::*;

    #[test]
    fn every_row_has_eight_bits_and_is_reached() {
        let lists = [
            &[plain::NONE][..],
            &[plain::CB],
            &[plain::INDEX_CB],
            &[index::DD, index::BOTH],
            &[index::FD, index::BOTH],
            &[ed::ED, ed::ALL],
            &[ed::DD_ED, ed::ALL],
            &[ed::FD_ED, ed::ALL],
        ];
        let mut reached = std::collections::HashSet::new();
        for list in lists {
            for code in 0..=255 {
                if let Some(row) = list.iter().find_map(|rows| find(rows, code)) {
                    reached.insert(std::ptr::from_ref(row));
                }
            }
        }
        for row in lists.into_iter().flatten().copied().flatten() {
            assert_eq!(row.bits.len(), 8, "{}", row.template);
            assert!(reached.contains(&std::ptr::from_ref(row)), "{} {}", row.bits, row.template);
        }
    }
}
