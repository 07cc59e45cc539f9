//! The port's count sheet for C (include/woddirme.h): a slice is a pointer and a length.

use woddirme::c::woddirme_count_sheet;

/// Enough for every answer.
pub const ENOUGH: usize = 131_072;

/// How far beyond the room that is lent a write would be seen.
const MARGIN: usize = 4_096;

/// Room that is lent for answers, full of a pattern, so that a byte written past an answer is seen.
pub struct Room {
    pattern: Vec<u8>,
    bytes: Vec<u8>,
}

impl Room {
    #[allow(clippy::new_without_default)]
    pub fn new() -> Room {
        let pattern: Vec<u8> = (0..ENOUGH + MARGIN).map(|i| (i % 251) as u8).collect();
        let bytes = pattern.clone();
        Room { pattern, bytes }
    }

    /// The port's answer where so many bytes of room are lent, at most ENOUGH; or what is wrong with
    /// what it left.
    pub fn answer(&mut self, sheet: &[u8], lent: usize) -> Result<Vec<u8>, String> {
        let length = count_sheet(sheet, &mut self.bytes[..lent]);
        if length > lent {
            return Err(format!("an answer of {length} bytes in a room of {lent}"));
        }
        if self.bytes[length..] != self.pattern[length..] {
            return Err(format!("bytes behind an answer of {length} were changed"));
        }
        let answer = self.bytes[..length].to_vec();
        self.bytes[..length].copy_from_slice(&self.pattern[..length]);
        Ok(answer)
    }

    /// Room for the answer and not a byte more, then a byte less, which is to be left as it was.
    pub fn answers_exactly(&mut self, sheet: &[u8], answer: &[u8]) -> Result<(), String> {
        if self.answer(sheet, answer.len())? != answer {
            return Err(format!(
                "another answer in a room of {} bytes",
                answer.len()
            ));
        }
        let Some(less) = answer.len().checked_sub(1) else {
            return Ok(());
        };
        match self.answer(sheet, less)?.len() {
            0 => Ok(()),
            length => Err(format!("{length} bytes answered in a room of {less}")),
        }
    }
}

fn count_sheet(sheet: &[u8], out: &mut [u8]) -> usize {
    // Both pointers stand for slices that live through the call, and the one written is apart.
    unsafe { woddirme_count_sheet(sheet.as_ptr(), sheet.len(), out.as_mut_ptr(), out.len()) }
}
