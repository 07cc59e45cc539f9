//! The count sheet: bytes in, bytes out.

use crate::c;

/// Room for the answer to any sheet.
const ENOUGH: usize = 131_072;

/// A row for each span of a sheet, in order, or the one line that refuses it.
///
/// ```
/// let sheet = b"(span (from 0) (to 10) (side 3ff0000000000000))\n";
/// let rows = b"(row (at 0) (long 1) (short 0) (size 3ff0000000000000))\n";
/// assert_eq!(woddirme::sheet::count_sheet(sheet), rows);
/// assert_eq!(woddirme::sheet::count_sheet(b"(span)\n"), b"(refused 15 1)\n");
/// ```
pub fn count_sheet(sheet: &[u8]) -> Vec<u8> {
    let mut out = vec![0; ENOUGH];
    // Both pointers stand for bytes that live through the call, and those written are apart.
    let length = unsafe {
        c::woddirme_count_sheet(sheet.as_ptr(), sheet.len(), out.as_mut_ptr(), out.len())
    };
    out.truncate(length);
    out.shrink_to_fit();
    out
}
