//! Where a proved call and the second planner differ: the call, the two answers, and the first byte that is
//! not the same. It is written so that a person can take the file out of the report.

use std::fmt::{self, Debug, Display, Formatter};

pub struct Difference {
    /// The call with what it was asked, without the file.
    pub call: String,
    pub expected: String,
    pub got: String,
}

impl Difference {
    pub fn check<T: Debug + PartialEq>(
        call: String,
        expected: &T,
        got: &T,
    ) -> Result<(), Difference> {
        if expected == got {
            return Ok(());
        }
        Err(Difference { call, expected: format!("{expected:?}"), got: format!("{got:?}") })
    }

    /// Compares two contents of one buffer.
    pub fn check_bytes(call: &str, expected: &[u8], got: &[u8]) -> Result<(), Difference> {
        if expected == got {
            return Ok(());
        }
        let same = expected.iter().zip(got).take_while(|(one, other)| one == other).count();
        let record = same / 16 * 16;
        let shown = |bytes: &[u8]| {
            let end = bytes.len().min(record + 16);
            format!("of {} bytes, from byte {record} on {}", bytes.len(), hex(&bytes[record..end]))
        };
        let call = format!("{call}: bytes differ at {same}");
        Err(Difference { call, expected: shown(expected), got: shown(got) })
    }
}

impl Display for Difference {
    fn fmt(&self, to: &mut Formatter) -> fmt::Result {
        writeln!(to, "  {}", self.call)?;
        writeln!(to, "  second planner: {}", self.expected)?;
        write!(to, "  proved call:    {}", self.got)
    }
}

/// Bytes in hexadecimal, two digits each.
pub fn hex(bytes: &[u8]) -> String {
    bytes.iter().map(|byte| format!("{byte:02x}")).collect::<Vec<_>>().join(" ")
}

/// A file in hexadecimal, a line for each record.
pub fn hex_lines(file: &[u8]) -> String {
    file.chunks(16).map(|record| format!("    {}\n", hex(record))).collect()
}
