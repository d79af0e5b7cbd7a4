//! The report of an accepted sheet.

use std::fmt;
use std::ops::Deref;

/// A report: for each process an `R` line, then the `T` line with the four totals. Each line ends in LF.
///
/// ```
/// let report = wiltoresh::report(b"P,1,5\n").unwrap();
/// assert_eq!(report.to_string(), "R,1,0,0,0,0,0,0,0,0.000,0.000\nT,0,0,0,0\n");
/// assert!(report.ends_with(b"T,0,0,0,0\n"));
/// let bytes: Vec<u8> = report.into_bytes();
/// assert_eq!(bytes.len(), 40);
/// ```
#[derive(Clone, Debug, PartialEq, Eq, Hash)]
pub struct Report {
    bytes: Vec<u8>,
}

impl Report {
    pub(crate) fn new(bytes: Vec<u8>) -> Self {
        Report { bytes }
    }

    /// The report's bytes.
    pub fn as_bytes(&self) -> &[u8] {
        &self.bytes
    }

    /// The report's bytes, given away.
    pub fn into_bytes(self) -> Vec<u8> {
        self.bytes
    }
}

impl Deref for Report {
    type Target = [u8];

    fn deref(&self) -> &[u8] {
        &self.bytes
    }
}

impl AsRef<[u8]> for Report {
    fn as_ref(&self) -> &[u8] {
        &self.bytes
    }
}

impl From<Report> for Vec<u8> {
    fn from(report: Report) -> Self {
        report.bytes
    }
}

impl fmt::Display for Report {
    fn fmt(&self, out: &mut fmt::Formatter<'_>) -> fmt::Result {
        // A report is ASCII, so nothing is replaced.
        out.write_str(&String::from_utf8_lossy(&self.bytes))
    }
}
