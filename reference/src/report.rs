//! Report: the settled figures spelt as bytes. The report is written to a
//! buffer on the stack first, so that its length is known before the caller's
//! space is touched.

use crate::reckoning::{Account, Both, MOST_PROCESSES};

/// A number has at most 20 digits, so an R line has at most 2 + 2 + 7 × 21 +
/// 2 × 25 + 1 = 202 bytes and the T line at most 1 + 4 × 22 + 1 = 90.
const MOST_BYTES: usize = MOST_PROCESSES * 202 + 90;

pub struct Report {
    bytes: [u8; MOST_BYTES],
    length: usize,
}

impl Report {
    pub fn of(account: &Account) -> Report {
        let mut report = Report {
            bytes: [0; MOST_BYTES],
            length: 0,
        };
        for (row, process) in account.rows().iter().zip(1..) {
            report.byte(b'R');
            report.figure(process);
            report.both(row.attributed);
            report.figure(row.raised);
            report.both(row.pool);
            report.both(row.left);
            report.specific(row.pool.direct, row.output);
            report.specific(row.pool.indirect, row.output);
            report.byte(b'\n');
        }
        report.byte(b'T');
        report.figure(account.left);
        report.byte(b',');
        if account.entered < 0 {
            report.byte(b'-');
        }
        report.number(account.entered.unsigned_abs());
        report.figure(account.raised);
        report.figure(account.uncredited);
        report.byte(b'\n');
        report
    }

    pub fn as_bytes(&self) -> &[u8] {
        &self.bytes[..self.length]
    }

    fn byte(&mut self, byte: u8) {
        self.bytes[self.length] = byte;
        self.length += 1;
    }

    fn number(&mut self, mut value: u64) {
        let digits = value.checked_ilog10().unwrap_or(0) as usize + 1;
        let end = self.length + digits;
        for place in self.bytes[self.length..end].iter_mut().rev() {
            *place = b'0' + (value % 10) as u8;
            value /= 10;
        }
        self.length = end;
    }

    fn figure(&mut self, value: u64) {
        self.byte(b',');
        self.number(value);
    }

    fn both(&mut self, both: Both) {
        self.figure(both.direct);
        self.figure(both.indirect);
    }

    /// pool/output with three digits after the dot, cut down. The remainder
    /// is below the output, so times 1,000 it is below 10^13.
    fn specific(&mut self, pool: u64, output: u64) {
        self.figure(pool / output);
        self.byte(b'.');
        let thousandths = pool % output * 1_000 / output;
        for unit in [100, 10, 1] {
            self.byte(b'0' + (thousandths / unit % 10) as u8);
        }
    }
}
