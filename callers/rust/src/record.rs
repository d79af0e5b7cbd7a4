//! A line of a sheet as a record.

/// Words of a record in a list: the letter of its kind, and eight fields.
pub const RECORD_WORDS: usize = 9;

/// The word of `-`, the standard value of the code.
pub const STANDARD: u64 = u64::MAX;

const P: u64 = b'P' as u64;
const S: u64 = b'S' as u64;
const H: u64 = b'H' as u64;
const W: u64 = b'W' as u64;
const E: u64 = b'E' as u64;
const B: u64 = b'B' as u64;
const G: u64 = b'G' as u64;
const K: u64 = b'K' as u64;
const N: u64 = b'N' as u64;

/// A record: a line of a sheet, with its fields in the line's order.
///
/// A process is a number from 1 to 16. `from` and `to` are processes too, or 0 for the outside of the works. The precursor
/// of a K or an N line is a number from 1 to 255. No number is checked here: [`write`](crate::write()) judges all of them.
///
/// Every `u64` in a field is a number. [`u64::MAX`] is out of range in each field, so a record with it is refused by 7,
/// as the line with the number 18446744073709551615 is. Only `None` is the standard value.
///
/// ```
/// use wiltoresh::Record;
///
/// let records = [
///     Record::Process { number: 1, output: 1000 },
///     // 1,000 kg of natural gas, with both standard values.
///     Record::SourceStream {
///         process: 1,
///         method: 1,
///         code: 16,
///         mass: 1000,
///         a: None,
///         b: None,
///         c: 10_000,
///         d: 0,
///     },
/// ];
/// assert_eq!(wiltoresh::write(&records)?, b"P,1,1000\nS,1,1,16,1000,-,-,10000,0\n");
/// # Ok::<(), wiltoresh::Refusal>(())
/// ```
#[derive(Clone, Copy, Debug, PartialEq, Eq, Hash)]
pub enum Record {
    /// `P`: a process.
    Process {
        /// The number of the process.
        number: u64,
        /// Its output in kg.
        output: u64,
    },
    /// `S`: a source stream.
    SourceStream {
        /// The process that it belongs to.
        process: u64,
        /// 1 for burning, 2 for process emission, 3 for carbon going in, 4 for carbon going out.
        method: u64,
        /// The code of the fuel (method 1) or of the carbonate (method 2); 0 for none.
        code: u64,
        /// Its mass in kg.
        mass: u64,
        /// The net calorific value in kJ/kg (method 1), the emission factor in mg/kg (method 2) or the carbon content in
        /// mg/kg (methods 3 and 4). `None` is the standard value of the code (methods 1 and 2).
        a: Option<u64>,
        /// The emission factor in mg/MJ (method 1), or 0. `None` is the standard value of the code (method 1).
        b: Option<u64>,
        /// The oxidation factor (method 1) or the conversion factor (method 2) in ten-thousandths, or 10,000.
        c: u64,
        /// The biomass share in ten-thousandths, by which the grams of every method are lessened.
        d: u64,
    },
    /// `H`: measurable heat.
    MeasurableHeat {
        /// The process that gives it.
        from: u64,
        /// The process that takes it.
        to: u64,
        /// The heat in MJ.
        megajoules: u64,
        /// Its emission factor in mg/MJ.
        factor: u64,
    },
    /// `W`: waste gas.
    WasteGas {
        /// The process that gives it.
        from: u64,
        /// The process that takes it.
        to: u64,
        /// Its energy in MJ.
        megajoules: u64,
    },
    /// `E`: electricity.
    Electricity {
        /// The process that gives it; 0 is the grid.
        from: u64,
        /// The process that takes it.
        to: u64,
        /// The electricity in kWh.
        kilowatt_hours: u64,
        /// Its emission factor in mg/kWh.
        factor: u64,
    },
    /// `B`: a bought precursor.
    BoughtPrecursor {
        /// The process that uses it.
        process: u64,
        /// Its mass in kg.
        mass: u64,
        /// Its specific direct emissions in mg/kg.
        direct: u64,
        /// Its specific indirect emissions in mg/kg.
        indirect: u64,
    },
    /// `G`: an own good that another process uses as a precursor.
    OwnGood {
        /// The process that makes it.
        from: u64,
        /// The process that uses it.
        to: u64,
        /// Its mass in kg.
        mass: u64,
    },
    /// `K`: figures stated for a bought precursor. Of those of one precursor the lowest rank number governs, wherever it stands.
    PrecursorFigures {
        /// The number of the precursor.
        precursor: u64,
        /// 1 for verified figures, 2 for the supplier's own, 3 for the published default.
        rank: u64,
        /// Its specific direct emissions in mg/kg.
        direct: u64,
        /// Its specific indirect emissions in mg/kg.
        indirect: u64,
    },
    /// `N`: use of a bought precursor by its governing figures.
    PrecursorUse {
        /// The process that uses it.
        process: u64,
        /// The number of the precursor.
        precursor: u64,
        /// Its mass in kg.
        mass: u64,
    },
}

impl Record {
    /// The nine words of the record, as [`write_into`](crate::write_into) takes them: the letter, the fields, and 0 for
    /// each spare word. `None` is [`STANDARD`]. A number [`u64::MAX`] would be that too; its word is 2^64 - 2, another
    /// number of 20 digits, which is refused just as it is.
    ///
    /// ```
    /// use wiltoresh::Record;
    ///
    /// let record = Record::WasteGas { from: 1, to: 0, megajoules: 9 };
    /// assert_eq!(record.words(), [87, 1, 0, 9, 0, 0, 0, 0, 0]);
    /// ```
    pub fn words(&self) -> [u64; RECORD_WORDS] {
        match *self {
            Record::Process { number, output } => spell(P, &[Some(number), Some(output)]),
            Record::SourceStream {
                process,
                method,
                code,
                mass,
                a,
                b,
                c,
                d,
            } => {
                let [process, method, code, mass] = [process, method, code, mass].map(Some);
                spell(S, &[process, method, code, mass, a, b, Some(c), Some(d)])
            }
            Record::MeasurableHeat {
                from,
                to,
                megajoules,
                factor,
            } => spell(H, &[from, to, megajoules, factor].map(Some)),
            Record::WasteGas {
                from,
                to,
                megajoules,
            } => spell(W, &[from, to, megajoules].map(Some)),
            Record::Electricity {
                from,
                to,
                kilowatt_hours,
                factor,
            } => spell(E, &[from, to, kilowatt_hours, factor].map(Some)),
            Record::BoughtPrecursor {
                process,
                mass,
                direct,
                indirect,
            } => spell(B, &[process, mass, direct, indirect].map(Some)),
            Record::OwnGood { from, to, mass } => spell(G, &[from, to, mass].map(Some)),
            Record::PrecursorFigures {
                precursor,
                rank,
                direct,
                indirect,
            } => spell(K, &[precursor, rank, direct, indirect].map(Some)),
            Record::PrecursorUse {
                process,
                precursor,
                mass,
            } => spell(N, &[process, precursor, mass].map(Some)),
        }
    }

    /// The record with these words, as [`read_into`](crate::read_into) gives them. None where no record has them: they
    /// are not nine, the first is no letter of a kind, a spare word is not 0, or [`STANDARD`] is in a field that has
    /// none.
    ///
    /// ```
    /// use wiltoresh::Record;
    ///
    /// let record = Record::OwnGood { from: 1, to: 2, mass: 300 };
    /// assert_eq!(Record::from_words(&[71, 1, 2, 300, 0, 0, 0, 0, 0]), Some(record));
    /// assert_eq!(Record::from_words(&[71, 1, 2, 300, 0, 0, 0, 0, 1]), None);
    /// ```
    pub fn from_words(words: &[u64]) -> Option<Record> {
        let record = match *words {
            [P, number, output, 0, 0, 0, 0, 0, 0] => Record::Process { number, output },
            [S, process, method, code, mass, a, b, c, d] => Record::SourceStream {
                process,
                method,
                code,
                mass,
                a: value(a),
                b: value(b),
                c,
                d,
            },
            [H, from, to, megajoules, factor, 0, 0, 0, 0] => Record::MeasurableHeat {
                from,
                to,
                megajoules,
                factor,
            },
            [W, from, to, megajoules, 0, 0, 0, 0, 0] => Record::WasteGas {
                from,
                to,
                megajoules,
            },
            [E, from, to, kilowatt_hours, factor, 0, 0, 0, 0] => Record::Electricity {
                from,
                to,
                kilowatt_hours,
                factor,
            },
            [B, process, mass, direct, indirect, 0, 0, 0, 0] => Record::BoughtPrecursor {
                process,
                mass,
                direct,
                indirect,
            },
            [G, from, to, mass, 0, 0, 0, 0, 0] => Record::OwnGood { from, to, mass },
            [K, precursor, rank, direct, indirect, 0, 0, 0, 0] => Record::PrecursorFigures {
                precursor,
                rank,
                direct,
                indirect,
            },
            [N, process, precursor, mass, 0, 0, 0, 0, 0] => Record::PrecursorUse {
                process,
                precursor,
                mass,
            },
            _ => return None,
        };
        // A field that has no standard value would hold STANDARD as a number, whose word is another.
        (record.words() == words).then_some(record)
    }
}

/// The words of a record: the letter, the fields, 0 for the rest.
fn spell(letter: u64, fields: &[Option<u64>]) -> [u64; RECORD_WORDS] {
    let mut words = [0; RECORD_WORDS];
    words[0] = letter;
    for (word, field) in words[1..].iter_mut().zip(fields) {
        *word = match *field {
            None => STANDARD,
            Some(number) => number.min(STANDARD - 1),
        };
    }
    words
}

fn value(word: u64) -> Option<u64> {
    (word != STANDARD).then_some(word)
}
