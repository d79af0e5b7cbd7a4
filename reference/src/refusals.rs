//! Refusals: the faults a sheet can be sent back for, and the judging of one
//! line. A line that passes becomes an `Entry`, whose numbers are all in range.

use std::ops::RangeInclusive;

use crate::reckoning::{Figures, Precursor, Stream, Works};
use crate::sheet::{Field, Fields, Kind};

/// A fault; its number is the one given to the caller.
#[derive(Clone, Copy, Debug, PartialEq, Eq)]
#[repr(u32)]
pub enum Fault {
    TooManyBytes = 1,
    TooManyLines = 2,
    NoLineEnd = 3,
    UnknownKind = 4,
    FieldCount = 5,
    NotANumber = 6,
    OutOfRange = 7,
    ProcessNotNext = 8,
    ProcessMissing = 9,
    EndsNotAllowed = 10,
    NoStandardValue = 11,
    SecondPair = 12,
    OutputExceeded = 13,
    EmptySheet = 14,
    FigureTooBig = 15,
    SpaceTooShort = 16,
    SecondOfRank = 17,
    NoFigures = 18,
}

#[derive(Clone, Copy, Debug, PartialEq, Eq)]
pub struct Refusal {
    pub fault: Fault,
    pub line: u32,
}

/// A judged line. Process numbers are those of the sheet; 0 is outside.
#[derive(Clone, Copy, Debug, PartialEq, Eq)]
pub enum Entry {
    Process {
        output: u64,
    },
    Stream {
        process: usize,
        stream: Stream,
    },
    Heat {
        from: usize,
        to: usize,
        mj: u64,
        factor: u64,
    },
    Gas {
        from: usize,
        to: usize,
        mj: u64,
    },
    Power {
        from: usize,
        to: usize,
        kwh: u64,
        factor: u64,
    },
    Bought {
        process: usize,
        kg: u64,
        figures: Figures,
    },
    Good {
        from: usize,
        to: usize,
        kg: u64,
    },
    PrecursorFigures {
        precursor: Precursor,
        rank: usize,
        figures: Figures,
    },
    PrecursorUse {
        process: usize,
        precursor: Precursor,
        kg: u64,
    },
}

const PROCESS: RangeInclusive<u64> = 1..=16;
const END: RangeInclusive<u64> = 0..=16;
const METHOD: RangeInclusive<u64> = 1..=4;
const KILOS: RangeInclusive<u64> = 1..=10_000_000_000;
const MEGAJOULES: RangeInclusive<u64> = 1..=1_000_000_000_000;
const KILOWATT_HOURS: RangeInclusive<u64> = 1..=100_000_000_000;
const HEAT_FACTOR: RangeInclusive<u64> = 0..=400_000;
const POWER_FACTOR: RangeInclusive<u64> = 0..=2_000_000;
const BOUGHT_FIGURE: RangeInclusive<u64> = 0..=100_000_000;
const PRECURSOR: RangeInclusive<u64> = 1..=255;
const RANK: RangeInclusive<u64> = 1..=3;
const SHARE: RangeInclusive<u64> = 0..=10_000;

const FUEL_CODE: RangeInclusive<u64> = 0..=16;
const CALORIFIC_VALUE: RangeInclusive<u64> = 1..=200_000;
const FUEL_FACTOR: RangeInclusive<u64> = 0..=400_000;
const CARBONATE_CODE: RangeInclusive<u64> = 0..=9;
const PROCESS_FACTOR: RangeInclusive<u64> = 0..=4_000_000;
const CARBON_CODE: RangeInclusive<u64> = 0..=0;
const CARBON: RangeInclusive<u64> = 0..=1_000_000;
const NOTHING: RangeInclusive<u64> = 0..=0;
const WHOLE: RangeInclusive<u64> = 10_000..=10_000;

/// kJ per kg and mg per MJ of the fuels, from code 1.
const FUELS: [(u64, u64); 16] = [
    (42_300, 73_300),
    (44_300, 69_300),
    (43_800, 71_900),
    (43_000, 74_100),
    (40_400, 77_400),
    (47_300, 63_100),
    (32_500, 97_500),
    (26_700, 98_300),
    (28_200, 94_600),
    (25_800, 94_600),
    (18_900, 96_100),
    (11_900, 101_000),
    (28_200, 107_000),
    (38_700, 44_400),
    (2_470, 260_000),
    (48_000, 56_100),
];

/// mg per kg of the carbonates, from code 1.
const CARBONATES: [u64; 9] = [
    440_000, 522_000, 415_000, 223_000, 596_000, 318_000, 298_000, 524_000, 380_000,
];

/// Judges one line by faults 5 to 13 and 17, the works being what the lines above
/// have made of it. The line has been read, or is a record's and never was
/// bytes; `count` is that of its fields after the first, even past those kept.
#[inline(always)]
pub fn judge(kind: Kind, count: usize, field: &Fields, works: &Works) -> Result<Entry, Fault> {
    if count != kind.field_count() {
        return Err(Fault::FieldCount);
    }
    match kind {
        Kind::Process => {
            let process = number(field[0], PROCESS)?;
            let output = number(field[1], KILOS)?;
            if !works.awaits(process as usize) {
                return Err(Fault::ProcessNotNext);
            }
            Ok(Entry::Process { output })
        }
        Kind::Stream => judge_stream(field, works),
        Kind::Heat => {
            let (from, to) = ends(field)?;
            let mj = number(field[2], MEGAJOULES)?;
            let factor = number(field[3], HEAT_FACTOR)?;
            known(works, from)?;
            known(works, to)?;
            allowed(from != to)?;
            Ok(Entry::Heat {
                from,
                to,
                mj,
                factor,
            })
        }
        Kind::Gas => {
            let (from, to) = ends(field)?;
            let mj = number(field[2], MEGAJOULES)?;
            known(works, from)?;
            known(works, to)?;
            allowed(from != to)?;
            Ok(Entry::Gas { from, to, mj })
        }
        Kind::Power => {
            let (from, to) = ends(field)?;
            let kwh = number(field[2], KILOWATT_HOURS)?;
            let factor = number(field[3], POWER_FACTOR)?;
            known(works, from)?;
            known(works, to)?;
            allowed(from != 0 || to != 0)?;
            Ok(Entry::Power {
                from,
                to,
                kwh,
                factor,
            })
        }
        Kind::Bought => {
            let process = number(field[0], PROCESS)? as usize;
            let kg = number(field[1], KILOS)?;
            let figures = figures(field[2], field[3])?;
            known(works, process)?;
            Ok(Entry::Bought {
                process,
                kg,
                figures,
            })
        }
        Kind::Good => {
            let (from, to) = ends(field)?;
            let kg = number(field[2], KILOS)?;
            known(works, from)?;
            known(works, to)?;
            allowed(1 <= from && from < to)?;
            if works.passes_good(from, to) {
                return Err(Fault::SecondPair);
            }
            if kg > works.output_left(from) {
                return Err(Fault::OutputExceeded);
            }
            Ok(Entry::Good { from, to, kg })
        }
        Kind::PrecursorFigures => judge_precursor_figures(field, works),
        Kind::PrecursorUse => judge_precursor_use(field, works),
    }
}

/// A K line names no process, so it may stand above all P lines. This and the
/// next are never inlined: the writer of records is some hundredths slower where
/// they are.
#[inline(never)]
fn judge_precursor_figures(field: &Fields, works: &Works) -> Result<Entry, Fault> {
    let precursor = Precursor(number(field[0], PRECURSOR)? as u8);
    let rank = number(field[1], RANK)? as usize;
    let figures = figures(field[2], field[3])?;
    if works.has_stated(precursor, rank) {
        return Err(Fault::SecondOfRank);
    }
    Ok(Entry::PrecursorFigures {
        precursor,
        rank,
        figures,
    })
}

/// Whether the precursor has figures shows only once all lines have passed.
#[inline(never)]
fn judge_precursor_use(field: &Fields, works: &Works) -> Result<Entry, Fault> {
    let process = number(field[0], PROCESS)? as usize;
    let precursor = Precursor(number(field[1], PRECURSOR)? as u8);
    let kg = number(field[2], KILOS)?;
    known(works, process)?;
    Ok(Entry::PrecursorUse {
        process,
        precursor,
        kg,
    })
}

fn judge_stream(field: &Fields, works: &Works) -> Result<Entry, Fault> {
    let process = number(field[0], PROCESS)? as usize;
    let method = number(field[1], METHOD)?;
    let stream = match method {
        1 => {
            let code = number(field[2], FUEL_CODE)?;
            let kg = number(field[3], KILOS)?;
            let calorific_value = number_or_dash(field[4], CALORIFIC_VALUE)?;
            let factor = number_or_dash(field[5], FUEL_FACTOR)?;
            let oxidation = number(field[6], SHARE)?;
            let biomass = number(field[7], SHARE)?;
            known(works, process)?;
            let standard = standard(&FUELS, code);
            Stream::Burning {
                kg,
                calorific_value: written_or(calorific_value, standard.map(|fuel| fuel.0))?,
                factor: written_or(factor, standard.map(|fuel| fuel.1))?,
                oxidation,
                biomass,
            }
        }
        2 => {
            let code = number(field[2], CARBONATE_CODE)?;
            let kg = number(field[3], KILOS)?;
            let factor = number_or_dash(field[4], PROCESS_FACTOR)?;
            number(field[5], NOTHING)?;
            let conversion = number(field[6], SHARE)?;
            let biomass = number(field[7], SHARE)?;
            known(works, process)?;
            let standard = standard(&CARBONATES, code);
            Stream::ProcessEmission {
                kg,
                factor: written_or(factor, standard)?,
                conversion,
                biomass,
            }
        }
        _ => {
            number(field[2], CARBON_CODE)?;
            let kg = number(field[3], KILOS)?;
            let carbon = number(field[4], CARBON)?;
            number(field[5], NOTHING)?;
            number(field[6], WHOLE)?;
            let biomass = number(field[7], SHARE)?;
            known(works, process)?;
            if method == 3 {
                Stream::CarbonIn {
                    kg,
                    carbon,
                    biomass,
                }
            } else {
                Stream::CarbonOut {
                    kg,
                    carbon,
                    biomass,
                }
            }
        }
    };
    Ok(Entry::Stream { process, stream })
}

#[inline]
fn number(field: Field, range: RangeInclusive<u64>) -> Result<u64, Fault> {
    field.within(range).ok_or_else(|| {
        if field.is_number() {
            Fault::OutOfRange
        } else {
            Fault::NotANumber
        }
    })
}

/// A number in the range, or `None` for `-`.
#[inline]
fn number_or_dash(field: Field, range: RangeInclusive<u64>) -> Result<Option<u64>, Fault> {
    if field == Field::DASH {
        Ok(None)
    } else {
        number(field, range).map(Some)
    }
}

/// Specific figures of a precursor, as B and K lines have them.
#[inline]
fn figures(direct: Field, indirect: Field) -> Result<Figures, Fault> {
    Ok(Figures {
        direct: number(direct, BOUGHT_FIGURE)?,
        indirect: number(indirect, BOUGHT_FIGURE)?,
    })
}

#[inline]
fn ends(field: &Fields) -> Result<(usize, usize), Fault> {
    let from = number(field[0], END)?;
    let to = number(field[1], END)?;
    Ok((from as usize, to as usize))
}

#[inline]
fn known(works: &Works, end: usize) -> Result<(), Fault> {
    if end <= works.processes() {
        Ok(())
    } else {
        Err(Fault::ProcessMissing)
    }
}

#[inline]
fn allowed(ends: bool) -> Result<(), Fault> {
    if ends {
        Ok(())
    } else {
        Err(Fault::EndsNotAllowed)
    }
}

/// The table's row for a code, none for code 0.
#[inline]
fn standard<T: Copy>(table: &[T], code: u64) -> Option<T> {
    (code as usize).checked_sub(1).map(|row| table[row])
}

#[inline]
fn written_or(written: Option<u64>, standard: Option<u64>) -> Result<u64, Fault> {
    written.or(standard).ok_or(Fault::NoStandardValue)
}
