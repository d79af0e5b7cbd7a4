//! Reckoning: the works takes the judged lines one by one, and at the end
//! settles every process from the first to the last. What N lines use is weighed
//! at the end too, since a K line may follow its use.
//!
//! No sum here can pass 63 bits: a line adds at most 2 × 10^15 g to anything
//! (both figures of a bought precursor, by a B line or an N line), and 4,096
//! lines make 8.2 × 10^18.

use crate::refusals::{Entry, Fault, Refusal};

pub const MOST_PROCESSES: usize = 16;
pub const MOST_PRECURSORS: usize = 255;
pub const MOST_RANKS: usize = 3;

/// mg per MJ that a receiver of waste gas is charged.
const GAS_FACTOR: u64 = 56_100;
/// Thousandths of the charge that the sender of waste gas is credited.
const GAS_CREDIT: u64 = 667;
/// Thousandths of a gram of carbon dioxide that a gram of carbon makes.
const DIOXIDE_OF_CARBON: u64 = 3_664;

/// Figures of this size or more are refused.
const TOO_BIG: u64 = 1 << 63;

/// A source stream with its factors, standard values put in.
#[derive(Clone, Copy, Debug, PartialEq, Eq)]
pub enum Stream {
    Burning {
        kg: u64,
        calorific_value: u64,
        factor: u64,
        oxidation: u64,
        biomass: u64,
    },
    ProcessEmission {
        kg: u64,
        factor: u64,
        conversion: u64,
        biomass: u64,
    },
    CarbonIn {
        kg: u64,
        carbon: u64,
        biomass: u64,
    },
    CarbonOut {
        kg: u64,
        carbon: u64,
        biomass: u64,
    },
}

impl Stream {
    /// The grams that the balance counts, minus for carbon going out.
    #[inline]
    fn grams(self) -> i64 {
        let (grams, biomass) = self.before_biomass();
        let fossil = ten_thousandth(grams * (10_000 - biomass)) as i64;
        match self {
            Stream::CarbonOut { .. } => -fossil,
            _ => fossil,
        }
    }

    /// The grams before the biomass step, and the biomass share.
    #[inline]
    fn before_biomass(self) -> (u64, u64) {
        match self {
            Stream::Burning {
                kg,
                calorific_value,
                factor,
                oxidation,
                biomass,
            } => {
                let heat = thousandth(kg * calorific_value);
                let grams = thousandth(heat * factor);
                (ten_thousandth(grams * oxidation), biomass)
            }
            Stream::ProcessEmission {
                kg,
                factor,
                conversion,
                biomass,
            } => {
                let grams = thousandth(kg * factor);
                (ten_thousandth(grams * conversion), biomass)
            }
            Stream::CarbonIn {
                kg,
                carbon,
                biomass,
            }
            | Stream::CarbonOut {
                kg,
                carbon,
                biomass,
            } => {
                let carbon_grams = thousandth(kg * carbon);
                (thousandth(carbon_grams * DIOXIDE_OF_CARBON), biomass)
            }
        }
    }
}

/// round(u/1,000). The largest u of all is 10^18 here, of a bought precursor.
#[inline]
pub fn thousandth(u: u64) -> u64 {
    (u + 500) / 1_000
}

/// round(u/10,000). The largest u of all is 8 × 10^18 here, of a burning stream;
/// a carbon stream has at most 3.664 × 10^17.
#[inline]
pub fn ten_thousandth(u: u64) -> u64 {
    (u + 5_000) / 10_000
}

/// Direct and indirect grams.
#[derive(Clone, Copy, Debug, Default, PartialEq, Eq)]
pub struct Both {
    pub direct: u64,
    pub indirect: u64,
}

impl Both {
    #[inline]
    fn add(&mut self, more: Both) {
        self.direct += more.direct;
        self.indirect += more.indirect;
    }

    #[inline]
    fn less(self, part: Both) -> Both {
        Both {
            direct: self.direct - part.direct,
            indirect: self.indirect - part.indirect,
        }
    }

    /// ⌊P × taken/output⌋ for each of the two pools; taken is at most output.
    #[inline]
    pub fn portion(self, taken: u64, output: u64) -> Both {
        Both {
            direct: portion(self.direct, taken, output),
            indirect: portion(self.indirect, taken, output),
        }
    }
}

#[inline]
fn portion(pool: u64, taken: u64, output: u64) -> u64 {
    match pool.checked_mul(taken) {
        Some(product) => product / output,
        None => (u128::from(pool) * u128::from(taken) / u128::from(output)) as u64,
    }
}

#[derive(Clone, Copy, Default)]
struct Process {
    output: u64,
    balance: i64,
    power_in: u64,
    bought: Both,
    /// kg of its output that all G lines take.
    given: u64,
    /// kg that each process takes, by number less one; 0 without a G line.
    takers: [u64; MOST_PROCESSES],
}

/// Specific direct and indirect figures of a bought precursor, mg per kg.
#[derive(Clone, Copy, Debug, PartialEq, Eq)]
pub struct Figures {
    pub direct: u64,
    pub indirect: u64,
}

impl Figures {
    /// The grams of so many kg, each figure rounded by itself.
    #[inline]
    fn weigh(self, kg: u64) -> Both {
        Both {
            direct: thousandth(kg * self.direct),
            indirect: thousandth(kg * self.indirect),
        }
    }
}

/// A bought precursor that K and N lines name, 1 to 255.
#[derive(Clone, Copy, Debug, PartialEq, Eq)]
pub struct Precursor(pub u8);

/// What K lines state of one precursor, by rank less one.
type Ranks = [Option<Figures>; MOST_RANKS];

/// An N line.
#[derive(Clone, Copy)]
struct PrecursorUse {
    line: u32,
    process: usize,
    precursor: Precursor,
    kg: u64,
}

/// What the lines read so far have made of the works.
#[derive(Default)]
pub struct Works {
    count: usize,
    /// A line of another kind than P has come.
    listed: bool,
    process: [Process; MOST_PROCESSES],
    /// By the number of the precursor less one; none before the first K line.
    stated: Vec<Ranks>,
    /// The N lines, from the top.
    uses: Vec<PrecursorUse>,
    entered: i64,
    uncredited: u64,
}

impl Works {
    pub fn processes(&self) -> usize {
        self.count
    }

    /// Whether a P line of this number may come now.
    pub fn awaits(&self, process: usize) -> bool {
        !self.listed && process == self.count + 1
    }

    /// Whether a G line of this pair has come.
    pub fn passes_good(&self, from: usize, to: usize) -> bool {
        self.process[from - 1].takers[to - 1] != 0
    }

    pub fn output_left(&self, process: usize) -> u64 {
        let process = &self.process[process - 1];
        process.output - process.given
    }

    /// Whether a K line of this precursor and rank has come.
    pub fn has_stated(&self, precursor: Precursor, rank: usize) -> bool {
        self.ranks_of(precursor)
            .is_some_and(|ranks| ranks[rank - 1].is_some())
    }

    fn ranks_of(&self, precursor: Precursor) -> Option<&Ranks> {
        self.stated.get(usize::from(precursor.0) - 1)
    }

    /// "The lowest rank number stated anywhere on the sheet governs": its
    /// figures, none without a K line of the precursor. All lines have come.
    fn governing(&self, precursor: Precursor) -> Option<Figures> {
        self.ranks_of(precursor)?.iter().flatten().copied().next()
    }

    fn at(&mut self, process: usize) -> &mut Process {
        &mut self.process[process - 1]
    }

    /// Takes the judged line of this number.
    #[inline(always)]
    pub fn enter(&mut self, entry: Entry, line: u32) {
        if let Entry::Process { output } = entry {
            self.count += 1;
            self.at(self.count).output = output;
            return;
        }
        self.listed = true;
        match entry {
            Entry::Process { .. } => {}
            Entry::Stream { process, stream } => {
                let grams = stream.grams();
                self.at(process).balance += grams;
                self.entered += grams;
            }
            Entry::Heat {
                from,
                to,
                mj,
                factor,
            } => {
                let grams = thousandth(mj * factor) as i64;
                self.take_from(from, grams);
                match to {
                    0 => self.entered -= grams,
                    _ => self.at(to).balance += grams,
                }
            }
            Entry::Gas { from, to, mj } => {
                let charge = thousandth(mj * GAS_FACTOR);
                let credit = thousandth(charge * GAS_CREDIT);
                match from {
                    0 => self.entered += charge as i64,
                    _ => self.at(from).balance -= credit as i64,
                }
                match to {
                    0 => self.entered -= credit as i64,
                    _ => self.at(to).balance += charge as i64,
                }
                if from != 0 && to != 0 {
                    self.uncredited += charge - credit;
                }
            }
            Entry::Power {
                from,
                to,
                kwh,
                factor,
            } => {
                let grams = thousandth(kwh * factor);
                self.take_from(from, grams as i64);
                match to {
                    0 => self.entered -= grams as i64,
                    _ => self.at(to).power_in += grams,
                }
            }
            Entry::Bought {
                process,
                kg,
                figures,
            } => self.buy(process, figures.weigh(kg)),
            Entry::Good { from, to, kg } => {
                let process = self.at(from);
                process.given += kg;
                process.takers[to - 1] = kg;
            }
            Entry::PrecursorFigures {
                precursor,
                rank,
                figures,
            } => self.state(precursor, rank, figures),
            Entry::PrecursorUse {
                process,
                precursor,
                kg,
            } => self.uses.push(PrecursorUse {
                line,
                process,
                precursor,
                kg,
            }),
        }
    }

    #[inline]
    fn buy(&mut self, process: usize, bought: Both) {
        self.at(process).bought.add(bought);
        self.entered += (bought.direct + bought.indirect) as i64;
    }

    fn state(&mut self, precursor: Precursor, rank: usize, figures: Figures) {
        if self.stated.is_empty() {
            self.stated = vec![[None; MOST_RANKS]; MOST_PRECURSORS];
        }
        self.stated[usize::from(precursor.0) - 1][rank - 1] = Some(figures);
    }

    /// Every N line from the top, as a B line with the governing figures.
    fn buy_used(&mut self) -> Result<(), Refusal> {
        for used in std::mem::take(&mut self.uses) {
            let figures = self.governing(used.precursor).ok_or(Refusal {
                fault: Fault::NoFigures,
                line: used.line,
            })?;
            self.buy(used.process, figures.weigh(used.kg));
        }
        Ok(())
    }

    /// Heat or power leaving `from`: out of a process's balance, or entering
    /// the works from outside.
    #[inline]
    fn take_from(&mut self, from: usize, grams: i64) {
        match from {
            0 => self.entered += grams,
            _ => self.at(from).balance -= grams,
        }
    }

    /// The figures of the report, all lines having passed: first what N lines
    /// use, by which 18 shows, then the processes. Goods only go from a lower to
    /// a higher number, so each process is complete when its turn comes.
    /// `portion` gives what `Both::portion` does.
    pub fn settle(&mut self, portion: impl Fn(Both, u64, u64) -> Both) -> Result<Account, Refusal> {
        self.buy_used()?;
        let mut account = Account {
            count: self.count,
            rows: [Row::default(); MOST_PROCESSES],
            left: 0,
            entered: self.entered,
            raised: 0,
            uncredited: self.uncredited,
        };
        let mut received = [Both::default(); MOST_PROCESSES];
        for (index, process) in self.process[..self.count].iter().enumerate() {
            let attributed = Both {
                direct: process.balance.max(0).unsigned_abs(),
                indirect: process.power_in,
            };
            let raised = process.balance.min(0).unsigned_abs();
            let mut pool = attributed;
            pool.add(process.bought);
            pool.add(received[index]);

            let mut taken = 0;
            let mut passed = Both::default();
            for (taker, kg) in process.takers.iter().enumerate() {
                if *kg != 0 {
                    taken += kg;
                    let passed_now = portion(pool, taken, process.output);
                    received[taker].add(passed_now.less(passed));
                    passed = passed_now;
                }
            }
            let left = pool.less(passed);

            account.rows[index] = Row {
                output: process.output,
                attributed,
                raised,
                pool,
                left,
            };
            account.left += left.direct + left.indirect;
            account.raised += raised;
        }
        if account.has_too_big() {
            return Err(Refusal {
                fault: Fault::FigureTooBig,
                line: 0,
            });
        }
        Ok(account)
    }
}

/// The figures of one process.
#[derive(Clone, Copy, Debug, Default, PartialEq, Eq)]
pub struct Row {
    pub output: u64,
    pub attributed: Both,
    pub raised: u64,
    pub pool: Both,
    pub left: Both,
}

/// All figures of the report.
#[derive(Debug, PartialEq, Eq)]
pub struct Account {
    count: usize,
    rows: [Row; MOST_PROCESSES],
    pub left: u64,
    pub entered: i64,
    pub raised: u64,
    pub uncredited: u64,
}

impl Account {
    pub fn rows(&self) -> &[Row] {
        &self.rows[..self.count]
    }

    fn has_too_big(&self) -> bool {
        let totals = [
            self.left,
            self.entered.unsigned_abs(),
            self.raised,
            self.uncredited,
        ];
        let in_rows = self.rows().iter().flat_map(|row| {
            [
                row.attributed.direct,
                row.attributed.indirect,
                row.raised,
                row.pool.direct,
                row.pool.indirect,
                row.left.direct,
                row.left.indirect,
            ]
        });
        totals
            .into_iter()
            .chain(in_rows)
            .any(|figure| figure >= TOO_BIG)
    }
}
