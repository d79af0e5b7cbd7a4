//! Made-up sheets for the tests, the cases and the timing. All of it follows
//! from the seed; no clock is asked.

use std::io::Write;

/// A small generator of pseudo-random numbers (splitmix64).
pub struct Dice(u64);

impl Dice {
    pub fn new(seed: u64) -> Dice {
        Dice(seed)
    }

    pub fn roll(&mut self) -> u64 {
        self.0 = self.0.wrapping_add(0x9e37_79b9_7f4a_7c15);
        let mut mixed = self.0;
        mixed = (mixed ^ (mixed >> 30)).wrapping_mul(0xbf58_476d_1ce4_e5b9);
        mixed = (mixed ^ (mixed >> 27)).wrapping_mul(0x94d0_49bb_1331_11eb);
        mixed ^ (mixed >> 31)
    }

    /// A number below `bound`, which is not 0.
    pub fn below(&mut self, bound: u64) -> u64 {
        self.roll() % bound
    }

    pub fn between(&mut self, lowest: u64, highest: u64) -> u64 {
        lowest + self.below(highest - lowest + 1)
    }

    /// True once in `bound` times.
    pub fn once_in(&mut self, bound: u64) -> bool {
        self.below(bound) == 0
    }

    pub fn index(&mut self, length: usize) -> usize {
        self.below(length as u64) as usize
    }

    pub fn pick<T: Copy>(&mut self, list: &[T]) -> T {
        list[self.index(list.len())]
    }

    pub fn shuffle<T>(&mut self, list: &mut [T]) {
        for at in (1..list.len()).rev() {
            list.swap(at, self.index(at + 1));
        }
    }
}

/// How large the quantities and factors of a sheet are.
#[derive(Clone, Copy, Debug, PartialEq, Eq)]
pub enum Size {
    /// A few units above the lowest.
    Small,
    /// Every number of digits as likely as another.
    Mixed,
    /// The highest, or a few units below it.
    Highest,
}

impl Size {
    pub fn number(self, dice: &mut Dice, lowest: u64, highest: u64) -> u64 {
        match self {
            Size::Small => dice.between(lowest, highest.min(lowest + 20)),
            Size::Mixed => {
                let digits = dice.between(1, u64::from(highest.max(1).ilog10()) + 1);
                let limit = 10u64.pow(digits as u32) - 1;
                dice.between(lowest, highest.min(limit).max(lowest))
            }
            Size::Highest if dice.once_in(3) => highest - dice.below((highest - lowest + 1).min(9)),
            Size::Highest => highest,
        }
    }
}

pub const KILOS: u64 = 10_000_000_000;
pub const MEGAJOULES: u64 = 1_000_000_000_000;
pub const KILOWATT_HOURS: u64 = 100_000_000_000;

/// Makes a good sheet line by line.
pub struct Maker {
    pub sheet: Vec<u8>,
    /// Bytes of the P lines.
    head: usize,
    size: Size,
    /// kg of each process's output that no G line has taken.
    free: Vec<u64>,
    /// Pairs that have a G line.
    pairs: Vec<(usize, usize)>,
    /// Precursors and ranks that have a K line.
    stated: Vec<(u64, u64)>,
}

impl Maker {
    /// A sheet of P lines only.
    pub fn new(dice: &mut Dice, processes: usize, size: Size) -> Maker {
        let mut sheet = Vec::new();
        let mut free = Vec::new();
        for process in 1..=processes {
            let output = size.number(dice, 1, KILOS);
            writeln!(sheet, "P,{process},{output}").unwrap();
            free.push(output);
        }
        Maker {
            head: sheet.len(),
            sheet,
            size,
            free,
            pairs: Vec::new(),
            stated: Vec::new(),
        }
    }

    fn number(&self, dice: &mut Dice, lowest: u64, highest: u64) -> u64 {
        self.size.number(dice, lowest, highest)
    }

    fn process(&self, dice: &mut Dice) -> usize {
        1 + dice.index(self.free.len())
    }

    fn end(&self, dice: &mut Dice) -> usize {
        dice.index(self.free.len() + 1)
    }

    /// Two different ends.
    fn ends(&self, dice: &mut Dice) -> (usize, usize) {
        loop {
            let ends = (self.end(dice), self.end(dice));
            if ends.0 != ends.1 {
                return ends;
            }
        }
    }

    /// Adds a line of any kind but P, now and then with a K line that it needs.
    pub fn line(&mut self, dice: &mut Dice) {
        match dice.below(10) {
            0 => self.precursor_use(dice),
            1 => self.precursor_figures(dice),
            _ => self.line_of_document_01(dice),
        }
    }

    /// Adds a line of any kind of document 01 but P.
    pub fn line_of_document_01(&mut self, dice: &mut Dice) {
        match dice.below(9) {
            0..3 => self.stream(dice),
            3 => self.heat(dice),
            4 => self.gas(dice),
            5 => self.power(dice),
            6 => self.bought(dice),
            _ => self.good(dice),
        }
    }

    pub fn stream(&mut self, dice: &mut Dice) {
        let method = dice.between(1, 4);
        if method > 2 {
            return self.carbon(dice, method);
        }
        let n = self.process(dice);
        let kg = self.number(dice, 1, KILOS);
        let d = match dice.below(3) {
            0 => self.number(dice, 0, 10_000),
            _ => 0,
        };
        let c = match dice.below(2) {
            0 => self.number(dice, 0, 10_000),
            _ => 10_000,
        };
        if method == 1 {
            let code = dice.between(0, 16);
            let a = self.number(dice, 1, 200_000);
            let b = self.number(dice, 0, 400_000);
            let a = dash_or(dice, code, a);
            let b = dash_or(dice, code, b);
            writeln!(self.sheet, "S,{n},1,{code},{kg},{a},{b},{c},{d}")
        } else {
            let code = dice.between(0, 9);
            let a = self.number(dice, 0, 4_000_000);
            let a = dash_or(dice, code, a);
            writeln!(self.sheet, "S,{n},2,{code},{kg},{a},0,{c},{d}")
        }
        .unwrap();
    }

    /// A stream of method 3 or 4. Half of them have a biomass share. One in
    /// eight is of few grams, whatever the size; in about one in three of these
    /// the last step has a half to round.
    pub fn carbon(&mut self, dice: &mut Dice, method: u64) {
        let n = self.process(dice);
        let (kg, a, d) = if dice.once_in(8) {
            let d = dice.pick(&[2_500, 5_000, 5_000, 7_500, 8_750]);
            (dice.between(1, 20), 1_000 * dice.between(1, 20), d)
        } else {
            let kg = self.number(dice, 1, KILOS);
            let a = self.number(dice, 0, 1_000_000);
            let d = match dice.below(7) {
                0..4 => 0,
                4 | 5 => dice.pick(&[1, 5_000, 9_999, 10_000]),
                _ => dice.between(1, 9_999),
            };
            (kg, a, d)
        };
        writeln!(self.sheet, "S,{n},{method},0,{kg},{a},0,10000,{d}").unwrap();
    }

    pub fn heat(&mut self, dice: &mut Dice) {
        let (from, to) = self.ends(dice);
        let mj = self.number(dice, 1, MEGAJOULES);
        let factor = self.number(dice, 0, 400_000);
        writeln!(self.sheet, "H,{from},{to},{mj},{factor}").unwrap();
    }

    pub fn gas(&mut self, dice: &mut Dice) {
        let (from, to) = self.ends(dice);
        let mj = self.number(dice, 1, MEGAJOULES);
        writeln!(self.sheet, "W,{from},{to},{mj}").unwrap();
    }

    pub fn power(&mut self, dice: &mut Dice) {
        let (from, to) = if dice.once_in(4) {
            let process = self.process(dice);
            (process, process)
        } else {
            self.ends(dice)
        };
        let kwh = self.number(dice, 1, KILOWATT_HOURS);
        let factor = self.number(dice, 0, 2_000_000);
        writeln!(self.sheet, "E,{from},{to},{kwh},{factor}").unwrap();
    }

    pub fn bought(&mut self, dice: &mut Dice) {
        let n = self.process(dice);
        let kg = self.number(dice, 1, KILOS);
        let direct = self.number(dice, 0, 100_000_000);
        let indirect = self.number(dice, 0, 100_000_000);
        writeln!(self.sheet, "B,{n},{kg},{direct},{indirect}").unwrap();
    }

    /// A G line where one can still stand, else a B line.
    pub fn good(&mut self, dice: &mut Dice) {
        if self.free.len() > 1 {
            for _ in 0..8 {
                let to = dice.between(2, self.free.len() as u64) as usize;
                let from = dice.between(1, to as u64 - 1) as usize;
                let free = self.free[from - 1];
                if free > 0 && !self.pairs.contains(&(from, to)) {
                    let kg = match dice.below(4) {
                        0 => free,
                        1 => 1,
                        _ => dice.between(1, free),
                    };
                    self.free[from - 1] -= kg;
                    self.pairs.push((from, to));
                    writeln!(self.sheet, "G,{from},{to},{kg}").unwrap();
                    return;
                }
            }
        }
        self.bought(dice);
    }

    /// A K line; an N line where the rank is stated already.
    pub fn precursor_figures(&mut self, dice: &mut Dice) {
        let precursor = any_precursor(dice);
        let rank = dice.between(1, 3);
        if self.stated.contains(&(precursor, rank)) {
            self.precursor_use_of(dice, precursor);
        } else {
            self.state(dice, precursor, rank);
        }
    }

    /// An N line, and a K line where its precursor has none so far.
    pub fn precursor_use(&mut self, dice: &mut Dice) {
        let precursor = any_precursor(dice);
        self.precursor_use_of(dice, precursor);
    }

    fn precursor_use_of(&mut self, dice: &mut Dice, precursor: u64) {
        let n = self.process(dice);
        let kg = self.number(dice, 1, KILOS);
        self.put(dice, &format!("N,{n},{precursor},{kg}\n"));
        if self.stated.iter().all(|stated| stated.0 != precursor) {
            let rank = dice.between(1, 3);
            self.state(dice, precursor, rank);
        }
    }

    fn state(&mut self, dice: &mut Dice, precursor: u64, rank: u64) {
        let direct = self.number(dice, 0, 100_000_000);
        let indirect = self.number(dice, 0, 100_000_000);
        self.put(dice, &format!("K,{precursor},{rank},{direct},{indirect}\n"));
        self.stated.push((precursor, rank));
    }

    /// Puts a line at the end or in front of any line but a P line, so that a K
    /// line stands above its uses or below them.
    fn put(&mut self, dice: &mut Dice, line: &str) {
        let at = match dice.below(2) {
            0 => self.sheet.len(),
            _ => self.head + dice.index(self.sheet.len() - self.head + 1),
        };
        let end = self.sheet[..at].iter().rposition(|byte| *byte == b'\n');
        let start = end.map_or(0, |end| end + 1);
        self.sheet.splice(start..start, line.bytes());
    }

    /// Adds lines of any kind until the sheet has exactly `length` bytes.
    pub fn fill(&mut self, dice: &mut Dice, length: usize) {
        while self.sheet.len() + 160 < length {
            self.line(dice);
        }
        pad(&mut self.sheet, length);
    }
}

/// A precursor, mostly one of a few, so that several lines name it.
fn any_precursor(dice: &mut Dice) -> u64 {
    match dice.below(8) {
        0 => dice.between(1, 255),
        1 => 255,
        _ => dice.between(1, 3),
    }
}

/// A K line for each of 255 precursors and three ranks, in any order.
pub fn every_figure(dice: &mut Dice, size: Size) -> Vec<String> {
    let mut lines = Vec::new();
    for precursor in 1..=255 {
        for rank in 1..=3 {
            let direct = size.number(dice, 0, 100_000_000);
            let indirect = size.number(dice, 0, 100_000_000);
            lines.push(format!("K,{precursor},{rank},{direct},{indirect}\n"));
        }
    }
    dice.shuffle(&mut lines);
    lines
}

/// A good sheet of P lines and `lines` others, and of K lines that these need.
pub fn mixed_sheet(dice: &mut Dice, processes: usize, lines: usize, size: Size) -> Vec<u8> {
    let mut maker = Maker::new(dice, processes, size);
    for _ in 0..lines {
        maker.line(dice);
    }
    maker.sheet
}

/// A good sheet of mixed lines with exactly `length` bytes.
pub fn full_sheet(dice: &mut Dice, processes: usize, size: Size, length: usize) -> Vec<u8> {
    let mut maker = Maker::new(dice, processes, size);
    maker.fill(dice, length);
    maker.sheet
}

/// Adds lines of 10 to 19 bytes until the sheet, which has a process, is of
/// exactly `length` bytes, at least 10 more than now.
pub fn pad(sheet: &mut Vec<u8>, length: usize) {
    loop {
        let missing = length - sheet.len();
        let line = match missing {
            0 => return,
            10..20 => missing,
            20..30 => missing / 2,
            _ => 19,
        };
        // `W,0,1,` and LF are 7 bytes, the number takes the rest.
        let mj = 10u64.pow(line as u32 - 8);
        writeln!(sheet, "W,0,1,{mj}").unwrap();
    }
}

fn dash_or(dice: &mut Dice, code: u64, value: u64) -> String {
    if code != 0 && dice.once_in(2) {
        "-".into()
    } else {
        value.to_string()
    }
}
