//! Slips: a good sheet is changed in one place or several.

use reference::samples::Dice;

use crate::limits::beside_any;

const ALPHABET: &[u8] = b"PSHWEBGKN0123456789,-\n";

/// Changes the sheet in one place, sometimes in up to five.
pub fn slip(dice: &mut Dice, sheet: &mut Vec<u8>) {
    for _ in 0..dice.pick(&[1, 1, 1, 1, 1, 1, 2, 2, 3, 5]) {
        match dice.below(3) {
            0 => slip_byte(dice, sheet),
            1 => slip_field(dice, sheet),
            _ => slip_line(dice, sheet),
        }
    }
}

/// A byte changed, inserted or removed; or the sheet's end cut.
fn slip_byte(dice: &mut Dice, sheet: &mut Vec<u8>) {
    if sheet.is_empty() {
        return;
    }
    let at = dice.index(sheet.len());
    let byte = match dice.below(3) {
        0 => dice.roll() as u8,
        1 => dice.pick(b" \r\t.+x/:;\0\xff\xb0"),
        _ => dice.pick(ALPHABET),
    };
    match dice.below(9) {
        0..3 => sheet[at] = byte,
        3 | 4 => sheet.insert(at, byte),
        5 | 6 => drop(sheet.remove(at)),
        7 => drop(sheet.pop()),
        _ => sheet.truncate(at),
    }
}

/// Lines of the sheet, each as its fields. The last is what stands after the
/// last LF, mostly nothing.
type Lines = Vec<Vec<Vec<u8>>>;

fn parted(sheet: &[u8]) -> Lines {
    let fields = |line: &[u8]| line.split(|byte| *byte == b',').map(Vec::from).collect();
    sheet.split(|byte| *byte == b'\n').map(fields).collect()
}

fn joined(lines: &Lines) -> Vec<u8> {
    let lines: Vec<Vec<u8>> = lines.iter().map(|line| line.join(&b',')).collect();
    lines.join(&b'\n')
}

/// The index of any line but the last, if there is another.
fn any_line(dice: &mut Dice, lines: &Lines) -> usize {
    dice.index((lines.len() - 1).max(1))
}

/// A field replaced, added or removed; two fields changed over.
fn slip_field(dice: &mut Dice, sheet: &mut Vec<u8>) {
    let mut lines = parted(sheet);
    let at = any_line(dice, &lines);
    let other = any_line(dice, &lines);
    let place = dice.index(lines[at].len());
    match dice.below(10) {
        0..3 => lines[at][place] = beside_any(dice).into_bytes(),
        3 => {
            let second = dice.index(lines[at].len());
            lines[at].swap(place, second);
        }
        4 => {
            let second = dice.index(lines[other].len());
            let text = lines[other][second].clone();
            lines[at][place] = text;
        }
        5 | 6 => wrong_end(dice, &mut lines[at]),
        7 => spell_otherwise(dice, &mut lines[at][place]),
        8 => lines[at].insert(place, beside_any(dice).into_bytes()),
        _ => drop(lines[at].remove(place)),
    }
    *sheet = joined(&lines);
}

/// Another process, or outside, in the second or third field.
fn wrong_end(dice: &mut Dice, line: &mut [Vec<u8>]) {
    let end = match dice.below(3) {
        0 => dice.below(3),
        _ => dice.below(18),
    };
    if let Some(field) = line.get_mut(dice.between(1, 2) as usize) {
        *field = end.to_string().into_bytes();
    }
}

/// Leading zeros, a sign, blanks, CR, or more digits.
fn spell_otherwise(dice: &mut Dice, field: &mut Vec<u8>) {
    match dice.below(8) {
        0 => field.insert(0, b'0'),
        1 => field.splice(0..0, *b"000000000000000000000").for_each(drop),
        2 => field.insert(0, dice.pick(b"-+ ")),
        3 => field.push(dice.pick(b" \r-.")),
        4 => *field = b"-0".to_vec(),
        _ => {
            let digit = dice.pick(b"0019");
            let more = dice.pick(&[1, 2, 8, 15, 16, 17, 18, 19, 20, 40, 300]);
            field.resize(field.len() + more, digit);
        }
    }
}

/// A line dropped, doubled or moved; CR before every LF; a G line raised; a K
/// line doubled or dropped.
fn slip_line(dice: &mut Dice, sheet: &mut Vec<u8>) {
    let mut lines = parted(sheet);
    let at = any_line(dice, &lines);
    let other = any_line(dice, &lines);
    match dice.below(16) {
        0..4 => drop(lines.remove(at)),
        4..7 => lines.insert(other, lines[at].clone()),
        7..10 => lines.swap(at, other),
        10 => lines.push(lines[at].clone()),
        11 => lines.iter_mut().for_each(|line| line.push(b"\r".into())),
        12 => lines.insert(at, vec![Vec::new()]),
        13 if lines.iter().any(|line| line[0] == b"K") => slip_figures(dice, &mut lines),
        _ => slip_good(dice, &mut lines),
    }
    *sheet = joined(&lines);
}

/// A K line dropped, so that its precursor may have none left, or doubled with
/// other figures, or its precursor or rank changed by one.
fn slip_figures(dice: &mut Dice, lines: &mut Lines) {
    let figures: Vec<usize> = (0..lines.len())
        .filter(|at| lines[*at].len() == 5 && lines[*at][0] == b"K")
        .collect();
    let Some(&at) = figures.get(dice.index(figures.len().max(1))) else {
        return;
    };
    match dice.below(4) {
        0 => drop(lines.remove(at)),
        1 => {
            let mut again = lines[at].clone();
            again[3] = dice.below(9).to_string().into_bytes();
            lines.insert(
                dice.between(at as u64, lines.len() as u64 - 1) as usize,
                again,
            );
        }
        place => {
            let field = &mut lines[at][place as usize - 1];
            if let Some(last) = field.last_mut().filter(|digit| digit.is_ascii_digit()) {
                *last = if *last == b'9' { b'8' } else { *last + 1 };
            }
        }
    }
}

/// A G line doubled, turned, or with a digit more; without one, a P line
/// whose output loses its last digit.
fn slip_good(dice: &mut Dice, lines: &mut Lines) {
    let goods: Vec<usize> = (0..lines.len())
        .filter(|at| lines[*at].len() == 4 && lines[*at][0] == b"G")
        .collect();
    if goods.is_empty() {
        if let [_, _, output] = &mut lines[0][..] {
            output.pop();
        }
        return;
    }
    let at = dice.pick(&goods);
    match dice.below(3) {
        0 => {
            let mut again = lines[at].clone();
            again[3] = dice.between(1, 3).to_string().into_bytes();
            lines.insert(at + 1, again);
        }
        1 => lines[at].swap(1, 2),
        _ => lines[at][3].insert(0, dice.pick(b"12")),
    }
}
