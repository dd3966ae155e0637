//! A fibre crew's list: codes of tubes, fibres, ducts, closures, poles and
//! parts, and phrases from their sheets. Codes begin like other codes (T10 and
//! T100), some rows stand twice, and long codes stand before and after short ones.

use crate::dice::Dice;
use crate::question::Question;
use crate::tables::{List, STANDARD};

const COLOURS: [&str; 12] = [
    "BLUE", "ORANGE", "GREEN", "BROWN", "SLATE", "WHITE", "RED", "BLACK", "YELLOW", "VIOLET",
    "ROSE", "AQUA",
];

const PHRASES: [&str; 30] = [
    "LIVE NEUTRAL",
    "LIVE",
    "NEUTRAL",
    "NEUTRAL BAR",
    "LIVE WIRE",
    "NO LIGHT",
    "LIGHT",
    "LOW LIGHT",
    "DARK FIBRE",
    "DARK",
    "FIBRE",
    "CUT AND SEAL",
    "CUT",
    "SEAL",
    "SEALED END",
    "SPLICE TRAY",
    "SPLICE",
    "TRAY FULL",
    "TRAY",
    "DO NOT BEND",
    "BEND",
    "WATER IN DUCT",
    "DUCT",
    "DUCT BLOCKED",
    "CALL YARD",
    "YARD",
    "POLE LEANS",
    "POLE",
    "EARTH FIRST",
    "EARTH",
];

/// So many rows, and a sheet of some lines on which they occur.
pub fn question(dice: &mut Dice, rows: usize) -> Question {
    let mut patterns: Vec<String> = codes();
    while patterns.len() < rows {
        patterns.push(part_code(dice, patterns.len()));
    }
    shuffle(dice, &mut patterns);
    patterns.truncate(rows);
    repeat_some(dice, &mut patterns);
    let values: Vec<u32> = patterns.iter().map(|_| dice.below(400) as u32).collect();
    let sheet = sheet(dice, &patterns);
    let list = List::with_values(STANDARD, &patterns, &values);
    Question::new(&format!("fibre crew, {rows} rows"), list, vec![sheet])
}

fn codes() -> Vec<String> {
    let mut codes: Vec<String> = PHRASES.iter().map(|phrase| phrase.to_string()).collect();
    codes.extend((1..=144).map(|tube| format!("T{tube}")));
    codes.extend((1..=96).map(|fibre| format!("F{fibre}")));
    codes.extend((1..=60).map(|pole| format!("POLE {}", pole * 3)));
    for colour in COLOURS {
        codes.extend(["", " TUBE", " FIBRE", " DUCT"].map(|part| format!("{colour}{part}")));
    }
    for row in 1..=12 {
        codes.extend((1..=8).map(|column| format!("D{row}/{column}")));
    }
    for plug in ["SC", "LC", "FC", "E2000", "MPO"] {
        codes.extend(["", "/APC", "/UPC", "/PC", "-DUPLEX"].map(|end| format!("{plug}{end}")));
    }
    for count in [4, 12, 24, 48, 96, 144, 288] {
        codes.extend(["G652D", "G657A1", "G657A2", "OM3"].map(|glass| format!("{count}F-{glass}")));
    }
    codes
}

/// A closure, a route or a part number.
fn part_code(dice: &mut Dice, row: usize) -> String {
    match row % 4 {
        0 => format!("CL{}{}", dice.between(10, 39), *dice.pick(&['A', 'B', 'C'])),
        1 => format!("R{}-{}", dice.between(1, 9), dice.between(1, 120)),
        _ => format!("PN{}", dice.between(4000, 5999)),
    }
}

fn shuffle(dice: &mut Dice, patterns: &mut [String]) {
    for last in (1..patterns.len()).rev() {
        patterns.swap(last, dice.below(last + 1));
    }
}

/// Every fortieth row is another row once more.
fn repeat_some(dice: &mut Dice, patterns: &mut [String]) {
    for row in (0..patterns.len()).step_by(40) {
        patterns[row] = dice.pick(patterns).clone();
    }
}

fn sheet(dice: &mut Dice, patterns: &[String]) -> Vec<u8> {
    let mut sheet = String::new();
    for line in 1..=80 {
        sheet.push_str(&format!("{line}. "));
        for _ in 0..dice.between(2, 6) {
            sheet.push_str(dice.pick::<String>(patterns));
            sheet.push_str(dice.pick::<&str>(&[" ", ", ", " to ", "0 ", ""]));
        }
        sheet.push_str(dice.pick::<&str>(&[".\n", "; ok\n", "\n"]));
    }
    sheet.into_bytes()
}
