//! docs/SPEED.md against docs/reports, which `bench/run` and `bench/count` make: the second number of each cell is the report's;
//! what misses its target is bold, and nothing else; all that the report has a target for is in the table; each call with a miss is
//! named where misses are told; and the table of instructions has rows of the report.

use yuzkamide_tests::documents::{cells, Document};
use yuzkamide_tests::mentions::table;

fn document(name: &str) -> String {
    Document::read(&format!("docs/{name}")).text
}

fn number(word: &str) -> f64 {
    word.parse().unwrap_or_else(|_| panic!("{word:?}"))
}

/// The rows of every table whose header begins with these cells.
fn rows<'a>(text: &'a str, header: &[&str]) -> Vec<Vec<&'a str>> {
    let mut all = Vec::new();
    let mut is_inside = false;
    for line in text.lines() {
        match cells(line) {
            None => is_inside = false,
            Some(row) if row.starts_with(header) => is_inside = true,
            Some(row) if is_inside && !line.starts_with("|---") => all.push(row),
            Some(_) => {}
        }
    }
    all
}

// ---- the ratios

/// A row of the report.
struct Measured<'a> {
    call: &'a str,
    shape: &'a str,
    block_len: &'a str,
    peer: &'a str,
    is_in_cache: bool,
    ratio: f64,
    target: Option<f64>,
    is_missed: bool,
}

fn measured(report: &str) -> Vec<Measured<'_>> {
    let mut all = Vec::new();
    for (section, is_in_cache) in [("Out of cache", false), ("In cache", true)] {
        let rows = table(report, section);
        let Some(header) = rows.first() else { continue };
        let at = |name: &str| header.iter().position(|cell| *cell == name).expect(name);
        for row in &rows[2..] {
            let (call, target) = (row[at("call")], row[at("target")]);
            all.push(Measured {
                call: call.split(", per ").next().unwrap(),
                shape: row[at("shape")],
                block_len: row[at("B")],
                peer: row[at("peer")],
                is_in_cache,
                ratio: number(row[at("ratio")]),
                target: (target != "-").then(|| number(target)),
                is_missed: row[at("met")].contains("no"),
            });
        }
    }
    all
}

/// A number of a cell, and whether it is bold.
fn mark(word: &str) -> (f64, usize, bool) {
    let plain = word.trim_matches('*');
    let digits = plain.split_once('.').map_or(0, |(_, digits)| digits.len());
    (number(plain), digits, plain != word)
}

/// The table's columns: where a shape's numbers stand, in cache or out of it, and where their target.
const COLUMNS: [(usize, bool, &str, usize); 4] = [
    (3, false, "5 + 3", 5),
    (4, false, "16 + 16", 5),
    (6, true, "5 + 3", 8),
    (7, true, "16 + 16", 8),
];

/// Why a cell of two runs is not that of this row of the report, of which the second is.
fn cell_faults(cell: &str, least: &str, found: &Measured) -> Vec<String> {
    let target = (least != "-").then(|| number(least));
    let mut faults = Vec::new();
    if found.target.is_some() && found.target != target {
        faults.push(format!("the report's target is {:?}", found.target));
    }
    let Some((first, second)) = cell.split_once(", ") else {
        faults.push("not two runs".to_string());
        return faults;
    };
    for word in [first, second] {
        let (ratio, _, is_bold) = mark(word);
        let is_right = match target {
            Some(target) if is_bold => ratio <= target,
            Some(target) => ratio >= target,
            None => !is_bold,
        };
        if !is_right {
            faults.push(format!("{word} is bold, or should be"));
        }
    }
    let (ratio, digits, is_bold) = mark(second);
    if (ratio - found.ratio).abs() > 0.501 * 0.1_f64.powi(digits as i32) {
        faults.push(format!("the report has {}", found.ratio));
    }
    if found.target.is_some() && is_bold != found.is_missed {
        faults.push("the report has it the other way".to_string());
    }
    faults
}

/// How many cells the table has, and what is wrong with it.
fn ratio_faults(document: &str, report: &str) -> (usize, Vec<String>) {
    let (report, rows) = (measured(report), rows(document, &["call", "against", "B"]));
    let (mut seen, mut faults) = (0, Vec::new());
    for row in &rows {
        for (column, is_in_cache, shape, least) in COLUMNS {
            let found = report.iter().find(|found| {
                [found.call, found.peer, found.block_len, found.shape]
                    == [row[0], row[1], row[2], shape]
                    && found.is_in_cache == is_in_cache
            });
            let cell = row[column];
            let name = format!("{}, {}, B = {}, {shape}: {cell}", row[0], row[1], row[2]);
            match found {
                Some(found) if cell != "-" => {
                    let of_cell = cell_faults(cell, row[least], found);
                    faults.extend(of_cell.iter().map(|fault| format!("{name}: {fault}")));
                    seen += 1;
                }
                Some(found) if found.target.is_some() => faults.push(format!("{name}: left out")),
                None if cell != "-" => faults.push(format!("{name}: not in the report")),
                _ => {}
            }
        }
    }
    for held in report.iter().filter(|row| row.target.is_some()) {
        let names = [held.call, held.peer, held.block_len];
        if !rows.iter().any(|row| row[..3] == names) {
            faults.push(format!("{names:?} has a target, and no row"));
        }
    }
    (seen, faults)
}

#[test]
fn the_ratios_are_those_of_the_report() {
    let (seen, faults) = ratio_faults(&document("SPEED.md"), &document("reports/speed.md"));
    assert!(seen > 80, "the search finds the cells: {seen}");
    assert!(faults.is_empty(), "{faults:#?}");
}

/// The calls with a bold cell that the section on misses does not name.
fn untold(document: &str) -> Vec<&str> {
    let mut sections = document.split("\n## ");
    let is_on_misses = |text: &&str| text.lines().next().unwrap().contains("missed");
    let words: Vec<&str> = sections
        .find(is_on_misses)
        .unwrap_or("")
        .split_whitespace()
        .collect();
    let told = words.join(" "); // a name may go over a line's end
    rows(document, &["call", "against", "B"])
        .iter()
        .filter(|row| row.iter().any(|cell| cell.contains("**")))
        .map(|row| row[0])
        .filter(|call| !told.contains(call))
        .collect()
}

#[test]
fn what_is_missed_is_told() {
    assert_eq!(untold(&document("SPEED.md")), [""; 0]);
}

// ---- the instructions

const COUNTED: [&str; 6] = ["call", "shape", "B", "library", "C", "C / library"];

#[test]
fn the_instructions_are_those_of_the_report() {
    let (document, report) = (document("SPEED.md"), document("reports/instructions.md"));
    let (told, counted) = (rows(&document, &COUNTED), rows(&report, &COUNTED));
    assert!(told.len() > 10, "the search finds the rows: {}", told.len());
    for row in &told {
        assert!(counted.contains(row), "not in the report: {row:?}");
    }
}

// ---- the checks themselves

const REPORT: &str = "# A report\n\n## Out of cache\n
| call | shape | B | peer | ratio | target | met |\n|---|---|--:|---|--:|--:|---|
| read | 5 + 3 | 64 | C | 0.946 | 0.95 | **no** |\n| read | 16 + 16 | 64 | C | 1.004 | 0.95 | yes |
| read | 5 + 3 | 64 | memcpy alone | 0.500 | - | - |\n
## In cache\n
| call | shape | B | peer | ratio | target | met |\n|---|---|--:|---|--:|--:|---|
| sweep, per stripe | 5 + 3 | 64 | ISA-L | 0.700 | 0.70 | yes |\n";

const DOCUMENT: &str = "# A document\n
| call | against | B | out of cache, 5 + 3 | 16 + 16 | at least | in cache, 5 + 3 | 16 + 16 | at least |
|---|---|--:|---|---|--:|---|---|--:|
| read | C | 64 | 0.97, **0.946** | **0.90**, 1.00 | 0.95 | - | - | - |
| sweep | ISA-L | 64 | - | - | - | 0.71, 0.70 | - | 0.7 |\n
## What is missed\n\nA read is.\n";

#[test]
fn a_wrong_cell_is_seen() {
    let (seen, faults) = ratio_faults(DOCUMENT, REPORT);
    assert_eq!((seen, faults.as_slice()), (3, [].as_slice()));
    let wrong = [
        ("**0.946**", "**0.944**"), // another number
        ("**0.946**", "0.946"),     // a miss that is not bold
        ("**0.946**", "0.95"),      // a miss rounded away
        ("1.00 | 0.95", "**1.00** | 0.95"),
        ("0.97, **0.946**", "**0.97**, **0.946**"),
        ("**0.90**, 1.00", "0.90, 1.00"),
        ("**0.90**, 1.00", "-"),
        ("| 0.95 |", "| 0.94 |"), // another target
        ("0.71, 0.70", "0.70"),   // one run
        ("| sweep | ISA-L |", "| sweep | C |"),
        ("| sweep | ISA-L | 64 |", "| sweep | ISA-L | 4096 |"),
        ("| 0.71, 0.70 | - |", "| 0.71, 0.70 | 0.71, 0.70 |"),
    ];
    for (right, other) in wrong {
        assert!(DOCUMENT.contains(right), "{right}");
        let text = DOCUMENT.replacen(right, other, 1);
        assert!(!ratio_faults(&text, REPORT).1.is_empty(), "{other}");
    }
}

#[test]
fn a_miss_that_is_not_told_is_seen() {
    assert_eq!(untold(&DOCUMENT.replace("A read", "Read")), ["read"]);
    assert_eq!(untold(DOCUMENT), [""; 0]);
}
