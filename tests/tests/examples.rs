//! The programs and scripts of examples/: a line on a growing array, which must notice a library with a fault; drawers that are
//! files; the pictures of the layout, against the moves made one by one; and what the scripts build, say and leave alone.

use std::collections::BTreeMap;
use std::fs;
use std::ops::RangeInclusive;
use std::os::unix::fs::PermissionsExt;
use std::path::{Path, PathBuf};
use std::process::{Command, Output};
use std::sync::LazyLock;
use yuzkamide_tests::compile::{archive, program, run, text};
use yuzkamide_tests::layout::{Layout, Owner};
use yuzkamide_tests::program::{root, target, Outside};
use yuzkamide_tests::record::Record;

/// What the line prints, and examples/run.
const PRINTED: &str = "\
seed 1
points are packed: 100, 103, 101 as 100, 3, -2
    a pack of two points and a half is refused: 11 points
5 disks are formatted: 1668 blocks of 4096 bytes
    all 417 stripes are sound
    all 1668 blocks are as last written
3 disks are added: 750 moves to make
    a read with the old disks alone is refused: 7 images
    a read of the next new block is refused: 8 past the end
    200 of 750 moves, 1980 blocks, 2260 logs so far
    400 of 750 moves, 2292 blocks, 2523 logs so far
    all 417 stripes are sound
    a block is off: a sweep stops at stripe 207, with 208 read
    a blank is off: a sweep stops at stripe 208, with 209 read
    two blanks are off alike: a sweep stops at stripe 208, with 209 read
    a read of the next new block is refused: 8 past the end
disk 2 is out
    advance is refused: 3 degraded
    sweep is refused: 3 degraded
    all 2292 blocks are as last written
    rebuilding disk 2: [..........] 0 of 417 stripes, 3523 logs so far
    rebuilding disk 2: [##........] 100 of 417 stripes, 3589 logs so far
    rebuilding disk 2: [#####.....] 250 of 417 stripes, 3688 logs so far
    advance is refused: 3 degraded
    sweep is refused: 3 degraded
    all 2292 blocks are as last written
disk 2 is out, and with it the 250 stripes rebuilt
    all 2292 blocks are as last written
    rebuilding disk 2: [..........] 0 of 417 stripes, 3688 logs so far
    rebuilding disk 2: [###.......] 150 of 417 stripes, 3796 logs so far
    rebuilding disk 2: [#######...] 300 of 417 stripes, 3910 logs so far
    rebuilding disk 2: [##########] 417 of 417 stripes, 3987 logs so far
disk 2 is rebuilt
    all 417 stripes are sound
    all 2292 blocks are as last written
    600 of 750 moves, 2628 blocks, 4256 logs so far
    750 of 750 moves, 2919 blocks, 4480 logs so far
    advance is refused: 5 nothing to move
the growth is over: 2919 blocks
    all 417 stripes are sound
    all 1251 new blocks stand where they stood when they came
    all 2919 blocks are as last written
    all 51 new blocks of the tail are written and read
disk 5 is out
    all 2919 blocks are as last written
    all 51 new blocks of the tail are written and read
    rebuilding disk 5: [..........] 0 of 417 stripes, 6582 logs so far
    rebuilding disk 5: [##########] 417 of 417 stripes, 6848 logs so far
disk 5 is rebuilt
    all 417 stripes are sound
    all 2919 blocks are as last written
writes 6848, of these 211 of blocks on a disk that is out, 1005 of new blocks in mid-growth
    while a disk was rebuilt: 363 in stripes done, 363 in the others
reads 32700, of these 1588 of blocks on a disk that is out, 4466 of new blocks in mid-growth
    while a disk was rebuilt: 2101 in stripes done, 1159 in the others
points compared 66969600
moves 750, refusals met 9
every read gave what was last written
";

const GCC: &[&str] = &["gcc", "-std=c11", "-O2"];

static LINE: LazyLock<PathBuf> =
    LazyLock::new(|| program("line_controller", GCC, &["examples/line_controller.c"]));

static DRAW: LazyLock<PathBuf> =
    LazyLock::new(|| program("layout_svg", GCC, &["examples/layout_svg.c"]));

static DRAWERS: LazyLock<PathBuf> =
    LazyLock::new(|| program("mapped_drawers", GCC, &["examples/mapped_drawers.c"]));

fn output_of(program: &PathBuf, arguments: &[&str]) -> Output {
    Command::new(program).args(arguments).output().unwrap()
}

/// Refused with status 1, nothing on standard output and just this line on standard error.
fn is_refused(program: &PathBuf, arguments: &[&str], line: &str) {
    let output = output_of(program, arguments);
    assert_eq!(output.status.code(), Some(1), "{arguments:?}");
    assert!(output.stdout.is_empty(), "{arguments:?}");
    assert_eq!(text(&output.stderr), format!("{line}\n"), "{arguments:?}");
}

// ---- the line

#[test]
fn a_line_runs() {
    assert_eq!(text(&run(&mut Command::new(&*LINE)).stdout), PRINTED);
    assert_eq!(text(&run(Command::new(&*LINE).arg("1")).stdout), PRINTED);
}

#[test]
fn a_line_runs_with_other_seeds() {
    let last = PRINTED.lines().last();
    for seed in (2..12).chain([0, u64::MAX]) {
        let output = run(Command::new(&*LINE).arg(seed.to_string()));
        let printed = text(&output.stdout);
        assert!(printed.starts_with(&format!("seed {seed}\n")));
        assert_ne!(
            printed,
            PRINTED.replacen("seed 1", &format!("seed {seed}"), 1)
        );
        assert_eq!(printed.lines().last(), last, "seed {seed}");
    }
}

/// Only a decimal number of 64 bits is a seed.
#[test]
fn a_line_refuses_other_arguments() {
    let usage = "usage: line_controller [seed], a number from 0 to 18446744073709551615";
    let seeds = [
        "",
        " ",
        "one",
        "1x",
        "x1",
        " 1",
        "1 ",
        "+1",
        "-1",
        "-0",
        "0x1",
        "1.0",
        "\n1",
        "18446744073709551616",
        "99999999999999999999",
    ];
    for seed in seeds {
        is_refused(&LINE, &[seed], usage);
    }
    is_refused(&LINE, &["1", "2"], usage);
}

/// What README shows of it, lines of two dots standing for what is left out.
#[test]
fn readme_shows_what_is_printed() {
    let readme = fs::read_to_string(root().join("README.md")).unwrap();
    let (_, shown) = readme.split_once("```text\nseed 1\n").unwrap();
    let (shown, _) = shown.split_once("```\n").unwrap();
    let mut printed = PRINTED.lines();
    for line in shown.lines().filter(|&line| line.trim() != "..") {
        assert!(
            printed.any(|p| p == line),
            "not printed, or not here: {line}"
        );
    }
}

/// A library that breaks a demand is noticed, so what the line says of the real one is worth something.
#[test]
fn a_line_notices_faults() {
    let stale = "is not what was last written";
    let missed = "an unsound stripe is found: 0; it must be 1";
    let faults = [
        ("LOST_WRITE", stale),
        ("OLD_RECORD", stale),
        ("OLD_PARITY", "an unsound stripe is found: 1; it must be 0"),
        ("OUT_PARITY", stale),
        ("PLACE_LEFT", stale),
        ("MADE_UP", "moves done"),
        ("NOT_MADE", stale),
        ("MADE_MORE", "stripes made: 4; it must be 3"),
        ("COUNT_KEPT", "health: 3; it must be 1"),
        ("LOST_AGAIN", "health: 2; it must be 1"),
        ("SKIPPED", stale),
        ("COUNTED_ON", stale),
        ("READ_AHEAD", stale),
        ("READ_REFUSED", "read is refused: 8 past the end"),
        (
            "NOT_REFUSED",
            "advance gives: 0 done; it must give: 3 degraded",
        ),
        ("ZONE_EARLY", "capacity: 1692; it must be 1668"),
        ("ZONE_LATE", "capacity: 1668; it must be 1692"),
        ("NEW_SPOILED", stale),
        ("NEW_MOVED", stale),
        (
            "OLD_LIGHT",
            "what the drawer of a parity holds: 2; it must be 1",
        ),
        ("NOT_TOLD", "a block is moved: 0; it must be 1"),
        ("BY_PARITY", "a block is moved: 1; it must be 0"),
        ("NEVER_FOUND", missed),
        (
            "NEXT_STRIPE",
            "the first unsound stripe: 208; it must be 207",
        ),
        ("NO_BLANKS", missed),
        ("SUM_ALONE", missed),
        ("NO_CARRY", stale),
        ("RUN_ON", stale),
        ("TURNED", "a byte of packed points: 156; it must be 100"),
        (
            "HALF_POINT",
            "a pack of two points and a half gives: 0 done; it must give: 11 points",
        ),
        ("VERSION", "the version of libpbm.a: 2; it must be 1"),
    ];
    let program = faulty("line_controller");
    let with = |fault: &str| Command::new(&program).env("FAULT", fault).output().unwrap();
    // those of tests/c/faulty.c, and no others
    let names: Vec<&str> = faults.iter().map(|(fault, _)| *fault).collect();
    let unknown = with("ANOTHER");
    assert_eq!(unknown.status.code(), Some(1));
    assert!(unknown.stdout.is_empty());
    assert_eq!(
        text(&unknown.stderr),
        format!(
            "faulty: FAULT is 'ANOTHER': it must be one of NONE {}\n",
            names.join(" ")
        )
    );
    let mut none = Command::new(&program);
    assert_eq!(text(&run(none.env_remove("FAULT")).stdout), PRINTED);
    assert_eq!(text(&run(none.env("FAULT", "NONE")).stdout), PRINTED);
    for (fault, message) in faults {
        let output = with(fault);
        let says = text(&output.stderr);
        assert_eq!(output.status.code(), Some(1), "{fault}");
        assert!(
            says.starts_with("line_controller: ") && says.contains(message),
            "{fault}: {says}"
        );
        assert!(!text(&output.stdout).contains("every read"), "{fault}");
    }
}

/// An archive of another version is noticed by each example, before it makes a call.
#[test]
fn examples_compare_versions() {
    for (example, arguments) in [
        ("line_controller", &[][..]),
        ("layout_svg", &["3", "2", "9"]),
        ("mapped_drawers", &["/nowhere"]),
    ] {
        let mut command = Command::new(faulty(example));
        let output = command.args(arguments).env("FAULT", "VERSION").output();
        let output = output.unwrap();
        assert_eq!(output.status.code(), Some(1), "{example}");
        let says = text(&output.stderr);
        assert!(says.starts_with(&format!("{example}: ")), "{says}");
        assert!(
            says.contains("libpbm.a") && says.contains("version"),
            "{says}"
        );
    }
}

/// An example with tests/c/faulty.c between it and the library: the variable FAULT names the fault.
fn faulty(example: &str) -> PathBuf {
    let wrapped = [
        "version",
        "read",
        "write",
        "advance",
        "out",
        "continue",
        "status",
        "locate",
        "sweep",
        "points_pack",
        "points_unpack",
    ];
    let wrap = wrapped.map(|call| format!("-Wl,--wrap=pbm_{call}"));
    let mut compiler = GCC.to_vec();
    compiler.extend(wrap.iter().map(String::as_str));
    let source = format!("examples/{example}.c");
    let name = format!("{example}-faulty");
    program(&name, &compiler, &[&source, "tests/c/faulty.c"])
}

// ---- the pictures

fn picture_by(words: &[String]) -> String {
    let output = run(Command::new(&*DRAW).args(words));
    text(&output.stdout).to_string()
}

fn picture(arguments: &[u64]) -> String {
    picture_by(&words(arguments, None))
}

/// The arguments, and after them the block that is to be lit.
fn words(arguments: &[u64], block: Option<u64>) -> Vec<String> {
    let mut words: Vec<String> = arguments.iter().map(u64::to_string).collect();
    words.extend(
        block
            .into_iter()
            .flat_map(|b| ["--block".to_string(), b.to_string()]),
    );
    words
}

/// Whose drawer it is that is lit.
#[derive(Clone, Copy, Debug, PartialEq)]
enum Light {
    Block,
    Parity,
}

/// A place as it is drawn.
#[derive(Debug, PartialEq)]
struct Drawn {
    title: String,
    labels: Vec<String>,
    is_thick: bool,
    is_dashed: bool,
    is_filled: bool,
    light: Option<Light>,
}

fn between(line: &str, from: &str, to: &str) -> Vec<String> {
    line.split(from)
        .skip(1)
        .map(|rest| rest.split(to).next().unwrap().to_string())
        .collect()
}

/// What is drawn in a line, and the frame that lights it.
fn parted(line: &str) -> (&str, Option<Light>) {
    let Some((place, frame)) = line.split_once("<rect x=\"3.5\" y=\"3.5\" ") else {
        return (line, None);
    };
    assert!(frame.ends_with(" stroke-width=\"4\"/></g>"), "{frame}");
    let light = match between(frame, "stroke=\"", "\"")[0].as_str() {
        "#d1001f" => Light::Block,
        "#0063b2" => Light::Parity,
        colour => panic!("{colour}"),
    };
    (place, Some(light))
}

/// The places of a picture, with where they are drawn.
fn drawn(picture: &str) -> Vec<((u64, u64), Drawn)> {
    picture
        .lines()
        .filter(|line| line.contains("<title>stripe "))
        .map(|line| {
            let (line, light) = parted(line);
            let at = &between(line, "translate(", ")")[0];
            let (x, y) = at.split_once(',').unwrap();
            let labels = between(line, "<text ", "</text>");
            let place = Drawn {
                title: between(line, "<title>", "</title>")[0].clone(),
                labels: labels
                    .iter()
                    .map(|label| label.split_once('>').unwrap().1.to_string())
                    .collect(),
                is_thick: line.contains("stroke-width=\"3\""),
                is_dashed: line.contains("stroke-dasharray"),
                is_filled: !line.contains("fill=\"none\"") && !line.contains("fill=\"#fff\""),
                light,
            };
            ((x.parse().unwrap(), y.parse().unwrap()), place)
        })
        .collect()
}

/// The words of the legend, and how the place beside them is lit.
fn legend(picture: &str) -> Vec<(String, Option<Light>)> {
    let mut lines = picture.lines();
    let mut rows = Vec::new();
    while let Some(line) = lines.find(|line| line.contains("<title>legend</title>")) {
        let (_, words) = lines.next().unwrap().split_once('>').unwrap();
        let words = words.strip_suffix("</text>").unwrap().to_string();
        rows.push((words, parted(line).1));
    }
    rows
}

/// Of every picture. Two more rows are there if a block is lit.
const LEGEND: [&str; 6] = [
    "a block, not moved",
    "parity, not moved",
    "a block, moved from disk 1",
    "parity, moved from disk 0",
    "a new block",
    "blank: zeroes",
];

/// The place as it is to be drawn, by the moves made one by one on the layout before the growth, and not lit.
fn wanted(first: &Layout, now: &Layout, stripe: u64, disk: u64) -> Drawn {
    let owner = now.owner(stripe, disk);
    let came_from = match owner {
        Owner::Blank => None,
        Owner::Parity => Some(first.parity(stripe)),
        Owner::Data(b) => (b < first.capacity()).then(|| first.place(b).1),
    };
    let is_new = matches!(owner, Owner::Data(_)) && came_from.is_none();
    let came_from = came_from.filter(|&from| from != disk);
    let (what, label) = match owner {
        Owner::Blank => ("blank".to_string(), None),
        Owner::Parity => ("parity".to_string(), Some("P".to_string())),
        Owner::Data(b) if is_new => (format!("new block {b}"), Some(b.to_string())),
        Owner::Data(b) => (format!("block {b}"), Some(b.to_string())),
    };
    let note = match came_from {
        Some(from) => Some(format!("from {from}")),
        None => is_new.then(|| "new".to_string()),
    };
    let from = came_from.map_or(String::new(), |from| format!(", from disk {from}"));
    Drawn {
        title: format!("stripe {stripe}, disk {disk}: {what}{from}"),
        labels: label.into_iter().chain(note).collect(),
        is_thick: came_from.is_some(),
        is_dashed: owner == Owner::Blank,
        is_filled: is_new || owner == Owner::Parity,
        light: None,
    }
}

/// An array before its growth and after so many moves of it, and the block that is lit.
struct Shown {
    record: Record,
    first: Layout,
    now: Layout,
    lit: Option<u64>,
}

impl Shown {
    fn of(n: u64, m: u64, stripes: u64, moves: u64) -> Shown {
        let record = Record {
            m,
            moves,
            ..Record::new(n, 1, stripes)
        };
        Shown {
            record,
            first: Layout::home(n, stripes),
            now: Layout::of(&record),
            lit: None,
        }
    }

    /// How a place is lit, by the replay.
    fn light(&self, stripe: u64, disk: u64) -> Option<Light> {
        let (its_stripe, its_disk) = self.now.place(self.lit?);
        match stripe == its_stripe {
            true if disk == its_disk => Some(Light::Block),
            true if disk == self.now.parity(stripe) => Some(Light::Parity),
            _ => None,
        }
    }

    fn legend(&self) -> Vec<(String, Option<Light>)> {
        let mut rows = Vec::from(LEGEND.map(|words| (words.to_string(), None)));
        if let Some(block) = self.lit {
            let (stripe, disk) = self.now.place(block);
            let block = match self.now.is_moved(block) {
                true => format!("block {block}, moved to disk {disk}"),
                false => format!("block {block}, on disk {disk}"),
            };
            let parity = format!("its parity, on disk {}", self.now.parity(stripe));
            rows.push((block, Some(Light::Block)));
            rows.push((parity, Some(Light::Parity)));
        }
        rows
    }

    /// The same with each of these blocks lit: the picture of it is of these stripes.
    fn check_lit(
        mut self,
        arguments: &[u64],
        range: RangeInclusive<u64>,
        blocks: impl IntoIterator<Item = u64>,
    ) {
        for block in blocks {
            self.lit = Some(block);
            self.check(arguments, range.clone());
        }
    }

    /// The picture that these arguments draw is of these stripes, and right.
    fn check(&self, arguments: &[u64], range: RangeInclusive<u64>) {
        let Record {
            n,
            m,
            stripes,
            moves,
            ..
        } = self.record;
        let text = picture_by(&words(arguments, self.lit));
        let total = self.now.total();
        assert!(text.contains(&format!(">{n} + {m} disks: {moves} of {total} moves done<")));
        let (first, last) = (*range.start(), *range.end());
        let part = match last - first + 1 < stripes {
            true => format!(": {first} to {last} of {stripes}"),
            false => String::new(),
        };
        assert!(text.contains(&format!(">disks across, stripes down{part}<")));
        let places = drawn(&text);
        assert_eq!(places.len() as u64, (last - first + 1) * (n + m));
        let (mut columns, mut rows) = (BTreeMap::new(), BTreeMap::new());
        let every = range.flat_map(|s| (0..n + m).map(move |d| (s, d)));
        for ((stripe, disk), ((x, y), place)) in every.zip(places) {
            let mut wanted = wanted(&self.first, &self.now, stripe, disk);
            wanted.light = self.light(stripe, disk);
            assert_eq!(place, wanted, "{arguments:?}, lit {:?}", self.lit);
            // one column for each disk, one row for each stripe
            assert_eq!(*columns.entry(disk).or_insert(x), x);
            assert_eq!(*rows.entry(stripe).or_insert(y), y);
        }
        assert!(columns.values().is_sorted_by(|a, b| a < b), "disks across");
        assert!(rows.values().is_sorted_by(|a, b| a < b), "stripes down");
        // from the top, below the heads, to just above the lower edge, or to the legend's end
        assert_eq!(rows[&first], 118);
        assert_eq!(legend(&text), self.legend());
        let legend_rows = self.legend().len() as u64;
        let high = rows[&last].max(118 + (legend_rows - 1) * 32) + 46;
        assert!(
            text.contains(&format!(" height=\"{high}\" viewBox=")),
            "{high}"
        );
        for (stripe, y) in &rows {
            let number = format!("y=\"{}\" text-anchor=\"end\">{stripe}</text>", y + 18);
            assert!(text.contains(&number), "{arguments:?}: {number}");
        }
        check_frames(&text, &self.record, &rows);
    }
}

/// What has a frame, and its name: a zone of a whole group, the tail; without a growth, all.
#[derive(PartialEq, Eq, PartialOrd, Ord)]
enum Frame {
    Zone(u64),
    Tail,
    Whole,
}

impl Frame {
    fn of(record: &Record, stripe: u64) -> Frame {
        let zone_len = record.n + record.m;
        let group_len = record.n * zone_len;
        match record.m {
            0 => Frame::Whole,
            _ if stripe >= record.stripes - record.stripes % group_len => Frame::Tail,
            _ => Frame::Zone(stripe / zone_len),
        }
    }

    fn len(&self, record: &Record) -> u64 {
        let zone_len = record.n + record.m;
        match self {
            Frame::Zone(_) => zone_len,
            Frame::Tail => record.stripes % (record.n * zone_len),
            Frame::Whole => record.stripes,
        }
    }

    /// From the longest on. What is drawn in part is said to be cut, if there is room.
    fn names(&self, is_cut: bool) -> Vec<String> {
        match (self, is_cut) {
            (Frame::Zone(zone), true) => vec![
                format!("zone {zone}, cut"),
                format!("zone {zone}"),
                format!("{zone}"),
            ],
            (Frame::Zone(zone), false) => vec![format!("zone {zone}")],
            (Frame::Tail, true) => vec!["tail, cut".to_string(), "tail".to_string()],
            (Frame::Tail, false) => vec!["tail".to_string()],
            (Frame::Whole, _) => vec![],
        }
    }
}

/// Each frame is around just the rows of it that are drawn, with its name beside it.
fn check_frames(picture: &str, record: &Record, rows: &BTreeMap<u64, u64>) {
    let mut parts: BTreeMap<Frame, Vec<u64>> = BTreeMap::new();
    for (&stripe, &y) in rows {
        let part = Frame::of(record, stripe);
        parts.entry(part).or_default().push(y);
    }
    let number = |line: &str, name: &str| -> u64 {
        let (_, rest) = line.split_once(&format!("{name}=\"")).unwrap();
        rest.split('"').next().unwrap().parse().unwrap()
    };
    let frames: Vec<(u64, u64)> = picture
        .lines()
        .filter(|line| line.contains("fill=\"#eee\""))
        .map(|line| (number(line, " y"), number(line, "height")))
        .collect();
    let names: Vec<&str> = picture
        .lines()
        .filter(|line| line.contains("rotate(-90)"))
        .map(|line| {
            line.strip_suffix("</text>")
                .unwrap()
                .rsplit_once('>')
                .unwrap()
                .1
        })
        .collect();
    assert_eq!(frames.len(), parts.len());
    assert_eq!(names.len(), if record.m > 0 { parts.len() } else { 0 });
    for (i, (part, ys)) in parts.iter().enumerate() {
        let (top, high) = frames[i];
        assert_eq!(
            (top, high),
            (ys[0] - 6, ys[ys.len() - 1] + 26 + 6 - (ys[0] - 6))
        );
        if let Some(name) = names.get(i) {
            let forms = part.names((ys.len() as u64) < part.len(record));
            // the first that has room
            let fits = |form: &&String| 8 * form.len() as u64 <= high;
            assert_eq!(
                *name,
                forms.iter().find(fits).unwrap_or(&forms[forms.len() - 1])
            );
        }
    }
    // the frames are apart
    for pair in frames.windows(2) {
        assert_eq!(pair[0].0 + pair[0].1 + 12, pair[1].0);
    }
}

fn check(arguments: &[u64], n: u64, m: u64, stripes: u64, moves: u64) {
    Shown::of(n, m, stripes, moves).check(arguments, 0..=stripes - 1);
}

#[test]
fn a_picture_shows_the_layout_after_every_move() {
    for (n, m, total) in [(3, 2, 18), (4, 1, 16)] {
        let group = n * (n + m);
        for moves in 0..=total {
            check(&[n, m, moves], n, m, group, moves);
            // with a tail, the longest that there is and one of a zone and more
            for stripes in [2 * group - 1, group + n + m + 1] {
                let arguments = [n, m, moves, stripes, 0, stripes - 1];
                check(&arguments, n, m, stripes, moves);
            }
        }
    }
}

/// No whole group: a tail and nothing else, with new blocks from the grow itself on.
#[test]
fn pictures_of_small_drawers() {
    for (n, m) in [(3, 2), (4, 1), (5, 3), (16, 16)] {
        let group = n * (n + m);
        for stripes in [1, 2, n, n + m - 1, n + m, n + m + 1, group - 1] {
            check(&[n, m, 0, stripes], n, m, stripes, 0);
        }
    }
}

#[test]
fn pictures_of_other_arrays() {
    check(&[3, 2, 20, 30, 0, 29], 3, 2, 30, 20);
    check(&[3, 2, 36, 30, 0, 29], 3, 2, 30, 36);
    check(&[5, 3, 40, 80, 0, 79], 5, 3, 80, 40);
    check(&[16, 16, 5, 512], 16, 16, 512, 5);
    check(&[16, 16, 8000, 1024, 0, 1023], 16, 16, 1024, 8000);
    check(&[16, 16, 4095, 1023, 0, 1022], 16, 16, 1023, 4095);
    check(&[16, 16, 4096, 1023, 0, 1022], 16, 16, 1023, 4096);
    // before a growth, with any number of stripes
    check(&[3, 0, 0], 3, 0, 9, 0);
    check(&[16, 0, 0, 1], 16, 0, 1, 0);
}

/// Without a last stripe, a group of them or what is left; and every part of two groups, and of a group and a tail, zones and tail
/// cut anywhere.
#[test]
fn pictures_of_some_stripes() {
    let shown = Shown::of(3, 2, 30, 20);
    shown.check(&[3, 2, 20, 30], 0..=14);
    shown.check(&[3, 2, 20, 30, 7], 7..=21);
    shown.check(&[3, 2, 20, 30, 16], 16..=29);
    for first in 0..30 {
        for last in first..30 {
            shown.check(&[3, 2, 20, 30, first, last], first..=last);
        }
    }
    for moves in [17, 18] {
        let shown = Shown::of(3, 2, 21, moves);
        shown.check(&[3, 2, moves, 21], 0..=14);
        shown.check(&[3, 2, moves, 21, 6], 6..=20);
        shown.check(&[3, 2, moves, 21, 15], 15..=20);
        for first in 0..21 {
            for last in first..21 {
                shown.check(&[3, 2, moves, 21, first, last], first..=last);
            }
        }
    }
    Shown::of(3, 0, 100, 0).check(&[3, 0, 0, 100], 0..=8);
    Shown::of(3, 0, 100, 0).check(&[3, 0, 0, 100, 95], 95..=99);
}

/// The most stripes that an array can have, 3 + 2 disks with a tail of one: both ends, and where the growth stands.
#[test]
fn pictures_of_the_largest_array() {
    let (stripes, total) = (1_048_576, 1_258_290);
    for moves in [0, 700_001, total] {
        let shown = Shown::of(3, 2, stripes, moves);
        let next = moves / 6 * 5; // the zone of the next move
        shown.check(&[3, 2, moves, stripes], 0..=14);
        shown.check(&[3, 2, moves, stripes, 0, 1023], 0..=1023);
        for first in [1, 13, next.saturating_sub(7), next.min(stripes - 5)] {
            shown.check(
                &[3, 2, moves, stripes, first],
                first..=stripes.min(first + 15) - 1,
            );
            shown.check(&[3, 2, moves, stripes, first, first], first..=first);
        }
        shown.check(
            &[3, 2, moves, stripes, stripes - 1],
            stripes - 1..=stripes - 1,
        );
        for last in [stripes - 2, stripes - 1] {
            shown.check(&[3, 2, moves, stripes, last - 11, last], last - 11..=last);
        }
        assert!(
            picture(&[3, 2, moves, stripes]).len() < 1 << 15,
            "a group, not a gigabyte"
        );
    }
}

/// After every move each block, whether a move carried it, its parity, both or neither, and new ones; and with a tail.
#[test]
fn both_drawers_of_a_block_are_lit() {
    for (n, m, stripes) in [(3, 2, 15), (4, 1, 23)] {
        let total = Shown::of(n, m, stripes, 0).now.total();
        for moves in 0..=total {
            let shown = Shown::of(n, m, stripes, moves);
            let blocks = 0..shown.now.capacity();
            let arguments = [n, m, moves, stripes, 0, stripes - 1];
            shown.check_lit(&arguments, 0..=stripes - 1, blocks);
        }
    }
}

/// The places that are lit by these arguments, by their titles, and the two rows of the legend.
fn lights(arguments: &[u64], block: u64) -> Vec<(String, Light)> {
    let picture = picture_by(&words(arguments, Some(block)));
    let places = drawn(&picture)
        .into_iter()
        .map(|(_, place)| (place.title, place.light));
    places
        .chain(legend(&picture))
        .filter_map(|(words, light)| Some((words, light?)))
        .collect()
}

/// By hand, the bench's block 6: before the growth, with its parity moved, with both moved; and a new block.
#[test]
fn the_drawers_of_block_6() {
    let cases = [
        (
            0,
            6,
            [
                ("stripe 3, disk 0: parity", Light::Parity),
                ("stripe 3, disk 2: block 6", Light::Block),
                ("block 6, on disk 2", Light::Block),
                ("its parity, on disk 0", Light::Parity),
            ],
        ),
        (
            4,
            6,
            [
                ("stripe 3, disk 2: block 6", Light::Block),
                ("stripe 3, disk 3: parity, from disk 0", Light::Parity),
                ("block 6, on disk 2", Light::Block),
                ("its parity, on disk 3", Light::Parity),
            ],
        ),
        (
            9,
            6,
            [
                ("stripe 3, disk 3: parity, from disk 0", Light::Parity),
                ("stripe 3, disk 4: block 6, from disk 2", Light::Block),
                ("block 6, moved to disk 4", Light::Block),
                ("its parity, on disk 3", Light::Parity),
            ],
        ),
        (
            9,
            32,
            [
                ("stripe 1, disk 1: parity", Light::Parity),
                ("stripe 1, disk 2: new block 32", Light::Block),
                ("block 32, on disk 2", Light::Block),
                ("its parity, on disk 1", Light::Parity),
            ],
        ),
    ];
    for (moves, block, wanted) in cases {
        let wanted = wanted.map(|(words, light)| (words.to_string(), light));
        assert_eq!(lights(&[3, 2, moves], block), wanted, "{moves} moves");
    }
}

/// But for the frames, and for the two rows of the legend and their words, it is the picture of the same stripes.
#[test]
fn a_lit_picture_is_else_the_same() {
    let lit = picture_by(&words(&[3, 2, 9], Some(6)));
    let mut left = String::new();
    let mut lines = lit.lines();
    while let Some(line) = lines.next() {
        match parted(line) {
            (_, Some(_)) if line.contains("<title>legend</title>") => drop(lines.next()),
            (place, Some(_)) => left.push_str(&format!("{place}</g>\n")),
            (line, None) => left.push_str(&format!("{line}\n")),
        }
    }
    assert!(left == picture(&[3, 2, 9]) && lit.len() > left.len());
}

/// Without a first stripe the block's group is drawn, or the tail if it stands there; with one, as without a block.
#[test]
fn the_stripes_around_a_block() {
    let of = |moves| Shown::of(3, 2, 36, moves);
    for moves in [0, 20, 35] {
        of(moves).check_lit(&[3, 2, moves, 36], 0..=14, [0, 29]);
        of(moves).check_lit(&[3, 2, moves, 36], 15..=29, [30, 59]);
        of(moves).check_lit(&[3, 2, moves, 36], 30..=35, [60, 71]);
    }
    // new blocks, the last of them in the tail
    of(20).check_lit(&[3, 2, 20, 36], 0..=14, [72, 101]);
    of(36).check_lit(&[3, 2, 36, 36], 15..=29, [102, 131]);
    of(36).check_lit(&[3, 2, 36, 36], 30..=35, [132, 143]);
    // the last stripe of a group, and most of the next one
    of(20).check_lit(&[3, 2, 20, 36, 14], 14..=28, [28, 57]);
    of(20).check_lit(&[3, 2, 20, 36, 14, 14], 14..=14, [28, 29, 100, 101]);
    of(20).check_lit(&[3, 2, 20, 36, 0, 35], 0..=35, [0, 71]);
    // without a growth as many stripes
    Shown::of(3, 0, 100, 0).check_lit(&[3, 0, 0, 100], 90..=98, [180, 197]);
    Shown::of(3, 0, 100, 0).check_lit(&[3, 0, 0, 100], 99..=99, [198, 199]);
    let (stripes, last) = (1_048_576, 32_505_855);
    let shown = Shown::of(16, 16, stripes, 8_388_608);
    let arguments = [16, 16, 8_388_608, stripes];
    shown.check_lit(&arguments, stripes - 512..=stripes - 1, [last]);
}

/// A block that is to be lit in other stripes than those drawn.
#[test]
fn a_block_that_is_not_drawn() {
    for (arguments, block, stripe, first, last) in [
        (&[3, 2, 9, 15, 0, 2][..], 6, 3, 0, 2),
        (&[3, 2, 9, 15, 4], 6, 3, 4, 14),
        (&[3, 2, 9, 15, 4, 4], 37, 3, 4, 4),
        (&[3, 2, 9, 30, 0], 30, 15, 0, 14),
        (&[3, 0, 0, 100, 50], 0, 0, 50, 58),
    ] {
        let words = words(arguments, Some(block));
        let words: Vec<&str> = words.iter().map(String::as_str).collect();
        let line = format!(
            "layout_svg: block is '{block}': it stands in stripe {stripe}, and drawn are stripes {first} to {last}"
        );
        is_refused(&DRAW, &words, &line);
    }
}

/// Each bad argument is named, with its value and its limits.
#[test]
fn bad_arguments_are_named() {
    let usage = "usage: layout_svg n m t [T [first [last]]] [--block b] > picture.svg";
    for arguments in [
        &[][..],
        &["3"],
        &["3", "2"],
        &["3", "2", "9", "15", "0", "1", "2"],
        &["--block", "6"],
        &["3", "2", "--block", "6"],
        &["3", "2", "9", "15", "0", "14", "2", "--block", "6"],
        &["3", "2", "9", "15", "0", "14", "--block"],
    ] {
        is_refused(&DRAW, arguments, usage);
    }
    let moves =
        |total| format!("0 to {total}, n * n * m for each whole group of n * (n + m) stripes");
    let refused: &[(&[&str], &str, &str, &str)] = &[
        (&["2", "2", "0"], "n", "2", "3 to 16"),
        (&["17", "1", "0"], "n", "17", "3 to 16"),
        (&["0", "0", "0"], "n", "0", "3 to 16"),
        (&["259", "2", "9"], "n", "259", "3 to 16"),
        (&["three", "2", "9"], "n", "three", "3 to 16"),
        (&["3", "17", "0"], "m", "17", "0 to 16"),
        (&["3", "258", "9"], "m", "258", "0 to 16"),
        (&["3", "-2", "9"], "m", "-2", "0 to 16"),
        (&["3", "2", "19"], "t", "19", &moves(18)),
        (&["3", "0", "1"], "t", "1", &moves(0)),
        (&["3", "0", "1", "1048576"], "t", "1", &moves(0)),
        (&["3", "2", "37", "30"], "t", "37", &moves(36)),
        // a tail has no moves: a second group is whole from 30 stripes on
        (&["3", "2", "1", "14"], "t", "1", &moves(0)),
        (&["3", "2", "19", "16"], "t", "19", &moves(18)),
        (&["3", "2", "19", "29"], "t", "19", &moves(18)),
        (&["4", "1", "1", "19"], "t", "1", &moves(0)),
        (&["16", "16", "4097", "1023"], "t", "4097", &moves(4096)),
        (&["3", "2", ""], "t", "", &moves(18)),
        (&["3", "2", "-1"], "t", "-1", &moves(18)),
        (&["3", "2", "+1"], "t", "+1", &moves(18)),
        (&["3", "2", " 9"], "t", " 9", &moves(18)),
        (&["3", "2", "9x"], "t", "9x", &moves(18)),
        (&["3", "2", "0x9"], "t", "0x9", &moves(18)),
        (&["3", "2", "9\n9"], "t", "9?9", &moves(18)),
        (&["3", "2", "4294967305"], "t", "4294967305", &moves(18)),
        (
            &["3", "2", "18446744073709551625"],
            "t",
            "18446744073709551625",
            &moves(18),
        ),
        (&["3", "2", "0", "0"], "T", "0", "1 to 1048576"),
        (&["3", "2", "0", "-15"], "T", "-15", "1 to 1048576"),
        (&["3", "2", "0", ""], "T", "", "1 to 1048576"),
        (&["3", "2", "0", "1048577"], "T", "1048577", "1 to 1048576"),
        (
            &["3", "2", "9", "4294967311"],
            "T",
            "4294967311",
            "1 to 1048576",
        ),
        (
            &["16", "16", "0", "1049088"],
            "T",
            "1049088",
            "1 to 1048576",
        ),
        (&["3", "0", "0", "0"], "T", "0", "1 to 1048576"),
        (&["3", "0", "0", "1048577"], "T", "1048577", "1 to 1048576"),
        (
            &["3", "2", "0", "15", "15"],
            "first",
            "15",
            "0 to 14, which is T - 1",
        ),
        (
            &["3", "2", "0", "15", "x"],
            "first",
            "x",
            "0 to 14, which is T - 1",
        ),
        (
            &["3", "2", "0", "15", "0", "15"],
            "last",
            "15",
            "0 to 14: below T, and at most 1024 stripes in a picture",
        ),
        (
            &["3", "2", "0", "15", "5", "4"],
            "last",
            "4",
            "5 to 14: below T, and at most 1024 stripes in a picture",
        ),
        (
            &["3", "2", "0", "1048575", "7", "1031"],
            "last",
            "1031",
            "7 to 1030: below T, and at most 1024 stripes in a picture",
        ),
        // it comes last, with its number, once
        (&["3", "2", "9", "--block"], "T", "--block", "1 to 1048576"),
        (&["--block", "6", "3", "2", "9"], "n", "--block", "3 to 16"),
        (
            &["3", "2", "9", "--block", "6", "--block", "7"],
            "T",
            "--block",
            "1 to 1048576",
        ),
        (&["3", "2", "19", "--block", "60"], "t", "19", &moves(18)),
    ];
    for (arguments, name, value, limits) in refused {
        let line = format!("layout_svg: {name} is '{value}': it must be a number from {limits}");
        is_refused(&DRAW, arguments, &line);
    }
    // the capacity as t has it
    for (arguments, block, last) in [
        (&["3", "2", "5"][..], "30", 29),
        (&["3", "2", "6"], "40", 39),
        (&["3", "2", "9"], "40", 39),
        (&["3", "2", "9"], "59", 39),
        (&["3", "2", "18"], "60", 59),
        (&["3", "2", "9"], "", 39),
        (&["3", "2", "9"], "six", 39),
        (&["3", "2", "9"], "-6", 39),
        (&["3", "2", "9"], "6 ", 39),
        (&["3", "2", "9"], "0x6", 39),
        (&["3", "2", "9"], "4294967302", 39),
        (&["3", "2", "9"], "18446744073709551622", 39),
        (&["3", "2", "17", "17", "0", "16"], "54", 53),
        (&["3", "2", "18", "17", "0", "16"], "68", 67),
        (&["4", "1", "0", "19"], "76", 75),
        (&["3", "0", "0", "1048576"], "2097152", 2_097_151),
    ] {
        let arguments = [arguments, &["--block", block]].concat();
        let limits = format!("it must be a number from 0 to {last}: below the capacity");
        let line = format!("layout_svg: block is '{block}': {limits}");
        is_refused(&DRAW, &arguments, &line);
    }
    // at the limits
    for arguments in [
        &[16, 16, 0, 1_048_576][..],
        &[3, 0, 0, 1_048_576],
        &[16, 0, 0, 1],
        &[3, 1, 0, 1],
        &[16, 16, 0, 511],
        &[3, 1, 786_429, 1_048_572],
        &[3, 1, 786_429, 1_048_576],
        &[16, 16, 8_388_608, 1_048_576],
    ] {
        picture(arguments);
    }
}

/// A picture that cannot be written is no success.
#[test]
fn a_full_disk_is_told() {
    let full = fs::OpenOptions::new()
        .write(true)
        .open("/dev/full")
        .unwrap();
    let output = Command::new(&*DRAW)
        .args(["3", "2", "9"])
        .stdout(full)
        .output()
        .unwrap();
    assert_eq!(output.status.code(), Some(1));
    assert_eq!(
        text(&output.stderr),
        "layout_svg: the picture cannot be written\n"
    );
}

/// docs/pictures/n-m-t.svg, n-m-t-T-first-last.svg, and either with -block-b after it
#[test]
fn the_pictures_of_the_documents_are_those_drawn_today() {
    let mut seen = 0;
    for entry in fs::read_dir(root().join("docs/pictures")).unwrap() {
        let path = entry.unwrap().path();
        let name = path.file_name().unwrap().to_str().unwrap().to_string();
        let name = name.strip_suffix(".svg").expect("only pictures");
        let word = |word: &str| match word {
            "block" => "--block".to_string(),
            number => number.to_string(),
        };
        let drawn = picture_by(&name.split('-').map(word).collect::<Vec<_>>());
        assert!(
            fs::read_to_string(&path).unwrap() == drawn,
            "{name}: draw it anew (examples/draw)"
        );
        seen += 1;
    }
    assert!(seen >= 8);
}

// ---- drawers that are files

#[test]
fn drawers_are_mapped() {
    let printed = "\
3 drawers: 256 blocks are as written
5 drawers, 50 moves made: 256 blocks are as written
drawer 1 pulled: 256 blocks are as written
all written anew: 256 blocks are as written
drawer 1 replaced, half of it rebuilt: 256 blocks are as written
drawer 1 rebuilt, the growth over: 256 blocks are as written
";
    let folder = empty(&target().join("c/drawers"));
    let made = run(Command::new(&*DRAWERS).current_dir(&folder));
    let given = run(Command::new(&*DRAWERS).arg(&folder));
    for output in [made, given] {
        assert_eq!(text(&output.stdout), printed);
    }
    assert_eq!(fs::read_dir(&folder).unwrap().count(), 0, "nothing is left");

    // what is there already stays as it is, and an error says which file and why
    let mine = folder.join("drawer-0");
    fs::write(&mine, "mine").unwrap();
    let path = folder.to_str().unwrap();
    let why = format!("mapped_drawers: {path}/drawer-0: cannot be made: File exists");
    is_refused(&DRAWERS, &[path], &why);
    assert_eq!(fs::read_to_string(mine).unwrap(), "mine");
    let none = folder.join("none");
    let none = none.to_str().unwrap();
    let why = format!("mapped_drawers: {none}/drawer-0: cannot be made: No such file or directory");
    is_refused(&DRAWERS, &[none], &why);
}

// ---- the scripts

/// The folder, with nothing in it.
fn empty(folder: &Path) -> PathBuf {
    if folder.exists() {
        fs::remove_dir_all(folder).unwrap();
    }
    fs::create_dir_all(folder).unwrap();
    folder.to_path_buf()
}

/// A fresh clone, as far as the scripts look at it, with a stand-in for `rt`, since the gate has just proved and built the
/// library: it hands out the archive, notes that it was asked, and fails if there is a file `refuse`.
struct Tree(Outside);

impl Tree {
    fn new(name: &str) -> Tree {
        let tree = Outside::new(name);
        for folder in ["examples", "include", "docs/pictures"] {
            fs::create_dir_all(tree.join(folder)).unwrap();
            for entry in fs::read_dir(root().join(folder)).unwrap() {
                let path = entry.unwrap().path();
                fs::copy(&path, tree.join(folder).join(path.file_name().unwrap())).unwrap();
            }
        }
        fs::create_dir_all(tree.join("crates/pbm/src")).unwrap();
        fs::create_dir_all(tree.join("bin")).unwrap();
        let tree = Tree(tree);
        tree.put("crates.txt", "pbm staticlib:\n");
        tree.put("crates/pbm/src/lib.rt", "// a source\n");
        let rt = format!(
            "#!/bin/sh\n\
             case \"$*\" in\n\
             version) echo stand-in ;;\n\
             lib)\n\
                 [ -e src/lib.rt ] && cd ../.. &&\n\
                 echo asked >>asked && echo 'a note of the prover' && [ ! -e refuse ] &&\n\
                 mkdir -p crates/pbm/out && cp '{}' crates/pbm/out/libpbm.a ;;\n\
             *) exit 2 ;;\n\
             esac\n",
            archive().canonicalize().unwrap().display()
        );
        tree.put("bin/rt", &rt);
        let mode = fs::Permissions::from_mode(0o755);
        fs::set_permissions(tree.0.join("bin/rt"), mode).unwrap();
        tree
    }

    fn put(&self, path: &str, text: &str) {
        self.0.put(path, text);
    }

    fn get(&self, path: &str) -> String {
        fs::read_to_string(self.0.join(path)).unwrap_or_default()
    }

    fn has(&self, path: &str) -> bool {
        self.0.join(path).exists()
    }

    fn run(&self, script: &str) -> Output {
        let path = format!(
            "{}:{}",
            self.0.join("bin").display(),
            std::env::var("PATH").unwrap()
        );
        let mut command = Command::new(self.0.join(script));
        command.env("PATH", path).output().unwrap()
    }

    /// Runs a script that must succeed; what it prints on standard output and on standard error.
    fn must_run(&self, script: &str) -> (String, String) {
        let output = self.run(script);
        let (out, err) = (text(&output.stdout), text(&output.stderr));
        assert!(output.status.success(), "{script}: {out}{err}");
        (out.to_string(), err.to_string())
    }

    /// How often the library was proved and built.
    fn asked(&self) -> usize {
        self.get("asked").lines().count()
    }

    fn pictures(&self) -> BTreeMap<String, Vec<u8>> {
        pictures(&self.0)
    }
}

fn pictures(root: &Path) -> BTreeMap<String, Vec<u8>> {
    fs::read_dir(root.join("docs/pictures"))
        .unwrap()
        .map(|entry| entry.unwrap().path())
        .map(|path| {
            (
                path.file_name().unwrap().to_str().unwrap().to_string(),
                fs::read(&path).unwrap(),
            )
        })
        .collect()
}

const PROVING: &str = "proving and building the library, which may take some minutes; the prover's notes go to build/library.log\n";
const BUILT: &str =
    "the library is proved and built already, from these files: crates/pbm/out/libpbm.a\n";

/// README's run command, in a fresh clone and then again.
#[test]
fn the_run_command() {
    let tree = Tree::new("run");
    let (first, again) = (
        (PRINTED.to_string(), PROVING.to_string()),
        (PRINTED.to_string(), BUILT.to_string()),
    );
    assert_eq!(tree.must_run("examples/run"), first);
    assert_eq!(tree.get("build/library.log"), "a note of the prover\n");
    for source in fs::read_dir(root().join("examples")).unwrap() {
        let source = source.unwrap().path();
        if source.extension().is_some_and(|e| e == "c") {
            let name = source.file_stem().unwrap().to_str().unwrap();
            assert!(tree.has(&format!("build/{name}")), "{name}");
        }
    }
    assert_eq!(tree.must_run("examples/run"), again);
    assert_eq!(tree.asked(), 1);
    // what has changed is proved anew: a source, a new one, one that is gone, another archive, no archive
    tree.put("crates/pbm/src/lib.rt", "// another source\n");
    assert_eq!(tree.must_run("examples/run"), first);
    assert_eq!(tree.must_run("examples/run"), again);
    tree.put("crates/pbm/src/more.rt", "");
    assert_eq!(tree.must_run("examples/run"), first);
    fs::remove_file(tree.0.join("crates/pbm/src/more.rt")).unwrap();
    assert_eq!(tree.must_run("examples/run"), first);
    tree.put("crates/pbm/out/libpbm.a", "damaged");
    assert_eq!(tree.must_run("examples/run"), first);
    // as the gate does; what was compiled stays
    fs::remove_dir_all(tree.0.join("crates/pbm/out")).unwrap();
    assert!(tree.has("build/layout_svg"));
    assert_eq!(tree.must_run("examples/run"), first);
    assert_eq!(tree.asked(), 6);
}

/// A library that is not proved is not used, whatever was built before.
#[test]
fn nothing_is_run_that_is_not_proved() {
    let tree = Tree::new("refused");
    tree.must_run("examples/run");
    tree.put("refuse", "");
    tree.put("crates/pbm/src/lib.rt", "// a wrong source\n");
    for _ in 0..2 {
        let output = tree.run("examples/run");
        assert_eq!(output.status.code(), Some(1));
        assert!(output.stdout.is_empty());
        let says = format!(
            "{PROVING}a note of the prover\nexamples/library: rt lib failed in crates/pbm\n"
        );
        assert_eq!(text(&output.stderr), says);
    }
    assert_eq!(tree.asked(), 3);
}

#[test]
fn pictures_are_drawn_anew() {
    let tree = Tree::new("draw");
    let right = pictures(&root());
    assert!(right.len() >= 8 && tree.pictures() == right);
    for name in [
        "3-2-9.svg",
        "4-1-16.svg",
        "3-2-18-21-10-20.svg",
        "3-2-9-block-6.svg",
    ] {
        tree.put(&format!("docs/pictures/{name}"), "an old picture");
    }
    assert!(tree.pictures() != right);
    let (out, err) = tree.must_run("examples/draw");
    assert_eq!((out.as_str(), err.as_str()), ("", PROVING));
    assert!(tree.pictures() == right);
}

/// In a fresh clone with no library to be had, and with a program that fails at one picture.
#[test]
fn pictures_stay_if_one_cannot_be_drawn() {
    let tree = Tree::new("undrawn");
    let right = tree.pictures();
    tree.put("refuse", "");
    assert_eq!(tree.run("examples/draw").status.code(), Some(1));
    assert!(!tree.has("build/layout_svg"));
    assert!(tree.pictures() == right);

    fs::remove_file(tree.0.join("refuse")).unwrap();
    let fails = "#include <stdio.h>\nint main(int argc, char **argv) { puts(\"half\"); return argc == 4 && argv[3][0] == '6'; }\n";
    tree.put("examples/layout_svg.c", fails);
    assert_eq!(tree.run("examples/draw").status.code(), Some(1));
    assert!(tree.has("build/layout_svg"));
    assert!(tree.pictures() == right);
    let left = fs::read_dir(tree.0.join("build")).unwrap();
    assert!(
        left.map(|entry| entry.unwrap().path())
            .all(|path| path.is_file()),
        "no folder is left"
    );
}
