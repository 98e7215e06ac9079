//! What include/pbm.h tells a caller of a growth, of new blocks, of a block's drawers, of a rebuild and of scan points is what the
//! library does. And its tables: the bytes of the record; the rows of refusals, and those that each call lists.

use std::collections::{BTreeMap, BTreeSet};
use yuzkamide_tests::array::Array;
use yuzkamide_tests::documents::{numbers, Document};
use yuzkamide_tests::images::{disk as disk_of, part, place};
use yuzkamide_tests::layout::Layout;
use yuzkamide_tests::pbm::{Answer, Call, Way, NAMES};
use yuzkamide_tests::record::{at, Health};
use yuzkamide_tests::replay::{grown, made, status};
use yuzkamide_tests::table::rows;

fn header() -> Document {
    Document::read("include/pbm.h")
}

// ---- the tables

/// The lines under a title of the header's comment.
fn section(title: &str) -> Vec<String> {
    let text = header().text;
    let lines = text.lines().skip_while(|line| *line != title).skip(1);
    let lines: Vec<String> = lines
        .take_while(|line| *line != " */" && (line.is_empty() || line.starts_with(' ')))
        .map(|line| line.trim().to_string())
        .collect();
    assert!(lines.len() > 9, "{title}");
    lines
}

#[test]
fn the_bytes_of_the_record() {
    let lines = section("RECORD");
    let rows = lines.iter().map_while(|line| {
        let mut words = line.split_whitespace();
        let first = words.next()?;
        ["byte", "bytes"].contains(&first).then_some(())?;
        Some(numbers(words.next()?))
    });
    let wanted = at::ALL.map(|field| match field.len() {
        1 => vec![field.start as u64],
        _ => vec![field.start as u64, field.end as u64 - 1],
    });
    assert_eq!(rows.collect::<Vec<_>>(), wanted);
}

/// By its number the word of each refusal, and the calls that its row names.
fn refusals() -> BTreeMap<u8, (String, BTreeSet<String>)> {
    let mut rows: BTreeMap<u8, (String, String)> = BTreeMap::new();
    for line in section("REFUSALS") {
        // number, word and conditions are two spaces or more apart; a row may go on in the next line
        let mut parts = line.splitn(3, "  ").map(str::trim);
        let number = parts.next().and_then(|part| part.parse().ok());
        match (number, parts.next(), parts.next(), rows.last_entry()) {
            (Some(number), Some(word), Some(rest), _) => {
                rows.insert(number, (word.to_string(), rest.to_string()));
            }
            (None, _, _, Some(mut row)) => row.get_mut().1 += &format!(" {line}"),
            _ => {}
        }
    }
    let calls = |rest: &str| {
        let outside = rest.split('(').map(|part| part.split(')').next_back());
        let outside: String = outside.flatten().collect();
        let named = outside.split(';').flat_map(|condition| {
            let (_, calls) = condition.rsplit_once(':').expect(condition);
            let list = |calls: &str| -> Vec<String> {
                calls
                    .split(',')
                    .map(|call| call.trim().to_string())
                    .collect()
            };
            let all = NAMES.map(String::from).to_vec();
            match calls.trim().strip_prefix("all but ") {
                Some(others) => {
                    let others = list(others);
                    all.into_iter().filter(|c| !others.contains(c)).collect()
                }
                None if calls.trim() == "all calls" => all,
                None => list(calls),
            }
        });
        named.collect()
    };
    let row = |(number, (word, rest)): (u8, (String, String))| (number, (word, calls(&rest)));
    rows.into_iter().map(row).collect()
}

/// The rows of the header are those of the table that the models go by, and each call lists its own.
#[test]
fn the_refusals() {
    let refusals = refusals();
    assert!(refusals.keys().copied().eq(1..=11), "{refusals:?}");
    // the words of pbm_word, "done" before them
    let text = header().text;
    let cases = text.split("case PBM_").skip(2);
    let words = cases.map(|case| case.split('"').nth(1).unwrap());
    assert!(refusals.values().map(|row| row.0.as_str()).eq(words));
    let points = Way::BOTH.map(Way::name);
    let names = NAMES.into_iter().map(|name| (name, rows(name)));
    for (name, wanted) in names.chain(points.map(|name| (name, &[11][..]))) {
        let in_table = name.replace('_', " ");
        let named = refusals.iter().filter(|row| row.1 .1.contains(&in_table));
        let named: Vec<u8> = named.map(|row| *row.0).collect();
        assert_eq!(named, wanted, "{name}");

        let text = header().text;
        let (before, _) = text
            .split_once(&format!("uint8_t pbm_{name}("))
            .expect(name);
        let (_, listed) = before.rsplit_once("Refusals: ").expect(name);
        let (listed, _) = listed.split_once("*/").unwrap();
        let listed: Vec<&str> = listed.trim().trim_end_matches('.').split(", ").collect();
        assert_eq!(listed.len(), wanted.len(), "{name}: {listed:?}");
        for (row, number) in listed.iter().zip(wanted) {
            let word = &refusals[number].0;
            assert!(
                row.starts_with(&format!("{number} {word}")),
                "{name}: {row}"
            );
        }
    }
}

// ---- a growth

/// With any T: the total, the blocks, and with which call the growth is over.
#[test]
fn a_growth() {
    for (n, m) in [(3, 2), (4, 1), (16, 1), (3, 16)] {
        let group = n * (n + m);
        for stripes in [1, n + m, group - 1, group, group + 1, 2 * group - 1] {
            let total = stripes / (n * (n + m)) * n * n * m;
            let (before, after) = (stripes * (n - 1), stripes * (n + m - 1));
            let mut array = Array::format(n, 1, stripes);
            assert_eq!(status(&mut array), [before, 0, 0]);
            assert_eq!(array.grow(m), Answer::done(&[]));
            if stripes >= group {
                assert_eq!(status(&mut array), [before, 0, total]);
                assert_eq!(array.advance(total - 1), Answer::done(&[total - 1]));
                let [capacity, moves, _] = status(&mut array);
                assert!(capacity < after && moves < total);
                assert_eq!(array.advance(1), Answer::done(&[1]));
            }
            assert_eq!(status(&mut array), [after, total, total]);
            assert_eq!(array.advance(1), Answer::refused(5));
            assert!((before..after).all(|block| array.read(block) == [0]));
        }
    }
}

/// How many new blocks there are, what they hold and where they stand, in advances of so many moves.
#[test]
fn new_blocks() {
    for (n, m, stripes) in [(3, 2, 15), (3, 2, 32), (4, 1, 23), (5, 3, 47)] {
        for k in [1, 2, n * m, n * m + 1, 2 * n * m + 1] {
            check_new_blocks(n, m, stripes, k);
        }
    }
}

/// The capacity by the header's formula, with a division as Rust has it.
fn capacity_by(n: u64, m: u64, stripes: u64, t: u64) -> u64 {
    let total = stripes / (n * (n + m)) * n * n * m;
    match t < total {
        true => stripes * (n - 1) + t / (n * m) * (n + m) * m,
        false => stripes * (n + m - 1),
    }
}

fn check_new_blocks(n: u64, m: u64, stripes: u64, k: u64) {
    let data = |block: u64| [1 + (block % 255) as u8];
    let mut array = Array::format(n, 1, stripes);
    let [mut capacity, ..] = status(&mut array);
    let first = capacity;
    assert_eq!(array.grow(m), Answer::done(&[]));
    let total = status(&mut array)[2];
    // where each new block stood when it came; every other one is written then
    let mut came = Vec::new();
    while array.record().moves < total {
        let [before, moves, _] = status(&mut array);
        let made = k.min(total - moves);
        assert_eq!(array.advance(k), Answer::done(&[made]));
        capacity = capacity_by(n, m, stripes, moves + made);
        assert_eq!(status(&mut array), [capacity, moves + made, total]);
        assert!(capacity >= before, "it never falls");
        for call in [
            Call::Locate { block: capacity },
            Call::Read { block: capacity },
            Call::Write { block: capacity },
        ] {
            assert_eq!(array.call(call), Answer::refused(8));
        }
        for block in before..capacity {
            assert_eq!(array.read(block), [0]);
            came.push(array.locate(block));
            if block % 2 == 0 {
                array.write(block, &data(block));
            }
        }
        // with one disk or another out, while it is rebuilt and after that
        let disk = (moves + made) % (n + m);
        let lost = disk_of(&array.record(), disk);
        assert_eq!(array.out(disk), Answer::done(&[]));
        array.0.images[lost].fill(0xee);
        assert_eq!(array.begin(disk), Answer::done(&[]));
        for made in [0, stripes / 2, stripes - stripes / 2] {
            assert_eq!(array.proceed(made), Answer::done(&[made]));
            for (block, at) in (first..).zip(&came) {
                let holds = if block % 2 == 0 { data(block) } else { [0] };
                assert_eq!(array.read(block), holds);
                assert_eq!(array.locate(block), *at);
            }
        }
    }
    assert_eq!(capacity, stripes * (n + m - 1));
}

/// What locate tells, after every move: against owner, and against the places before the growth.
#[test]
fn the_drawers_of_a_block() {
    for (n, m, stripes) in [(3, 2, 17), (5, 3, 40)] {
        let home = Layout::home(n, stripes);
        let mut seen = BTreeSet::new();
        for t in 0..=grown(n, m, stripes, 0).total() {
            let mut array = made(n, m, stripes, t);
            for block in 0..status(&mut array)[0] {
                let answer = array.locate(block);
                let [stripe, disk, parity_disk, moved, ..] = answer.beside;
                assert_eq!(answer.number, 0);
                assert_eq!(array.owner(stripe, disk), Answer::done(&[2, block]));
                assert_eq!(array.owner(stripe, parity_disk), Answer::done(&[1, 0]));
                let is_new = block >= home.capacity();
                let stands_as_before = is_new || home.place(block) == (stripe, disk);
                assert_eq!(moved, u64::from(!stands_as_before));
                seen.insert((is_new, moved, parity_disk != home.parity(stripe)));
            }
        }
        // all but new blocks that were carried, with the parity carried and not
        assert_eq!(seen.len(), 6, "{n} + {m}: {seen:?}");
    }
}

// ---- a rebuild

/// A record of 16 bytes, from before there were rebuilds in steps, with four zeroes after it: n = 3, m = 2, B = 4, T = 15, t = 9, with
/// disk 1 out.
#[test]
fn an_older_record() {
    let older = [3, 2, 1, 1, 4, 0, 0, 0, 15, 0, 0, 0, 9, 0, 0, 0];
    let mut array = made(3, 2, 15, 9);
    array.0.record = [&older[..], &[0; 4]].concat();
    let told = [40, 9, 18, 1, 1, 0];
    assert_eq!(array.call(Call::Status), Answer::done(&told));
}

/// A disk that is being rebuilt, fails again, and is rebuilt; the growth stands still meanwhile.
#[test]
fn a_rebuild() {
    let stripes = 17;
    for disk in 0..5 {
        let mut array = made(3, 2, stripes, 7);
        assert_eq!(array.out(disk), Answer::done(&[]));
        for last in [9, stripes] {
            assert_eq!(array.begin(disk), Answer::done(&[]));
            for done in 0..last {
                check_count(&mut array, disk, done);
                assert_eq!(array.proceed(1), Answer::done(&[1]));
            }
            if last < stripes {
                assert_eq!(array.out(disk), Answer::done(&[]));
                assert_eq!(array.0.record[16..], [0; 4]);
            }
        }
        assert_eq!(array.record().health, Health::Whole);
        assert_eq!(array.advance(1), Answer::done(&[1]));
    }
}

/// Writes and reads each block, with other bytes in the stripes of the disk that are not done: it is written there or not, as they are
/// done or not.
fn check_count(array: &mut Array, disk: u64, done: u64) {
    let record = array.record();
    assert_eq!(array.0.record[16..], (done as u32).to_le_bytes());
    assert_eq!(array.advance(1), Answer::refused(3));
    let undone = part(&record, disk, done..record.stripes);
    for block in 0..record.capacity() {
        let data = [(block + 7 * done) as u8];
        let any = data[0] ^ 0x55;
        array.0.images[undone.clone()].fill(any);
        array.write(block, &data);
        assert_eq!(array.read(block), data);
        assert!(array.0.images[undone.clone()]
            .iter()
            .all(|&byte| byte == any));
        let [stripe, on, ..] = array.locate(block).beside;
        if on == disk && stripe < done {
            assert_eq!(array.0.images[place(&record, stripe, disk)], data);
        }
    }
}

/// The record of a lost array names none of its disks, whichever they are.
#[test]
fn a_lost_array() {
    for (first, second) in [(0, 1), (4, 2), (3, 4)] {
        let mut array = made(3, 2, 15, 9);
        assert_eq!(array.out(first), Answer::done(&[]));
        assert_eq!(array.0.record[2..4], [1, first as u8]);
        assert_eq!(array.out(second), Answer::done(&[]));
        assert_eq!(array.0.record[2..4], [2, 0]);
    }
}

// ---- scan points

/// The points of the header in a block of an array, and a block that was never written.
#[test]
fn scan_points() {
    let points = [0x64, 0x00, 0x67, 0x00, 0x65, 0x00];
    let packed = [0x64, 0x03, 0xfe, 0x00, 0x00, 0xff];
    for (values, bytes) in [("100, 103, 101", points), ("100, 3, -2", packed)] {
        let header = header();
        let row = header.text.lines().find(|line| line.contains(values));
        let bytes = bytes.map(|byte: u8| format!("{byte:02x}")).join(" ");
        assert!(row.expect(values).contains(&bytes), "{values}: {bytes}");
    }
    let mut array = Array::format(3, 6, 4);
    let mut block = [0x5a; 6];
    assert_eq!(Way::Pack.call(&points, &mut block), 0);
    assert_eq!(block, packed);
    array.write(5, &block);
    for (number, holds) in [(5, points), (6, [0; 6])] {
        block.fill(0x5a);
        assert_eq!(Way::Unpack.call(&array.read(number), &mut block), 0);
        assert_eq!(block, holds);
    }
    block.fill(0x5a);
    assert_eq!(Way::Pack.call(&[0; 6], &mut block), 0);
    assert_eq!(block, [0; 6]);
}
