//! docs/LAYOUT.md: the rows of its tables, its formulas and numbers are the library's and the replay's, and what it has typed at a shell
//! prints what it says. Most of it is of one array: 3 + 2 disks, 15 stripes, blocks of 4 bytes, after 9 moves.

use std::fs;
use std::process::Command;
use yuzkamide_tests::array::Array;
use yuzkamide_tests::compile::{run, text};
use yuzkamide_tests::documents::{numbers, Document};
use yuzkamide_tests::images::{disk as disk_of, place};
use yuzkamide_tests::layout::{Layout, Owner};
use yuzkamide_tests::moves::{moves, Move};
use yuzkamide_tests::pbm::Answer;
use yuzkamide_tests::program::{root, target};
use yuzkamide_tests::record::{at, Record};
use yuzkamide_tests::replay::{grown, made, places, status};

fn layout() -> Document {
    Document::read("docs/LAYOUT.md")
}

fn after(moves: u64) -> Layout {
    grown(3, 2, 15, moves)
}

fn blocks_after(n: u64, m: u64, stripes: u64, t: u64) -> u64 {
    status(&mut made(n, m, stripes, t))[0]
}

/// How the document writes a run of moves.
fn span(first: u64, last: u64) -> String {
    match first == last {
        true => format!("{first}"),
        false => format!("{first} to {last}"),
    }
}

/// How the document counts two disks.
fn counted(disks: &[u64]) -> String {
    format!("disk {} (\"0\") and disk {} (\"1\")", disks[0], disks[1])
}

/// The words of each picture go by the name of its file: n, m and t; T, the first stripe and the last, if it is not one group; and
/// the block that is lit.
#[test]
fn the_pictures() {
    let text = layout().text;
    let pictures: Vec<&str> = text.split("![").skip(1).collect();
    for picture in &pictures {
        let (words, rest) = picture.split_once("](pictures/").unwrap();
        let (name, _) = rest.split_once(".svg)").unwrap();
        let (shape, lit) = name.split_once("-block-").unwrap_or((name, ""));
        let shape = numbers(&shape.replace('-', " "));
        let [n, m, t] = shape[..3].try_into().unwrap();
        let stripes = *shape.get(3).unwrap_or(&(n * (n + m)));
        let done = match (t, grown(n, m, stripes, t).total()) {
            (0, _) => "no move done".to_string(),
            (t, total) if t == total => format!("all {total} moves done"),
            (t, total) => format!("{t} of {total} moves done"),
        };
        let of = match shape[3..] {
            [] => format!("{n} + {m} disks, {done}"),
            _ => format!("{n} + {m} disks, {stripes} stripes, {done}"),
        };
        assert!(
            words.starts_with(&of) && words.contains(lit),
            "{name}: {of}"
        );
    }
    let files = fs::read_dir(root().join("docs/pictures")).unwrap();
    assert_eq!(pictures.len(), files.count(), "each is shown once");
}

// ---- moves and places

#[test]
fn the_moves() {
    let (layout, home) = (layout(), Layout::home(3, 15));
    let all = moves(3, 2, 2);
    assert_eq!(all.len(), 18);
    for x in all {
        let stripe = (x.zone * 5 + x.within) as u64;
        let what = match home.owner(stripe, x.from as u64) {
            Owner::Parity => "parity".to_string(),
            Owner::Data(b) => format!("block {b}"),
            Owner::Blank => panic!("nothing moves"),
        };
        let (i, s) = (x.to - x.within, x.within);
        let of = format!("| {} | {} | {} | {i} | {s} |", x.index, x.zone, x.to);
        layout.row(&format!("{of} {stripe} | {what} | {} | {} |", x.from, x.to));
    }
    layout.fence("sh", "echo '3 2 1' | rt run");
}

/// Those that the replay makes, at every size up to two groups and more.
#[test]
fn the_number_of_moves() {
    layout().has("(T div (n × (n + m))) × n × n × m");
    for (n, m) in [(3, 2), (4, 1), (3, 1), (5, 3)] {
        for stripes in 1..=2 * n * (n + m) + 2 {
            let total = stripes / (n * (n + m)) * n * n * m;
            assert_eq!(grown(n, m, stripes, 0).total(), total);
            made(n, m, stripes, total);
        }
    }
}

#[test]
fn places_before_the_growth() {
    let (layout, home) = (layout(), Layout::home(3, 15));
    assert_eq!((home.place(5), home.parity(2)), ((2, 0), 2));
    assert_eq!((home.place(6), home.parity(3)), ((3, 2), 0));
    assert_eq!((home.place(7), home.capacity()), ((3, 1), 30));
    for block in [5, 6] {
        let ((stripe, disk), rank) = (home.place(block), block % 2);
        let parity = home.parity(stripe);
        let others: Vec<u64> = (0..3).rev().filter(|&d| d != parity).collect();
        assert_eq!(others[rank as usize], disk);
        // the other way
        for (c, &on) in (0..).zip(&others) {
            assert_eq!(home.owner(stripe, on), Owner::Data(stripe * 2 + c));
        }
        let (of, on) = (format!("{block} div 2"), counted(&others));
        layout.row(&format!(
            "| block {block} | {of} = {stripe} | disk {stripe} mod 3 = {parity} | {on} | {block} mod 2 = {rank}: disk {disk} |"
        ));
    }
}

/// The table of what stood on some places before the growth, after 9 moves: with its move, if there is one.
#[test]
fn places_after_nine_moves() {
    let (layout, home, now) = (layout(), after(0), after(9));
    layout.row("| After 9 moves | before the growth |");
    let check = |what: &str, stripe: u64, disk: u64| {
        let (zone, s, sum) = (stripe / 5, stripe % 5, stripe + 3 - disk);
        let (i, p) = (sum % 3, s + sum % 3);
        let place = format!("disk {disk}; Z = {zone}, s = {s}");
        let place = match what.starts_with("block") {
            true => format!("stripe {stripe}, {place}"),
            false => place,
        };
        let row = layout.row(&format!("| {what} | {place} |"));
        let mut wanted = format!("i = {sum} mod 3 = {i}, p = {p}");
        let mut on = disk;
        if (3..5).contains(&p) {
            let number = (zone * 2 + p - 3) * 3 + i;
            let made = &moves(3, 2, 2)[number as usize];
            assert_eq!([made.zone, made.within], [zone as i64, s as i64]);
            assert_eq!([made.from, made.to], [disk as i64, p as i64]);
            wanted += &format!(": number ({zone} × 2 + {}) × 3 + {i} = {number},", p - 3);
            on = if number < 9 { p } else { disk };
        }
        assert!(row[0].starts_with(&wanted), "{what}: {wanted}");
        assert_eq!(row[1..], [format!("disk {on}")]);
        on
    };
    for block in [15, 14, 6] {
        let (stripe, disk) = home.place(block);
        let on = check(&format!("block {block}"), stripe, disk);
        assert_eq!(now.place(block), (stripe, on));
    }
    for stripe in [7, 3] {
        let what = format!("the parity of stripe {stripe}");
        assert_eq!(
            now.parity(stripe),
            check(&what, stripe, home.parity(stripe))
        );
    }
    assert_eq!((home.place(15), now.place(15)), ((7, 0), (7, 3)));
    let brought = &moves(3, 2, 2)[7];
    assert_eq!([brought.zone, brought.to, brought.from], [1, 3, 0]);
    layout.has("move (1, 3, 1) is number 7");
    layout.has("(3 + 2 − 2) mod 3 = 0, block 15");
    assert_eq!((home.place(14), now.place(14)), ((7, 2), (7, 2)));
    assert_eq!((home.parity(7), after(18).parity(7)), (1, 1));
}

// ---- new blocks

/// The disks of a stripe on which nothing of before the growth stands.
fn blanks(layout: &Layout, old_blocks: u64, stripe: u64, disks: u64) -> Vec<u64> {
    let is_left = |&disk: &u64| match layout.owner(stripe, disk) {
        Owner::Blank => true,
        Owner::Parity => false,
        Owner::Data(block) => block >= old_blocks,
    };
    (0..disks).filter(is_left).collect()
}

/// The runs of moves with the same answer: first, last and answer of each.
fn runs<A: PartialEq>(last: u64, answer: impl Fn(u64) -> A) -> Vec<(u64, u64, A)> {
    let mut runs: Vec<(u64, u64, A)> = Vec::new();
    for t in 0..=last {
        let answer = answer(t);
        match runs.last_mut() {
            Some((_, last, same)) if *same == answer => *last = t,
            _ => runs.push((t, t, answer)),
        }
    }
    runs
}

/// After every move of the 18, by library and replay: the blocks, and the two cells that the document has of them.
#[test]
fn the_new_blocks() {
    let (n, m, layout) = (3, 2, layout());
    let of = |stripes: u64| {
        let before = stripes * (n - 1);
        let cells = |&(first, last, blocks): &(u64, u64, u64)| {
            assert_eq!(first / (n * m), last / (n * m));
            let new = match (before..blocks).last() {
                None => "none".to_string(),
                Some(block) => {
                    let of = |block| grown(n, m, stripes, first).place(block).0;
                    let (from, to) = (of(before), of(block));
                    format!("{before} to {block}, in stripes {from} to {to}")
                }
            };
            format!("{blocks} | {new}")
        };
        let runs = runs(18, |t| blocks_after(n, m, stripes, t));
        (runs.iter().map(cells).collect::<Vec<_>>(), runs)
    };
    let ((of_15, runs), (of_21, longer)) = (of(15), of(21));
    layout.has("blocks, T = 15 | the new ones | blocks, T = 21");
    let blocks = |runs: &[(u64, u64, u64)]| runs.iter().map(|run| run.2).collect::<Vec<_>>();
    assert_eq!(blocks(&runs), [30, 40, 50, 60]);
    assert_eq!(blocks(&longer), [42, 52, 62, 84]);
    assert_eq!((runs.len(), runs[3].0, runs[3].1), (4, 18, 18));
    for (i, (first, last, _)) in runs.iter().enumerate() {
        assert_eq!((longer[i].0, longer[i].1), (*first, *last));
        let all = if *first == 18 { ", all" } else { "" };
        let done = span(*first, *last) + all;
        layout.row(&format!("| {done} | {i} | {} | {} |", of_15[i], of_21[i]));
    }

    // the picture of 9 moves
    let now = after(9);
    for (stripe, disk) in places(0..15, 5) {
        let owner = now.owner(stripe, disk);
        let is_new = matches!(owner, Owner::Data(block) if block >= 30);
        assert!(!is_new || stripe < 5, "of zone 0");
        assert!(owner != Owner::Blank || stripe >= 5, "of zones 1 and 2");
    }
    layout.has(&format!("blocks 30 to {}", now.capacity() - 1));
    assert_eq!(made(n, m, 15, 9).locate(40), Answer::refused(8));

    // where two of them stand, and since when
    for (block, stripes, came) in [(32, 15, 6), (77, 21, 18)] {
        let before = stripes * (n - 1);
        let (stripe, disk) = grown(n, m, stripes, came).place(block);
        let on = blanks(&grown(n, m, stripes, came - 1), before, stripe, n + m);
        let (k, rank) = (block - before, (block - before) % m);
        assert_eq!((k / m, on[rank as usize]), (stripe, disk));
        let too_early = made(n, m, stripes, came - 1).locate(block);
        assert_eq!(too_early, Answer::refused(8));
        assert!((came..=18).all(|t| grown(n, m, stripes, t).place(block) == (stripe, disk)));
        let (of, on) = (format!("{block} − {before} = {k}"), counted(&on));
        layout.row(&format!(
            "| block {block} of {stripes} stripes | {of} | {k} div {m} = {stripe} | {on} | {k} mod {m} = {rank}: disk {disk} |"
        ));
    }
}

/// The table of three places after 9 moves.
#[test]
fn blank_or_new_block() {
    let (now, layout) = (after(9), layout());
    layout.row("| After 9 moves | below F × (n + m) = 1 × 5 = 5? |");
    for (stripe, disk) in [(1, 4), (4, 1), (7, 0)] {
        let on = blanks(&now, 30, stripe, 5);
        let j = on.iter().position(|&d| d == disk).unwrap() as u64;
        let block = 30 + stripe * 2 + j;
        let (is_below, owner, is) = match stripe < 5 {
            true => {
                let sum = format!("block 30 + {stripe} × 2 + {j} = {block}");
                ("yes", Owner::Data(block), sum)
            }
            false => ("no", Owner::Blank, "blank".to_string()),
        };
        assert_eq!(now.owner(stripe, disk), owner);
        let row = format!("| stripe {stripe}, disk {disk} | {is_below} |");
        layout.row(&format!("{row} {} | {is} |", counted(&on)));
    }
}

// ---- the rules

/// The closed forms by which the document goes from number to place and from place to number, at every block, place and count
/// of moves: of groups alone, with tails of less than a zone, of a zone and more, and with nothing but a tail.
#[test]
fn the_rules() {
    let arrays = [
        (3, 2, 15),
        (3, 2, 21),
        (3, 2, 32),
        (4, 1, 20),
        (4, 1, 23),
        (4, 1, 19),
        (5, 3, 49),
        (3, 16, 56),
    ];
    for (n, m, stripes) in arrays {
        for t in 0..=grown(n, m, stripes, 0).total() {
            check_rules(n, m, stripes, t);
        }
    }
    let layout = layout();
    for formula in [
        "(Z × m + p − n) × n + i",
        "s = p − i",
        "S = Z × (n + m) + p − i",
        "(p + Z × m − 2i) mod n",
        "S mod n",
        "b div (n − 1)",
        "b mod (n − 1)",
        "block S × (n − 1) + c",
        "i = (S + n − d) mod n and p = s + i",
        "i = p − s",
        "F = t div (n × m)",
        "T × (n − 1) + F × (n + m) × m",
        "T × (n + m − 1)",
        "S is below F × (n + m)",
        "block T × (n − 1) + S × m + j",
        "Block T × (n − 1) + k is in stripe k div m",
        "disk n + (k mod m)",
    ] {
        layout.has(formula);
    }
}

fn check_rules(n: u64, m: u64, stripes: u64, t: u64) {
    let (home, now) = (Layout::home(n, stripes), grown(n, m, stripes, t));
    let group = n * (n + m);
    let in_tail = |stripe: u64| stripe >= stripes / group * group;
    let number = |zone: u64, p: u64, i: u64| (zone * m + p - n) * n + i;
    let is_new = |disk: u64| (n..n + m).contains(&disk);

    // from number to place
    let carried = |stripe: u64, disk: u64| {
        let (zone, s, i) = (stripe / (n + m), stripe % (n + m), (stripe + n - disk) % n);
        let p = s + i;
        let is_done = is_new(p) && number(zone, p, i) < t;
        assert!(!(is_done && in_tail(stripe)), "nothing moves in the tail");
        if is_done {
            p
        } else {
            disk
        }
    };
    for block in 0..home.capacity() {
        let (stripe, disk) = home.place(block);
        assert_eq!(now.place(block), (stripe, carried(stripe, disk)));
    }
    for stripe in 0..stripes {
        assert_eq!(now.parity(stripe), carried(stripe, home.parity(stripe)));
    }

    // from place to number
    let stands = |stripe: u64, disk: u64| {
        let (zone, s) = (stripe / (n + m), stripe % (n + m));
        if !is_new(disk) {
            let is_left = carried(stripe, disk) != disk;
            return (!is_left).then(|| home.owner(stripe, disk));
        }
        let i = disk.checked_sub(s).filter(|&i| i < n)?;
        let is_done = number(zone, disk, i) < t;
        is_done.then(|| home.owner(stripe, (disk + zone * m + 2 * n - 2 * i) % n))
    };
    // blank or new block
    let (finished, left) = (t / (n * m), now.total() - t);
    let old_blocks = stripes * (n - 1);
    for stripe in 0..stripes {
        let mut j = 0;
        for disk in 0..n + m {
            let owner = stands(stripe, disk).unwrap_or_else(|| {
                j += 1;
                let is_block = stripe < finished * (n + m) || left == 0;
                let block = old_blocks + stripe * m + j - 1;
                is_block.then_some(block).map_or(Owner::Blank, Owner::Data)
            });
            assert_eq!(now.owner(stripe, disk), owner);
        }
        assert_eq!(j, m, "each stripe has m such places");
    }
    // and the way back
    let blocks = match left {
        0 => stripes * (n + m - 1),
        _ => old_blocks + finished * (n + m) * m,
    };
    assert_eq!(now.capacity(), blocks);
    for k in 0..blocks - old_blocks {
        let (stripe, mut others) = (k / m, (0..n + m).filter(|&d| stands(k / m, d).is_none()));
        let disk = others.nth((k % m) as usize).unwrap();
        assert_eq!(now.place(old_blocks + k), (stripe, disk));
        assert!(!in_tail(stripe) || disk == n + k % m);
    }
}

// ---- the tail

/// 3 + 2 disks with 21 stripes: one group and a tail.
#[test]
fn the_tail() {
    let (n, m, stripes, layout) = (3, 2, 21, layout());
    let (home, end) = (Layout::home(n, stripes), grown(n, m, stripes, 18));
    let before = home.capacity();
    assert_eq!((end.total(), before, end.capacity()), (18, 42, 84));
    let mut array = made(n, m, stripes, 18);
    assert_eq!(array.advance(1), Answer::refused(5));
    let blocks = [5, 6, 11, 12, 17, 18].map(|t| blocks_after(n, m, stripes, t));
    assert_eq!(blocks, [before, 52, 52, 62, 62, 84]);

    // a group ends with a stripe from which the parity moves
    let moves_in = |&stripe: &u64| home.parity(stripe) != end.parity(stripe);
    let first = (0..stripes).filter(moves_in).max().unwrap() + 1;
    let (group, tail) = (n * (n + m), stripes - first);
    assert_eq!(stripes % group, tail);
    layout.has(&format!("{stripes} div {group} = {}", stripes / group));
    let tail = format!("{stripes} mod {group} = {tail} stripes");
    layout.has(&format!("{tail}, {first} to {}", stripes - 1));
    // a whole zone of it stays
    assert!(first.is_multiple_of(n + m) && first + n + m <= stripes);
    layout.has(&format!("Stripes {first} to {}", first + n + m - 1));

    // the picture begins with the last zone that moves; its blocks and those of the tail come at once
    let begin = first - (n + m);
    let (picture, last) = (format!("3-2-18-{stripes}-{begin}"), stripes - 1);
    layout.has(&format!("(pictures/{picture}-{last}.svg)"));
    let is_new = |owner| matches!(owner, Owner::Data(block) if block >= before);
    let new_in = |stripes| {
        let new = places(stripes, n + m).filter(|&(s, d)| is_new(end.owner(s, d)));
        new.count()
    };
    let (moving, staying) = (new_in(begin..first), new_in(first..stripes));
    assert_eq!((begin / (n + m), moving + staying), (2, 84 - 62));
    layout.has(&format!("{} new blocks", moving + staying));
    layout.has(&format!("{moving} in zone 2 and {staying} in the tail"));
}

/// 4 + 1 disks with 19 stripes: no whole group.
#[test]
fn drawers_smaller_than_one_group() {
    let (n, m, stripes) = (4, 1, 19);
    let (home, end) = (Layout::home(n, stripes), grown(n, m, stripes, 0));
    let (before, blocks) = (home.capacity(), end.capacity());
    let mut array = made(n, m, stripes, 0);
    assert_eq!(array.advance(1), Answer::refused(5));
    assert_eq!(array.locate(blocks), Answer::refused(8));
    // what tells it from an array before its growth is m alone
    let record = array.record();
    assert_eq!((record.m, record.moves), (1, 0));
    assert_eq!(status(&mut array)[1..], [0, 0]);
    assert_eq!((before, blocks), (57, 76));
    let at = |block| {
        let (stripe, disk) = end.place(block);
        format!("{block}, in stripe {stripe} on disk {disk}")
    };
    let (group, new) = (n * (n + m), [at(before), at(blocks - 1)].join(" | "));
    layout().row(&format!(
        "| {n} | {m} | {stripes} | {group} | {before} | {blocks} | {new} |"
    ));
}

/// 4 + 1 disks with one group.
#[test]
fn four_and_one() {
    let layout = layout();
    let all = moves(4, 1, 3);
    let from = |zone| -> Vec<i64> {
        let of_zone = all.iter().filter(|x| x.zone == zone);
        of_zone.map(|x| x.from).collect()
    };
    assert_eq!((from(0), from(1)), (vec![0, 2, 0, 2], vec![1, 3, 1, 3]));
    for disk in 0..4 {
        assert_eq!(all.iter().filter(|x| x.from == disk).count(), 4);
    }
    for disks in ["0, 2, 0, 2", "1, 3, 1, 3"] {
        layout.has(&format!("from disks {disks}"));
    }
    made(4, 1, 20, 16);
    assert_eq!(grown(4, 1, 20, 0).total(), 16);
    layout.has("20 stripes and 16 moves");

    let blocks_after = |t| blocks_after(4, 1, 20, t);
    let (before, now, end) = (blocks_after(0), blocks_after(6), blocks_after(16));
    assert_eq!([3, 4, 7, 8].map(blocks_after), [60, 65, 65, 70]);
    let at_six = grown(4, 1, 20, 6);
    assert!((before..now).all(|block| at_six.place(block).0 < 5));
    layout.has(&format!("brings {} new blocks", now - before));
    layout.has(&format!("{before} blocks at first, {now} after 6 moves"));
    layout.has(&format!("{end} at the end"));
}

// ---- lighting both drawers

/// The call that tells both, with the record of 9 moves.
#[test]
fn the_drawers_of_block_6_are_told() {
    let (layout, mut array) = (layout(), array_of_words());
    let told = array.locate(6);
    assert_eq!(told, Answer::done(&[3, 4, 3, 1]));
    let [stripe, disk, parity_disk, moved, ..] = told.beside;
    let bytes: Vec<String> = array.0.record.iter().map(u8::to_string).collect();
    let record = format!("uint8_t record[] = {{{}}};", bytes.join(", "));
    let code = layout.fence("c", &record);
    let arguments = "(record, PBM_RECORD_LEN, 6, &stripe, &disk, &parity_disk, &moved);";
    assert!(code.contains(&format!("pbm_locate{arguments}")));
    let drawers = format!("stripe is {stripe}, disk is {disk}, parity_disk is {parity_disk}");
    assert!(code.contains(&format!("{drawers}, moved is {moved}")));
    layout.fence("sh", "build/layout_svg 3 2 9 --block 6 > picture.svg");
}

/// A row for each run of moves with the same answer: of block 6; of block 7, whose parity alone is carried; and of new block 36, which
/// is in their stripe too.
#[test]
fn the_drawers_after_every_move() {
    let layout = layout();
    let takes_block_7 = |x: &Move| (x.zone, x.within, x.from) == (0, 3, 1);
    assert!(!moves(3, 2, 2).iter().any(takes_block_7));
    for (block, begins) in [(6, vec![0, 1, 5]), (7, vec![0, 1]), (36, vec![0, 6])] {
        let runs = runs(18, |t| made(3, 2, 15, t).locate(block));
        assert!(runs.iter().map(|run| run.0).eq(begins), "{block}");
        for (first, last, answer) in runs {
            let row = format!("| {block} | {} |", span(first, last));
            if answer == Answer::refused(8) {
                assert_eq!(numbers(&layout.row(&row).join(" ")), [8]);
                continue;
            }
            let [stripe, disk, parity_disk, moved, ..] = answer.beside;
            assert_eq!((answer.number, stripe), (0, 3));
            layout.row(&format!(
                "{row} disk {disk} | disk {parity_disk} | {moved} |"
            ));
        }
    }
}

// ---- reading a drawer by hand

/// The array that is read by hand, made by the library.
fn array_of_words() -> Array {
    let mut array = Array::format(3, 4, 15);
    array.write(14, b"pine");
    array.write(15, b"fir ");
    assert_eq!(array.grow(2), Answer::done(&[]));
    assert_eq!(array.advance(9), Answer::done(&[9]));
    array.write(33, b"oak ");
    array
}

fn hex(bytes: &[u8]) -> String {
    let words: Vec<String> = bytes.iter().map(|byte| format!("{byte:02x}")).collect();
    words.join(" ")
}

#[test]
fn the_record_by_hand() {
    let (layout, mut array) = (layout(), array_of_words());
    let record = array.0.record.clone();
    let ranges = at::ALL.map(|field| span(field.start as u64, field.end as u64 - 1));
    layout.row(&format!("| byte {} |", ranges.join(" | ")));
    let bytes = at::ALL.map(|field| hex(&record[field]));
    layout.row(&format!("| {} |", bytes.join(" | ")));
    for value in ["n = 3", "m = 2", "health 0", "B = 4", "T = 15", "t = 9"] {
        layout.has(&format!("| {value} |"));
    }
    let [capacity, ..] = status(&mut array);
    assert_eq!((capacity, moves(3, 2, 0).len()), (40, 6));
    layout.has("9 div 6 = 1");
    layout.has(&format!("30 + 1 × 5 × 2 = {capacity} blocks"));
    // where each health has its disk, and its count
    let [out, count] = [at::OUT.start as u64, at::REBUILT.start as u64];
    for row in [&[1, out, 4][..], &[2, out, 0], &[3, out, count, 19, 4]] {
        layout.has_numbers(row);
    }
    layout.fence("sh", "build/layout_svg 3 2 9 15 5 9 > picture.svg");
    let asked = array.owner(7, 3);
    assert_eq!(asked, Answer::done(&[2, 15]));
}

/// The bytes of two stripes, drawer by drawer, and what stands there.
#[test]
fn the_bytes_by_hand() {
    let (layout, array) = (layout(), array_of_words());
    let (record, now) = (array.record(), after(9));
    for (stripe, disk) in places([7, 1].into_iter(), 5) {
        let holds = &array.0.images[place(&record, stripe, disk)];
        let (byte, hex) = (stripe * 4, hex(holds));
        let row = layout.row(&format!("| {stripe} | {disk} | {byte} | {hex} |"));
        let what = match now.owner(stripe, disk) {
            Owner::Blank => "blank".to_string(),
            Owner::Parity => "parity".to_string(),
            Owner::Data(block) if block < 30 => format!("block {block}"),
            Owner::Data(block) => format!("block {block}, new"),
        };
        let says = match holds {
            [0, 0, 0, 0] => what,
            word if what.starts_with("block") => {
                format!("{what}: \"{}\"", String::from_utf8_lossy(word))
            }
            _ => what,
        };
        assert!(row[0].starts_with(&says), "{stripe}, {disk}: {says}");
        // what stood here before is told with the last move that left it
        if let [block, number] = numbers(row[0].split_once('(').map_or("", |(_, rest)| rest))[..] {
            let left = &moves(3, 2, 2)[number as usize];
            let from = (left.zone * 5 + left.within, left.from);
            assert_eq!(from, (stripe as i64, disk as i64));
            assert_eq!(after(0).place(block), (stripe, disk));
        }
    }
    let at = place(&record, 7, 3).start;
    assert_eq!((at, &array.0.images[at..at + 4]), (208, &b"fir "[..]));
    layout.has("(d × T + S) × B");
    layout.has("(3 × 15 + 7) × 4 = 208");
    layout.has("7 × 4 = 28");
}

/// With a disk out: the xor of the others, by hand and by the library.
#[test]
fn the_xor_by_hand() {
    let array = array_of_words();
    let record = array.record();
    let at = |stripe, disk| &array.0.images[place(&record, stripe, disk)];
    let xor = |stripe: u64, out: u64| {
        let others = (0..5).filter(|&disk| disk != out);
        [0, 1, 2, 3].map(|byte| others.clone().fold(0, |x, disk| x ^ at(stripe, disk)[byte]))
    };
    assert_eq!((xor(7, 3), xor(1, 4)), (*b"fir ", *b"oak "));
    let others = [0, 1, 2, 4].map(|disk| hex(at(7, disk)));
    let line = format!("{}  =  {}", others.join("  xor  "), hex(&xor(7, 3)));
    layout().fence("text", &line);
    for disk in [3, 4] {
        let mut array = array_of_words();
        assert_eq!(array.out(disk), Answer::done(&[]));
        array.0.images[disk_of(&record, disk)].fill(0xee);
        for (block, word) in [(15, b"fir "), (33, b"oak "), (32, &[0; 4])] {
            assert_eq!(array.read(block), word);
        }
    }
}

/// What is to be typed: the one fence makes record and drawers as the library has them, and the other one reads stripe 7 of these.
#[test]
fn the_drawers_as_files() {
    let (layout, array) = (layout(), array_of_words());
    let record = array.record();
    let folder = target().join("drawers-by-hand");
    let _ = fs::remove_dir_all(&folder);
    fs::create_dir_all(&folder).unwrap();
    let typed = |line: &str| {
        let fence = layout.fence("sh", line);
        let output = run(Command::new("sh")
            .args(["-e", "-c", &fence])
            .current_dir(&folder));
        text(&output.stdout).to_string()
    };
    typed("for d in 0 1 2 3 4; do truncate -s 60 disk$d; done");
    assert_eq!(fs::read(folder.join("record")).unwrap(), array.0.record);
    for disk in 0..5 {
        let file = fs::read(folder.join(format!("disk{disk}"))).unwrap();
        assert_eq!(file, array.0.images[disk_of(&record, disk)], "disk{disk}");
    }
    let shown = |disk| {
        let bytes = hex(&array.0.images[place(&record, 7, disk)]);
        format!("0000028 {bytes}\n0000032\n")
    };
    let all: String = [3, 0, 1, 2, 3, 4].map(shown).concat();
    assert_eq!(typed("od -A d -t x1 -j 28 -N 4 disk3"), all);
    fs::remove_dir_all(&folder).unwrap();
}

// ---- what a sweep does not see

/// 3 disks grown by 2, no move made, with all blocks different and not zero.
fn just_grown(stripes: u64) -> Array {
    let mut array = Array::format(3, 2, stripes);
    for block in 0..2 * stripes {
        array.write(block, &(block as u16 + 1).to_le_bytes());
    }
    assert_eq!(array.grow(2), Answer::done(&[]));
    array
}

/// A sweep finds nothing; of the blocks so many read wrong.
fn passes_with(array: &mut Array) -> u64 {
    let stripes = array.record().stripes;
    assert_eq!(array.sweep(), Answer::done(&[0, 0, stripes]));
    let blocks = 0..2 * stripes;
    let is_wrong = |block: &u64| array.read(*block) != (*block as u16 + 1).to_le_bytes();
    blocks.filter(is_wrong).count() as u64
}

fn set_moves(array: &mut Array, moves: u64) {
    let record = array.record();
    array.0.record = Record { moves, ..record }.bytes().to_vec();
}

#[test]
fn drawers_exchanged_pass_a_sweep() {
    let mut array = just_grown(1000);
    assert_eq!(passes_with(&mut array), 0);
    let (first, second) = array.0.images.split_at_mut(2000);
    first.swap_with_slice(&mut second[..2000]);
    let wrong = passes_with(&mut array);
    assert_eq!(wrong, 1333);
    layout().has_numbers(&[1000, 0, 1, 1000, wrong, 2000]);
    Document::read("include/pbm.h").has(&format!("{wrong} of 2000"));
}

#[test]
fn a_record_with_another_t_passes_a_sweep() {
    let layout = layout();
    let mut array = just_grown(15);
    set_moves(&mut array, 6);
    let wrong = passes_with(&mut array);
    let is_full = |block: &u64| array.read(*block) != [0, 0];
    assert_eq!((wrong, (30..40).filter(is_full).count()), (4, 6));
    layout.has_numbers(&[15, 6, 15, wrong, 30]);

    // the array of words, by other counts than its 9 moves
    let by = |t: u64, block: u64| {
        let mut array = array_of_words();
        set_moves(&mut array, t);
        let found = array.sweep().beside;
        let at = array.locate(block);
        let holds = (at.number == 0).then(|| array.read(block));
        (found[..2].to_vec(), at, holds)
    };
    let zeroes = Some(vec![0; 4]);
    assert_eq!(by(5, 33), (vec![1, 1], Answer::refused(8), None));
    assert_eq!(after(9).place(33), (1, 4));
    assert_eq!(after(5).owner(1, 4), Owner::Blank);
    layout.has_numbers(&[5, 1, 33]);
    let at = Answer::done(&[7, 0, 1, 0]);
    assert_eq!(by(7, 15), (vec![1, 7], at, zeroes.clone()));
    layout.has_numbers(&[7, 7, 15, 0]);
    // by t = 8 nothing is found either: block 13, which has moved, was never written
    assert_eq!(by(8, 13).0, [0, 0]);
    let at = Answer::done(&[7, 4, 1, 1]);
    assert_eq!(by(12, 14), (vec![0, 0], at, zeroes));
    layout.has_numbers(&[12, 15, 14, 4]);
    // where block 15 was there is another block once zone 1 is finished
    assert_eq!(after(7).place(15), (7, 0));
    assert_eq!(after(11).owner(7, 0), Owner::Blank);
    assert!((12..=18).all(|t| after(t).owner(7, 0) == Owner::Data(44)));
}
