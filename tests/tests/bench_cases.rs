//! "Drawers on the bench" of document 01, with what requests (a), (b) and (f) of document 02 make of them, through the exported
//! calls; and the first of them with other stripes, and with a disk that is rebuilt as request (d) has it, by hand. The cases of the
//! program are in zone_moves.rs.

use yuzkamide_tests::array::Array;
use yuzkamide_tests::pbm::{Answer, Call};
use yuzkamide_tests::record::Health;

const PAST_THE_END: Answer = Answer::refused(8);
const BLANK: [u64; 2] = [0, 0];
const PARITY: [u64; 2] = [1, 0];

/// The block's stripe and disk, the disk of its parity, and 1 if a move carried the block itself.
fn at(stripe: u64, disk: u64, parity_disk: u64, moved: u64) -> Answer {
    Answer::done(&[stripe, disk, parity_disk, moved])
}

fn data(block: u64) -> [u64; 2] {
    [2, block]
}

/// n = 3, m = 2, T = 15, after so many moves, made one by one.
fn three_and_two(moves: u64) -> Array {
    let mut array = Array::format(3, 4, 15);
    assert_eq!(array.grow(2), Answer::done(&[]));
    for _ in 0..moves {
        assert_eq!(array.advance(1), Answer::done(&[1]));
    }
    array
}

fn owners(array: &mut Array, stripe: u64) -> Vec<[u64; 2]> {
    (0..array.record().disks())
        .map(|disk| {
            let answer = array.owner(stripe, disk);
            assert_eq!(answer.number, 0);
            [answer.beside[0], answer.beside[1]]
        })
        .collect()
}

/// Ten more blocks after each zone, of 6 moves: 5 stripes with 2 blanks each.
#[test]
fn total_18_capacity_30_then_40_50_and_60() {
    let mut array = Array::format(3, 4, 15);
    assert_eq!(array.call(Call::Status), Answer::done(&[30, 0, 0, 0, 0]));
    assert_eq!(array.grow(2), Answer::done(&[]));
    for moves in 0..18 {
        let capacity = match moves {
            0..6 => 30,
            6..12 => 40,
            _ => 50,
        };
        let status = Answer::done(&[capacity, moves, 18, 0, 0]);
        assert_eq!(array.call(Call::Status), status);
        assert_eq!(array.advance(1), Answer::done(&[1]));
    }
    assert_eq!(array.call(Call::Status), Answer::done(&[60, 18, 18, 0, 0]));
}

#[test]
fn block_5_before_growth() {
    let mut array = Array::format(3, 4, 15);
    assert_eq!(array.locate(5), at(2, 0, 2, 0));
    assert_eq!(owners(&mut array, 2), [data(5), data(4), PARITY]);
}

#[test]
fn move_0_takes_the_parity_of_stripe_3_from_disk_0_to_3() {
    let before = owners(&mut three_and_two(0), 3);
    assert_eq!(before, [PARITY, data(7), data(6), BLANK, BLANK]);
    let after = owners(&mut three_and_two(1), 3);
    assert_eq!(after, [BLANK, data(7), data(6), PARITY, BLANK]);
}

#[test]
fn move_1_takes_block_4_from_disk_1_to_3() {
    assert_eq!(three_and_two(1).locate(4), at(2, 1, 2, 0));
    assert_eq!(three_and_two(2).locate(4), at(2, 3, 2, 1));
}

#[test]
fn move_2_takes_block_2_of_stripe_1_from_disk_2_to_3() {
    assert_eq!(three_and_two(2).locate(2), at(1, 2, 1, 0));
    assert_eq!(three_and_two(3).locate(2), at(1, 3, 1, 1));
}

/// A move copies the block and zeroes the place it left; the parity moves as a block does.
#[test]
fn the_bytes_move_too() {
    let mut array = three_and_two(0);
    let place = |stripe: usize, disk: usize| (disk * 15 + stripe) * 4..(disk * 15 + stripe + 1) * 4;
    array.write(4, b"four");
    array.write(6, b"six!");
    assert_eq!(array.0.images[place(3, 0)], *b"six!");
    assert_eq!(array.advance(2), Answer::done(&[2]));
    for (at, bytes) in [
        (place(3, 0), [0; 4]),
        (place(3, 3), *b"six!"),
        (place(2, 1), [0; 4]),
        (place(2, 3), *b"four"),
        (place(2, 2), *b"four"),
    ] {
        assert_eq!(array.0.images[at], bytes);
    }
}

/// The remainder of p + Z × m − 2i goes negative at move 2 already. New blocks are written as they come, after 6, 12 and 18
/// moves.
#[test]
fn every_block_keeps_its_bytes() {
    let data = |block: u64| [1, 2, 3, block as u8];
    let mut array = three_and_two(0);
    for block in 0..30 {
        array.write(block, &data(block));
    }
    let mut written = 30;
    for moves in 1..=18 {
        assert_eq!(array.advance(1), Answer::done(&[1]));
        if [6, 12, 18].contains(&moves) {
            for block in written..written + 10 {
                assert_eq!(array.read(block), [0; 4]);
                array.write(block, &data(block));
            }
            written += 10;
        }
        for block in 0..written {
            assert_eq!(array.read(block), data(block), "{:?}", array.record());
        }
        assert_eq!(array.locate(written), PAST_THE_END);
    }
}

/// Its parity moves first, with move 0, and the block itself with move 4.
#[test]
fn block_6_ends_on_disk_4() {
    for moves in 0..=18 {
        let place = match moves {
            0 => at(3, 2, 0, 0),
            1..=4 => at(3, 2, 3, 0),
            _ => at(3, 4, 3, 1),
        };
        assert_eq!(three_and_two(moves).locate(6), place, "{moves} moves");
    }
}

#[test]
fn block_0_never_moves() {
    for moves in 0..=18 {
        assert_eq!(three_and_two(moves).locate(0), at(0, 2, 0, 0));
    }
}

/// Blocks 7, 8 and 9 stay where they are, though the parity of block 7 moves with move 0, and that of the other two with move 3.
#[test]
fn a_parity_moves_alone() {
    for moves in 0..=18 {
        let mut array = three_and_two(moves);
        let parity_of_7 = if moves < 1 { 0 } else { 3 };
        let parity_of_8 = if moves < 4 { 1 } else { 4 };
        assert_eq!(array.locate(7), at(3, 1, parity_of_7, 0), "{moves} moves");
        assert_eq!(array.locate(8), at(4, 2, parity_of_8, 0), "{moves} moves");
        assert_eq!(array.locate(9), at(4, 0, parity_of_8, 0), "{moves} moves");
    }
}

/// Move, block, and the disk that it goes to.
const BLOCKS_CARRIED: [(u64, u64, u64); 12] = [
    (1, 4, 3),
    (2, 2, 3),
    (4, 6, 4),
    (5, 5, 4),
    (7, 15, 3),
    (8, 13, 3),
    (10, 16, 4),
    (11, 14, 4),
    (13, 24, 3),
    (14, 23, 3),
    (16, 27, 4),
    (17, 25, 4),
];

/// Move, stripe of the parity, and the disk that it goes to.
const PARITIES_CARRIED: [(u64, u64, u64); 6] = [
    (0, 3, 3),
    (3, 4, 4),
    (6, 8, 3),
    (9, 9, 4),
    (12, 13, 3),
    (15, 14, 4),
];

/// The disk that such a list has for this block or stripe, if the move is among the first ones.
fn carried_to(list: &[(u64, u64, u64)], which: u64, moves: u64) -> Option<u64> {
    let is_it = |&&(number, carried, _): &&(u64, u64, u64)| carried == which && number < moves;
    list.iter().find(is_it).map(|&(_, _, to)| to)
}

/// Request (f) at every block and after every move. Before the growth the two blocks of a stripe stand on the two disks that are not
/// the parity's, the first one on the higher.
#[test]
fn every_block_after_every_move() {
    for moves in 0..=18 {
        let mut array = three_and_two(moves);
        for block in 0..30 {
            let stripe = block / 2;
            let home = [[2, 1], [2, 0], [1, 0]][stripe as usize % 3][block as usize % 2];
            let to = carried_to(&BLOCKS_CARRIED, block, moves);
            let parity = carried_to(&PARITIES_CARRIED, stripe, moves).unwrap_or(stripe % 3);
            let (disk, moved) = to.map_or((home, 0), |to| (to, 1));
            let place = at(stripe, disk, parity, moved);
            assert_eq!(array.locate(block), place, "{block}, {moves} moves");
        }
    }
}

/// The disks of the two new blocks of each stripe, and of its parity.
const NEW: [([u64; 2], u64); 15] = [
    ([3, 4], 0),
    ([2, 4], 1),
    ([0, 1], 2),
    ([0, 2], 3),
    ([1, 3], 4),
    ([3, 4], 2),
    ([1, 4], 0),
    ([0, 2], 1),
    ([1, 2], 3),
    ([0, 3], 4),
    ([3, 4], 1),
    ([0, 4], 2),
    ([1, 2], 0),
    ([0, 1], 3),
    ([2, 3], 4),
];

/// A new block has moved 0 also when all moves are made, and stands beside the parity as it came.
#[test]
fn no_new_block_is_moved() {
    for moves in 0..=18 {
        let mut array = three_and_two(moves);
        let finished = moves / 6 * 5; // stripes
        for (stripe, (disks, parity)) in (0..finished).zip(NEW) {
            for (block, disk) in (30 + 2 * stripe..).zip(disks) {
                let place = at(stripe, disk, parity, 0);
                assert_eq!(array.locate(block), place, "{block}, {moves} moves");
            }
        }
        is_past_the_end(&mut array, 30 + 2 * finished);
    }
}

/// Locate reads the record alone: it answers alike with a disk out, while one is rebuilt, and when two are out.
#[test]
fn both_drawers_are_told_in_every_health() {
    for disk in 0..5 {
        let another = (disk + 1) % 5;
        let mut array = three_and_two(9);
        for call in [
            Call::Out { disk },
            Call::Begin { disk },
            Call::Continue { k: 4 },
            Call::Out { disk: another },
        ] {
            assert_eq!(array.call(call).number, 0, "{call:?}");
            assert_eq!(array.locate(6), at(3, 4, 3, 1), "{call:?}");
            assert_eq!(array.locate(7), at(3, 1, 3, 0), "{call:?}");
            assert_eq!(array.locate(39), at(4, 3, 4, 0), "{call:?}");
        }
        assert_eq!(array.record().health, Health::Lost);
    }
}

fn is_past_the_end(array: &mut Array, block: u64) {
    for call in [
        Call::Locate { block },
        Call::Read { block },
        Call::Write { block },
    ] {
        assert_eq!(array.call(call), PAST_THE_END, "{:?}", array.record());
    }
}

/// "after 17 moves block 30 exists, as two zones are done"
#[test]
fn after_17_moves_two_zones_are_done() {
    let mut array = three_and_two(17);
    for (block, place) in [
        (30, at(0, 3, 0, 0)),
        (32, at(1, 2, 1, 0)),
        (39, at(4, 3, 4, 0)),
        (40, at(5, 3, 2, 0)),
        (49, at(9, 3, 4, 0)),
    ] {
        assert_eq!(array.locate(block), place);
        assert_eq!(array.read(block), [0; 4]);
    }
    is_past_the_end(&mut array, 50);
    assert_eq!(array.advance(100), Answer::done(&[1]));
    assert_eq!(array.advance(100), Answer::refused(5));
    assert_eq!(array.locate(30), at(0, 3, 0, 0));
    assert_eq!(array.locate(32), at(1, 2, 1, 0));
    assert_eq!(array.locate(50), at(10, 3, 1, 0));
    assert_eq!(array.locate(59), at(14, 3, 4, 0));
    is_past_the_end(&mut array, 60);
    assert_eq!(array.read(30), [0; 4]);
    array.write(59, b"last");
    assert_eq!(array.read(59), b"last");
}

/// Zone 0 is not finished by its first move, nor by its last but one; then its blanks are blocks, and those of zone 1 are not.
#[test]
fn the_sixth_move_finishes_zone_0() {
    for moves in [0, 1, 5] {
        is_past_the_end(&mut three_and_two(moves), 30);
    }
    let mut array = three_and_two(5);
    assert_eq!(
        owners(&mut array, 2),
        [data(5), BLANK, PARITY, data(4), BLANK]
    );
    assert_eq!(array.advance(1), Answer::done(&[1]));
    assert_eq!(
        owners(&mut array, 2),
        [data(34), data(35), PARITY, data(4), data(5)]
    );
    assert_eq!(
        owners(&mut array, 5),
        [data(11), data(10), PARITY, BLANK, BLANK]
    );
    for moves in 6..=18 {
        assert_eq!(three_and_two(moves).locate(34), at(2, 0, 2, 0));
    }
    for moves in [6, 7, 11] {
        is_past_the_end(&mut three_and_two(moves), 40);
    }
    for moves in [12, 13, 17] {
        is_past_the_end(&mut three_and_two(moves), 50);
    }
}

/// A new block that was written while zone 1 moves is as it was after the later moves, with its disk out, with another block of
/// its stripe written meanwhile, in the rebuild and after it.
#[test]
fn a_new_block_is_as_it_was() {
    let mut array = three_and_two(7);
    array.write(34, b"new!");
    array.write(4, b"four");
    for disk in [0, 2] {
        // of block 34, and of its stripe's parity
        assert_eq!(array.out(disk), Answer::done(&[]));
        array.0.images[disk as usize * 60..][..60].fill(0xff);
        assert_eq!(array.read(34), b"new!");
        array.write(5, b"five");
        assert_eq!(array.read(34), b"new!");
        assert_eq!(array.begin(disk), Answer::done(&[]));
        for (k, made) in [(2, 2), (1, 1), (100, 12)] {
            assert_eq!(array.proceed(k), Answer::done(&[made]));
            assert_eq!(array.read(34), b"new!");
        }
        assert_eq!(array.0.images[8..12], *b"new!"); // stripe 2 of disk 0
        assert_eq!(array.advance(1), Answer::done(&[1]));
        assert_eq!(array.0.images[8..12], *b"new!");
    }
    assert_eq!(array.advance(100), Answer::done(&[9]));
    for (block, bytes) in [(34, b"new!"), (35, &[0; 4]), (4, b"four"), (5, b"five")] {
        assert_eq!(array.read(block), bytes);
    }
}

/// Request (d), after 7 moves: block 4 is on place (2, 3), and its parity on (2, 2). Stripe 2 is written before it is rebuilt and
/// after that, and disk 3 fails again in the middle.
#[test]
fn a_rebuild_in_steps() {
    let place = |stripe: usize, disk: usize| (disk * 15 + stripe) * 4..(disk * 15 + stripe + 1) * 4;
    let status = |health: &[u64]| Answer::done(&[&[40, 7, 18], health].concat());
    let mut array = three_and_two(7);
    array.write(4, b"four");
    assert_eq!(array.call(Call::Status), status(&[0, 0, 0]));
    assert_eq!(array.out(3), Answer::done(&[]));
    assert_eq!(array.call(Call::Status), status(&[1, 3, 0]));
    assert_eq!(array.proceed(1), Answer::refused(10));
    assert_eq!(array.begin(3), Answer::done(&[]));
    assert_eq!(array.call(Call::Status), status(&[3, 3, 0]));

    assert_eq!(array.proceed(2), Answer::done(&[2]));
    assert_eq!(array.call(Call::Status), status(&[3, 3, 2]));
    let record = [3, 2, 3, 3, 4, 0, 0, 0, 15, 0, 0, 0, 7, 0, 0, 0, 2, 0, 0, 0];
    assert_eq!(array.0.record, record);
    array.0.images[place(2, 3)].fill(0xff);
    assert_eq!(array.read(4), b"four");
    array.write(4, b"FOUR");
    assert_eq!(array.0.images[place(2, 3)], [0xff; 4]);
    assert_eq!(array.0.images[place(2, 2)], *b"FOUR");
    assert_eq!(array.read(4), b"FOUR");

    assert_eq!(array.proceed(1), Answer::done(&[1]));
    assert_eq!(array.0.images[place(2, 3)], *b"FOUR");
    array.write(4, b"Four");
    assert_eq!(array.0.images[place(2, 3)], *b"Four");
    assert_eq!(array.0.images[place(2, 2)], *b"Four");
    assert_eq!(array.advance(1), Answer::refused(3));
    for disk in [2, 3] {
        assert_eq!(array.begin(disk), Answer::refused(10));
    }

    assert_eq!(array.out(3), Answer::done(&[]));
    assert_eq!(array.call(Call::Status), status(&[1, 3, 0]));
    let record = [3, 2, 1, 3, 4, 0, 0, 0, 15, 0, 0, 0, 7, 0, 0, 0, 0, 0, 0, 0];
    assert_eq!(array.0.record, record);
    array.0.images[place(2, 3)].fill(0xff);
    assert_eq!(array.read(4), b"Four");
    assert_eq!(array.out(3), Answer::refused(10));
    assert_eq!(array.begin(2), Answer::refused(10));
    assert_eq!(array.begin(3), Answer::done(&[]));
    assert_eq!(array.proceed(14), Answer::done(&[14]));
    assert_eq!(array.call(Call::Status), status(&[3, 3, 14]));
    assert_eq!(array.proceed(0), Answer::done(&[0]));
    assert_eq!(array.proceed(100), Answer::done(&[1]));
    assert_eq!(array.call(Call::Status), status(&[0, 0, 0]));
    assert_eq!(array.0.images[place(2, 3)], *b"Four");
    assert_eq!(array.proceed(100), Answer::refused(10));
    assert_eq!(array.advance(1), Answer::done(&[1]));
}

/// "Another disk out means lost"
#[test]
fn another_disk_out_in_a_rebuild() {
    for stripes in [0, 14] {
        let mut array = three_and_two(7);
        assert_eq!(array.out(3), Answer::done(&[]));
        assert_eq!(array.begin(3), Answer::done(&[]));
        assert_eq!(array.proceed(stripes), Answer::done(&[stripes]));
        assert_eq!(array.out(5), Answer::refused(10));
        assert_eq!(array.out(0), Answer::done(&[]));
        let record = [3, 2, 2, 0, 4, 0, 0, 0, 15, 0, 0, 0, 7, 0, 0, 0, 0, 0, 0, 0];
        assert_eq!(array.0.record, record);
        for call in [
            Call::Read { block: 4 },
            Call::Out { disk: 3 },
            Call::Begin { disk: 3 },
            Call::Continue { k: 1 },
        ] {
            assert_eq!(array.call(call), Answer::refused(2), "{call:?}");
        }
    }
}

#[test]
fn four_and_one_of_20_stripes() {
    let mut array = Array::format(4, 1, 20);
    assert_eq!(array.grow(1), Answer::done(&[]));
    assert_eq!(array.call(Call::Status), Answer::done(&[60, 0, 16, 0, 0]));
    assert_eq!(array.advance(3), Answer::done(&[3]));
    assert_eq!(array.call(Call::Status), Answer::done(&[60, 3, 16, 0, 0]));
    assert_eq!(array.advance(6), Answer::done(&[6]));
    assert_eq!(array.call(Call::Status), Answer::done(&[70, 9, 16, 0, 0]));
    assert_eq!(array.advance(100), Answer::done(&[7]));
    assert_eq!(array.call(Call::Status), Answer::done(&[80, 16, 16, 0, 0]));
}

/// "The bench case T = 19 passes now, with total 0": the growth is over at once, with its last block on the last new place.
#[test]
fn four_and_one_of_19_stripes() {
    let data = |block: u64| [9, 8, block as u8];
    let mut array = Array::format(4, 3, 19);
    for block in 0..57 {
        array.write(block, &data(block));
    }
    assert_eq!(array.call(Call::Status), Answer::done(&[57, 0, 0, 0, 0]));
    assert_eq!(array.locate(57), PAST_THE_END);
    let old = array.0.images.clone();
    assert_eq!(array.grow(1), Answer::done(&[]));
    assert_eq!(array.call(Call::Status), Answer::done(&[76, 0, 0, 0, 0]));
    assert_eq!(array.0.images, [old, vec![0; 19 * 3]].concat());
    for k in [0, 1, 16, u64::MAX] {
        assert_eq!(array.advance(k), Answer::refused(5));
    }
    assert_eq!(array.grow(1), Answer::refused(4));
    for block in 57..76 {
        let stripe = block - 57;
        assert_eq!(array.locate(block), at(stripe, 4, stripe % 4, 0));
        assert_eq!(array.owner(stripe, 4), Answer::done(&[2, block]));
        assert_eq!(array.read(block), [0; 3]);
        array.write(block, &data(block));
    }
    assert_eq!(array.locate(76), PAST_THE_END);
    assert_eq!(
        array.0.images[4 * 57..],
        (57..76).flat_map(data).collect::<Vec<u8>>()
    );
    for disk in 0..5 {
        assert_eq!(array.out(disk), Answer::done(&[]));
        array.0.images[disk as usize * 57..][..57].fill(0xff);
        assert_eq!(array.begin(disk), Answer::done(&[]));
        for made in [0, 18, 1] {
            assert_eq!(array.proceed(made), Answer::done(&[made]));
            for block in 0..76 {
                assert_eq!(array.read(block), data(block), "disk {disk} out");
            }
        }
    }
}

/// T = 17: stripes 15 and 16 keep their places, and their new ones are numbered after all others, with the last move.
#[test]
fn three_and_two_of_two_stripes_more() {
    let mut array = Array::format(3, 4, 17);
    assert_eq!(array.grow(2), Answer::done(&[]));
    for moves in 0..18 {
        let capacity = match moves {
            0..6 => 34,
            6..12 => 44,
            _ => 54,
        };
        assert_eq!(
            array.call(Call::Status),
            Answer::done(&[capacity, moves, 18, 0, 0])
        );
        assert_eq!(
            owners(&mut array, 15),
            [PARITY, data(31), data(30), BLANK, BLANK]
        );
        assert_eq!(
            owners(&mut array, 16),
            [data(33), PARITY, data(32), BLANK, BLANK]
        );
        is_past_the_end(&mut array, capacity);
        assert_eq!(array.advance(1), Answer::done(&[1]));
    }
    assert_eq!(array.advance(1), Answer::refused(5));
    assert_eq!(array.call(Call::Status), Answer::done(&[68, 18, 18, 0, 0]));
    assert_eq!(
        owners(&mut array, 15),
        [PARITY, data(31), data(30), data(64), data(65)]
    );
    assert_eq!(
        owners(&mut array, 16),
        [data(33), PARITY, data(32), data(66), data(67)]
    );
    for (block, place) in [
        (25, at(12, 4, 0, 1)),
        (27, at(13, 4, 3, 1)),
        (30, at(15, 2, 0, 0)),
        (33, at(16, 0, 1, 0)),
        (34, at(0, 3, 0, 0)),
        (36, at(1, 2, 1, 0)),
        (63, at(14, 3, 4, 0)),
        (64, at(15, 3, 0, 0)),
        (67, at(16, 4, 1, 0)),
    ] {
        assert_eq!(array.locate(block), place);
    }
    assert_eq!(array.locate(68), PAST_THE_END);
}

/// T = 14: no stripe moves, though two zones are whole.
#[test]
fn three_and_two_of_a_stripe_less() {
    let mut array = Array::format(3, 4, 14);
    assert_eq!(array.grow(2), Answer::done(&[]));
    assert_eq!(array.call(Call::Status), Answer::done(&[56, 0, 0, 0, 0]));
    assert_eq!(array.advance(1), Answer::refused(5));
    assert_eq!(
        owners(&mut array, 3),
        [PARITY, data(7), data(6), data(34), data(35)]
    );
    assert_eq!(
        owners(&mut array, 13),
        [data(27), PARITY, data(26), data(54), data(55)]
    );
    assert_eq!(array.locate(6), at(3, 2, 0, 0));
    assert_eq!(array.locate(55), at(13, 4, 1, 0));
    assert_eq!(array.locate(56), PAST_THE_END);
}

/// T = 1, the least: 2 blocks, and 16 more.
#[test]
fn three_and_sixteen_of_one_stripe() {
    let mut array = Array::format(3, 4, 1);
    assert_eq!(array.grow(16), Answer::done(&[]));
    assert_eq!(array.call(Call::Status), Answer::done(&[18, 0, 0, 0, 0]));
    let new = (2..18).map(data);
    let wanted: Vec<_> = [PARITY, data(1), data(0)].into_iter().chain(new).collect();
    assert_eq!(owners(&mut array, 0), wanted);
}

#[test]
fn limits_of_a_format() {
    for (n, block_len, number) in [
        (2, 1, 6),
        (3, 1, 0),
        (16, 1, 0),
        (17, 1, 6),
        (3, 4096, 0),
        (3, 4097, 6),
    ] {
        let mut array = Array::format(3, 1, 1);
        array.0.images.resize((n * block_len * 2) as usize, 0);
        let call = Call::Format {
            n,
            block_len,
            stripes: 2,
        };
        assert_eq!(array.call(call), Answer::refused(number), "{call:?}");
    }
}
