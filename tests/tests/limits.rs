//! Arrays at the limits, through all calls: the record's numbers need all of their bytes there, and images are large.

use yuzkamide_tests::array::Array;
use yuzkamide_tests::flat::located;
use yuzkamide_tests::images::{part, place, xor};
use yuzkamide_tests::layout::Layout;
use yuzkamide_tests::memory::{Guarded, Memory, Side};
use yuzkamide_tests::pbm::{Answer, Call, Loan};
use yuzkamide_tests::record::{Health, Record};

/// What block `block` is written with.
fn data(block: u64, block_len: u64) -> Vec<u8> {
    (0..block_len)
        .map(|at| {
            (block + at)
                .wrapping_mul(0x9e37_79b9_7f4a_7c15)
                .to_le_bytes()[7]
        })
        .collect()
}

fn write_all(array: &mut Array, blocks: std::ops::Range<u64>) {
    let block_len = array.record().block_len;
    for block in blocks {
        array.write(block, &data(block, block_len));
    }
}

fn read_all(array: &mut Array) {
    let block_len = array.record().block_len;
    for block in 0..array.record().capacity() {
        assert_eq!(
            array.read(block),
            data(block, block_len),
            "block {block}, {:?}",
            array.record()
        );
    }
}

/// The blocks from this one on have just come, and are zero; they are written.
fn write_new(array: &mut Array, first: u64) {
    let Record { block_len, .. } = array.record();
    let new = first..array.record().capacity();
    for block in new.clone() {
        assert!(array.read(block) == vec![0; block_len as usize], "{block}");
    }
    assert_eq!(array.locate(new.end), Answer::refused(8));
    write_all(array, new);
}

/// A sweep finds nothing; and with one bit off that stripe: the last one, after all others, or one in the middle.
fn sweeps(array: &mut Array) {
    let record = array.record();
    let Record { stripes, .. } = record;
    assert_eq!(array.sweep(), Answer::done(&[0, 0, stripes]), "{record:?}");
    for stripe in [stripes - 1, stripes / 2] {
        let last = place(&record, stripe, record.disks() - 1).end - 1;
        array.0.images[last] ^= 0x80;
        let found = Answer::done(&[1, stripe, stripe + 1]);
        assert_eq!(array.sweep(), found, "{record:?}");
        array.0.images[last] ^= 0x80;
    }
}

/// Grows by these budgets, the last of which must complete it (none where grow does), after each of which the capacity is the one
/// beside it; writes the new blocks as they come, reads every block, and sweeps; then loses and rebuilds the first and the last disk.
fn grows(home: Record, m: u64, budgets: &[(u64, u64)]) {
    let mut array = Array::format(home.n, home.block_len, home.stripes);
    write_all(&mut array, 0..home.capacity());
    assert_eq!(array.grow(m), Answer::done(&[]));
    let mut record = Record { m, ..home };
    write_new(&mut array, home.capacity());
    for &(k, capacity) in budgets {
        let before = record.capacity();
        let made = k.min(record.total() - record.moves);
        assert_eq!(array.advance(k), Answer::done(&[made]));
        record.moves += made;
        assert_eq!(array.0.record, record.bytes());
        let status = Answer::done(&[capacity, record.moves, record.total(), 0, 0]);
        assert_eq!(array.call(Call::Status), status);
        write_new(&mut array, before);
        read_all(&mut array);
        sweeps(&mut array);
    }
    assert!(record.is_grown());
    assert_eq!(record.capacity(), record.stripes * (record.disks() - 1));
    read_all(&mut array);
    sweeps(&mut array);
    for disk in [0, record.disks() - 1] {
        loses(&mut array, disk);
        assert_eq!(array.0.record, record.bytes());
    }
}

/// All blocks can be read with the disk out, whatever it holds, with two thirds of it rebuilt, and once all of it is. Then they can be
/// swept.
fn loses(array: &mut Array, disk: u64) {
    let record = array.record();
    assert_eq!(array.out(disk), Answer::done(&[]));
    let len = (record.stripes * record.block_len) as usize;
    array.0.images[disk as usize * len..][..len].fill(0xff);
    read_all(array);
    assert_eq!(array.sweep(), Answer::refused(3));
    assert_eq!(array.begin(disk), Answer::done(&[]));
    let done = record.stripes * 2 / 3;
    assert_eq!(array.proceed(done), Answer::done(&[done]));
    let health = Health::Rebuilding { disk, done };
    assert_eq!(array.0.record, Record { health, ..record }.bytes());
    let place = place(&record, done, disk);
    assert!(array.0.images[place].iter().all(|&byte| byte == 0xff));
    read_all(array);
    assert_eq!(array.sweep(), Answer::refused(3));
    let left = record.stripes - done;
    assert_eq!(array.proceed(u64::MAX), Answer::done(&[left]));
    read_all(array);
    sweeps(array);
}

#[test]
fn the_most_stripes() {
    let mut array = Array::format(3, 1, 1_048_576);
    assert_eq!(array.0.record, Record::new(3, 1, 1_048_576).bytes());
    write_all(&mut array, 0..2_097_152);
    read_all(&mut array);
    sweeps(&mut array);
    let last_at = Answer::done(&[1_048_575, 1, 0, 0]);
    assert_eq!(array.locate(2_097_151), last_at);
    assert_eq!(array.locate(2_097_152), Answer::refused(8));
}

/// 87,381 groups of 3 × 4 stripes, each of 9 moves, and a tail of 4; t passes 65,535. Every third move finishes a zone, which has
/// 4 new blocks.
#[test]
fn the_most_stripes_that_grow() {
    let home = Record::new(3, 1, 1_048_576);
    let budgets = [
        (65_535, 2_184_532),
        (1, 2_184_532),
        (720_000, 3_144_532),
        (892, 3_145_720),
        (u64::MAX, 3_145_728),
    ];
    grows(home, 1, &budgets);
}

/// 256 moves finish a zone, which has 512 new blocks.
#[test]
fn the_most_disks_with_the_longest_blocks() {
    let budgets = [(1, 7680), (2000, 11_264), (2095, 15_872)];
    grows(Record::new(16, 4096, 512), 16, &budgets);
}

/// A group but for one stripe, so that grow ends the growth.
#[test]
fn the_most_stripes_that_are_no_group() {
    grows(Record::new(16, 64, 511), 16, &[]);
}

/// Images of 17 GB, all zero at first. Each block is in a stripe of its own, so the parity is equal to it: 4 stripes are those of
/// the tail, 8 those of the last 6 moves, and the one before has the last new block so far.
#[test]
fn places_beyond_32_bits() {
    let mut record = Record::new(3, 4096, 1_048_576);
    record.m = 1;
    record.moves = record.total() - 6;
    let mut layout = Layout::of(&record);
    let mut loan = Loan::guarded(Side::End);
    loan.record.hold(&record.bytes());
    loan.images = Guarded::zeros(Side::End, record.images_len() as usize);

    let last = record.old_capacity() - 1;
    let newest = record.capacity() - 1;
    assert_eq!((last, newest), (2_097_151, 3_145_715));
    let newest_at = loan.call(Call::Locate { block: newest });
    assert_eq!(newest_at, Answer::done(&[1_048_563, 0, 3, 0]));
    let blocks: Vec<u64> = (0..12)
        .map(|i| last - 2 * i)
        .chain([0, last / 2, newest])
        .collect();
    for &block in &blocks {
        loan.block.hold(&data(block, 4096));
        assert_eq!(loan.call(Call::Write { block }), Answer::done(&[]));
    }
    for made in [0, 1, 5] {
        assert_eq!(loan.call(Call::Advance { k: made }), Answer::done(&[made]));
        layout.advance(made);
        assert_eq!(loan.call(Call::Locate { block: newest }), newest_at);
        for &block in &blocks {
            let answer = loan.call(Call::Locate { block });
            assert_eq!(answer, located(&layout, block));
            let data = data(block, 4096);
            let (stripe, disk) = layout.place(block);
            let images = loan.images.bytes();
            assert!(images[place(&record, stripe, disk)] == data);
            assert!(images[place(&record, stripe, layout.parity(stripe))] == data);
            loan.block.hold(&[0; 4096]);
            assert_eq!(loan.call(Call::Read { block }), Answer::done(&[]));
            assert!(loan.block.bytes() == data, "block {block}");
        }
        finds_the_last_bit(&mut loan);
    }

    // the last new block is on the last place of all, in the stripe of the last old one
    let (new, stripe) = (3 * 1_048_576 - 1, 1_048_575);
    let answer = loan.call(Call::Locate { block: new });
    assert_eq!(answer, Answer::done(&[stripe, 3, 0, 0]));
    loan.block.hold(&data(new, 4096));
    assert_eq!(loan.call(Call::Write { block: new }), Answer::done(&[]));
    let mut parity = data(last, 4096);
    xor(&mut parity, &data(new, 4096));
    let images = loan.images.bytes();
    assert!(images[place(&record, stripe, 3)] == data(new, 4096));
    assert!(images[place(&record, stripe, 0)] == parity);
    loan.block.hold(&[0; 4096]);
    assert_eq!(loan.call(Call::Read { block: new }), Answer::done(&[]));
    assert!(loan.block.bytes() == data(new, 4096));
    let answer = loan.call(Call::Read { block: new + 1 });
    assert_eq!(answer, Answer::refused(8));

    // and is there again when its disk, the last one, is rebuilt to its end
    record.moves = record.total();
    let (whole, done) = (record.bytes(), stripe - 5);
    record.health = Health::Rebuilding { disk: 3, done };
    loan.record.hold(&record.bytes());
    loan.images.bytes_mut()[part(&record, 3, done..stripe + 1)].fill(0xee);
    for (k, made) in [(5, 5), (u64::MAX, 1)] {
        assert_eq!(loan.call(Call::Read { block: new }), Answer::done(&[]));
        assert!(loan.block.bytes() == data(new, 4096));
        loan.block.hold(&[0; 4096]);
        assert_eq!(loan.call(Call::Continue { k }), Answer::done(&[made]));
    }
    assert_eq!(loan.record.bytes(), whole);
    assert!(loan.images.bytes()[place(&record, stripe, 3)] == data(new, 4096));
    assert_eq!(loan.images.bytes()[place(&record, stripe - 1, 3)][0], 0);

    let none = Answer::done(&[0, 0, 1_048_576]);
    assert_eq!(loan.call(Call::Sweep), none);
    finds_the_last_bit(&mut loan);
}

/// With the last bit of all off, which is of a blank until the growth is over, a sweep finds the last of the most stripes, and so no
/// other one.
fn finds_the_last_bit(loan: &mut Loan<Guarded>) {
    *loan.images.bytes_mut().last_mut().unwrap() ^= 0x80;
    let found = Answer::done(&[1, 1_048_575, 1_048_576]);
    assert_eq!(loan.call(Call::Sweep), found);
    *loan.images.bytes_mut().last_mut().unwrap() ^= 0x80;
}
