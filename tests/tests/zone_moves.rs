//! The program `zone_moves`, as built, against the enumeration by document 01's rule.

use std::io::{Read, Write};
use std::sync::mpsc;
use std::time::Duration;
use yuzkamide_tests::moves::{answer, listing, moves};
use yuzkamide_tests::program::{run, start};
use yuzkamide_tests::random::Random;

const REFUSED: &str = "refused 6\n";

fn prints(input: &[u8]) -> String {
    run("zone_moves", input)
}

#[test]
fn the_papers_table_2() {
    let table = "6 1 3 2 3\n7 1 2 0 3\n8 1 1 1 3\n9 1 4 0 4\n10 1 3 1 4\n11 1 2 2 4\n";
    assert_eq!(listing(3, 2, 1), table);
    assert_eq!(prints(b"3 2 1\n"), table);
}

/// "for n = 4 two disks give two each": the paper's E(4, 1), whose moves are not spread evenly within a zone.
#[test]
fn four_and_one_takes_two_from_each_of_two_disks() {
    assert_eq!(
        prints(b"4 1 0\n"),
        "0 0 4 0 4\n1 0 3 2 4\n2 0 2 0 4\n3 0 1 2 4\n"
    );
    assert_eq!(moves(4, 1, 3).len(), 16);
}

#[test]
fn every_zone_of_every_shape() {
    for n in 3..=16 {
        for m in 1..=16 {
            for z in 0..n {
                let line = format!("{n} {m} {z}\n");
                assert_eq!(prints(line.as_bytes()), listing(n, m, z), "{line}");
            }
        }
    }
}

#[test]
fn bad_lines_are_refused() {
    let lines: &[&[u8]] = &[
        b"",
        b"\n",
        b" ",
        b"3",
        b"3 2 1",
        b"3 2 1 ",
        b"3 2 1\r\n",
        b"3 2 1\0\n",
        b"\n3 2 1\n",
        b"3\n2\n1\n",
        b"3 2\n",
        b"3 2 \n",
        b"3 2 1 0\n",
        b"3 2 1 \n",
        b" 3 2 1\n",
        b"3  2 1\n",
        b"3 2  1\n",
        b"3\t2\t1\n",
        b"3,2,1\n",
        b"03 2 1\n",
        b"3 02 1\n",
        b"3 2 01\n",
        b"3 2 00\n",
        b"003 2 1\n",
        b"+3 2 1\n",
        b"3 2 -1\n",
        b"3 2 1.\n",
        b"0x3 2 1\n",
        b"2 2 1\n",
        b"0 2 1\n",
        b"17 2 1\n",
        b"3 0 1\n",
        b"3 17 1\n",
        b"3 2 3\n",
        b"16 16 16\n",
        b"99 99 99\n",
        b"100 2 1\n",
        b"3 2 10\n",
        b"3 2 100\n",
        b"259 2 1\n",
        b"3 258 1\n",
        b"3 2 257\n",
        b"65539 2 1\n",
        b"4294967299 2 1\n",
        b"18446744073709551619 2 1\n",
        b"3 18446744073709551618 1\n",
        b"3 2 18446744073709551617\n",
        b"16 16 15 \n",
        b"16 16 150\n",
        b"a b c\n",
        b"\xb3 2 1\n",
        b"3 2 \xff\n",
        b"\xef\xbc\x93 2 1\n",
    ];
    for line in lines {
        assert_eq!(answer(line), REFUSED, "the model at {line:?}");
        assert_eq!(prints(line), REFUSED, "{line:?}");
    }
    for long in [10, 4096, 65_536, 1_000_000] {
        assert_eq!(prints(&vec![b'3'; long]), REFUSED);
        assert_eq!(
            prints(&[vec![b'3'; long], b" 2 1\n".to_vec()].concat()),
            REFUSED
        );
        assert_eq!(prints(&vec![b' '; long]), REFUSED);
    }
}

#[test]
fn input_behind_the_first_line_is_ignored() {
    for rest in ["", "\n", " ", "3 2 1\n", "refuse\n", "9999999999"] {
        assert_eq!(
            prints(format!("3 2 0\n{rest}").as_bytes()),
            listing(3, 2, 0),
            "{rest:?}"
        );
    }
    assert_eq!(
        prints(&[b"16 16 15\n".to_vec(), vec![0xff; 1_000_000]].concat()),
        listing(16, 16, 15)
    );
}

/// A line is answered as soon as it ends: standard input is still open.
#[test]
fn an_open_input_is_answered() {
    let mut child = start("zone_moves");
    let mut input = child.stdin.take().unwrap();
    let mut output = child.stdout.take().unwrap();
    let (send, receive) = mpsc::channel();
    std::thread::spawn(move || {
        let mut text = String::new();
        output.read_to_string(&mut text).unwrap();
        send.send(text)
    });
    // in pieces, so that a read that comes back short does not end the line
    for piece in [&b"3 "[..], b"2", b" 1\n"] {
        input.write_all(piece).unwrap();
        input.flush().unwrap();
        std::thread::sleep(Duration::from_millis(20));
    }
    let text = receive
        .recv_timeout(Duration::from_secs(20))
        .expect("an answer while the input is open");
    assert_eq!(text, listing(3, 2, 1));
    drop(input);
    assert!(child.wait().unwrap().success());
}

#[test]
fn every_byte_in_every_position() {
    for good in [&b"16 16 15\n"[..], b"3 2 1\n"] {
        for at in 0..good.len() {
            for byte in 0..=255 {
                let mut line = good.to_vec();
                line[at] = byte;
                assert_eq!(prints(&line), answer(&line), "{line:?}");
            }
            let mut line = good.to_vec();
            line.remove(at);
            assert_eq!(prints(&line), answer(&line), "{line:?}");
        }
    }
}

/// Lines that are nearly good: numbers around the limits, and now and then another byte between or after them.
#[test]
fn random_lines() {
    let mut random = Random::new("random_lines");
    let mut accepted = 0;
    for _ in 0..3000 {
        let mut line = Vec::new();
        for last in [false, false, true] {
            line.extend(random.below(20).to_string().bytes());
            line.push(match random.below(12) {
                0 => *random.pick(b"0123456789 \n\r\t-"),
                _ if last => b'\n',
                _ => b' ',
            });
        }
        line.extend((0..random.below(4)).map(|_| *random.pick(b"0123456789 \n")));
        assert_eq!(prints(&line), answer(&line), "{line:?}");
        accepted += (answer(&line) != REFUSED) as u32;
    }
    assert!(
        (300..2700).contains(&accepted),
        "{accepted} of 3000 lines accepted: too one-sided to say much"
    );
}
