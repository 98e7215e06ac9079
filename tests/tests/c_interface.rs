//! The header and the archive as a C and a C++ program meet them; and what the header says of stacks, of readers at the same time
//! and of calls that are killed.

use std::fs;
use std::process::Command;
use yuzkamide_tests::compile::{archive, interface, program, run, text};
use yuzkamide_tests::documents::Document;
use yuzkamide_tests::pbm::{Way, NAMES};
use yuzkamide_tests::points;
use yuzkamide_tests::program::{root, target};
use yuzkamide_tests::record::{Health, Record, BENCH, GROWING};
use yuzkamide_tests::statements::fnv;

/// What tests/c/interface.c prints.
fn printed() -> String {
    let formatted = listed(BENCH);
    let moved = Record {
        moves: 2,
        ..GROWING
    };
    let rebuilding = listed(Record {
        health: Health::Rebuilding { disk: 3, done: 3 },
        ..moved
    });
    let out_again = listed(Record {
        health: Health::Out(3),
        ..moved
    });
    let moved = listed(moved);
    let finished = listed(Record {
        moves: 8,
        ..GROWING
    });
    let at_once = listed(Record {
        m: 1,
        ..Record::new(4, 4, 19)
    });
    let rising: Vec<u16> = (0..40).map(|i| 700 * i).collect();
    let rising = decimal(&points::bytes(&rising));
    let rising_packed = format!("0{} 0{}", " 188".repeat(39), " 2".repeat(39));
    format!(
        "\
version 1, header 1
limits: n 3 to 16, m 1 to 16, B 1 to 4096, T 1 to 1048576
word 0: done
word 1: record
word 2: lost
word 3: degraded
word 4: grown
word 5: nothing to move
word 6: geometry
word 7: images
word 8: past the end
word 9: block length
word 10: disk
word 11: points
word 12: no such number
word 255: no such number
the longest images: 128 GiB
format, 179 and 181 bytes: 7, 7
format n = 2: 6
format, record of 16 bytes: 1
format: 0
record {formatted}
status 0: capacity 30, moves 0 of 0, health 0, out 0, rebuilt 0
shape: n 3, m 0, B 4, T 15
formatted: images of 180 bytes, grown by 2 disks 300
179 bytes: read 7, write 7, advance 5, begin 7, continue 7, sweep 7
299 bytes: grow 7
181 bytes: read 7, write 7, advance 5, begin 7, continue 7, sweep 7
301 bytes: grow 7
180 bytes: read 0
locate 5: 0 (2, 0), parity on 2, moved 0
write 4: 0
write 5: 0
write 30: 8
read 4: 0 four
read, 3 bytes: 9
read, record a byte short: 1
read, record of 16 bytes: 1
advance 1: 5 made 0
sweep: 0 found 0, stripe 0, read 15
(0, 0) off, sweep: 0 found 1, stripe 0, read 1
(14, 2) off, sweep: 0 found 1, stripe 14, read 15
grow, images of 3 disks: 7
grow: 0
grow again: 4
status 0: capacity 30, moves 0 of 18, health 0, out 0, rebuilt 0
shape: n 3, m 2, B 4, T 15
grown: images of 300 bytes, grown by 2 disks 420
299 bytes: read 7, write 7, advance 7, begin 7, continue 7, sweep 7
419 bytes: grow 4
301 bytes: read 7, write 7, advance 7, begin 7, continue 7, sweep 7
421 bytes: grow 4
300 bytes: read 0
owner (3, 0): 0 role 1, block 0
advance 2: 0 made 2
owner (3, 0): 0 role 0, block 0
owner (3, 3): 0 role 1, block 0
owner (2, 3): 0 role 2, block 4
owner (15, 0): 8 role 0, block 0
owner (0, 5): 10 role 0, block 0
locate 4: 0 (2, 3), parity on 2, moved 1
locate 6: 0 (3, 2), parity on 3, moved 0
locate 30: 8 (0, 0), parity on 0, moved 0
sweep: 0 found 0, stripe 0, read 15
(3, 0) off, sweep: 0 found 1, stripe 3, read 4
(14, 4) off, sweep: 0 found 1, stripe 14, read 15
out 3: 0
read 4: 0 four
write 4: 0
advance 1: 3 made 0
sweep: 3 found 0, stripe 0, read 0
out 3: 10
continue 1: 10 made 0
begin 2: 10
begin 3: 0
status 0: capacity 30, moves 2 of 18, health 3, out 3, rebuilt 0
begin 3: 10
continue 2: 0 made 2
read 4: 0 FOUR
write 4: 0
continue 1: 0 made 1
read 4: 0 Four
write 4: 0
record {rebuilding}
advance 1: 3 made 0
sweep: 3 found 0, stripe 0, read 0
out 3: 0
record {out_again}
read 4: 0 FOUR
begin 3: 0
continue 0: 0 made 0
continue 14: 0 made 14
status 0: capacity 30, moves 2 of 18, health 3, out 3, rebuilt 14
continue 100: 0 made 1
continue 100: 10 made 0
read 4: 0 FOUR
record {moved}
advance 3: 0 made 3
status 0: capacity 30, moves 5 of 18, health 0, out 0, rebuilt 0
locate 6: 0 (3, 4), parity on 3, moved 1
locate 30: 8 (0, 0), parity on 0, moved 0
write 30: 8
owner (2, 1): 0 role 0, block 0
advance 1: 0 made 1
status 0: capacity 40, moves 6 of 18, health 0, out 0, rebuilt 0
locate 30: 0 (0, 3), parity on 0, moved 0
locate 39: 0 (4, 3), parity on 4, moved 0
locate 40: 8 (0, 0), parity on 0, moved 0
owner (2, 1): 0 role 2, block 35
owner (5, 3): 0 role 0, block 0
write 35: 0
write 40: 8
advance 1: 0 made 1
out 1: 0
read 35: 0 3535
write 35: 0
write 5: 0
read 40: 8 3535
begin 1: 0
continue 15: 0 made 15
advance 1: 0 made 1
read 35: 0 new!
locate 35: 0 (2, 1), parity on 2, moved 0
record {finished}
advance 100: 0 made 10
advance 100: 5 made 0
status 0: capacity 60, moves 18 of 18, health 0, out 0, rebuilt 0
sweep: 0 found 0, stripe 0, read 15
(14, 4) off, sweep: 0 found 1, stripe 14, read 15
locate 30: 0 (0, 3), parity on 0, moved 0
read 35: 0 new!
owner (1, 2): 0 role 2, block 32
write 59: 0
out 0: 0
read 59: 0 last
read 5: 0 FIVE
begin 0: 0
continue 3: 0 made 3
out 1: 0
read 59: 2 FIVE
continue 1: 2 made 0
sweep: 2 found 0, stripe 0, read 0
status 0: capacity 60, moves 18 of 18, health 2, out 0, rebuilt 0
locate 59: 0 (14, 3), parity on 4, moved 0
format anew, 300 bytes: 7
format anew, 180 bytes: 0
shape: n 3, m 0, B 4, T 15
format, 4 disks of 19 blocks: 0
write 56: 0
read 57: 8 FIVE
grow by 1: 0
status 0: capacity 76, moves 0 of 0, health 0, out 0, rebuilt 0
advance 1: 5 made 0
write 57: 0
write 75: 0
write 76: 8
read 57: 0 5757
read 75: 0 7575
read 56: 0 old!
locate 57: 0 (0, 4), parity on 0, moved 0
locate 75: 0 (18, 4), parity on 2, moved 0
owner (18, 4): 0 role 2, block 75
sweep: 0 found 0, stripe 0, read 19
record {at_once}
pack, 6 bytes into 6: 0, 100 3 254 0 0 255
unpack, 6 bytes into 6: 0, 100 0 103 0 101 0
pack, 0 bytes into 0: 0,
unpack, 0 bytes into 0: 0,
pack, 5 bytes into 5: 11,
unpack, 5 bytes into 5: 11,
pack, 6 bytes into 4: 11,
unpack, 6 bytes into 4: 11,
pack, 4 bytes into 6: 11,
unpack, 4 bytes into 6: 11,
pack, 80 bytes into 80: 0, {rising_packed}
unpack, 80 bytes into 80: 0, {rising}
"
    )
}

fn listed(record: Record) -> String {
    decimal(&record.bytes())
}

fn decimal(bytes: &[u8]) -> String {
    let numbers: Vec<String> = bytes.iter().map(u8::to_string).collect();
    numbers.join(" ")
}

fn prints(name: &str, compiler: &[&str]) {
    let program = interface(name, compiler);
    let output = run(&mut Command::new(program));
    assert_eq!(text(&output.stdout), printed());
}

#[test]
fn from_c() {
    prints("interface-c99", &["gcc", "-std=c99"]);
    prints("interface-c11", &["gcc", "-std=c11"]);
}

#[test]
fn from_c_plus_plus() {
    prints("interface-c++11", &["g++", "-std=c++11", "-x", "c++"]);
    prints("interface-c++17", &["g++", "-std=c++17", "-x", "c++"]);
}

fn header() -> String {
    Document::read("include/pbm.h").text
}

/// The header's code: without comments, and with one space where there is any.
fn code(header: &str) -> String {
    let parts = header.split("/*").map(|part| match part.split_once("*/") {
        Some((_, code)) => code,
        None => part, // before the first comment
    });
    let code: String = parts.collect();
    code.split_whitespace().collect::<Vec<_>>().join(" ")
}

/// What a version stands for: the signature of every call, in the header's order, and the bytes of the record.
fn versioned(header: &str) -> Vec<String> {
    let code = code(header);
    let is_versioned = |item: &&str| {
        let is_call = item.contains("PBM_CALL uint8_t pbm_");
        is_call || item.contains("PBM_RECORD_LEN =") || item.contains("PBM_AT_N =")
    };
    let cut = |item: &str| {
        let begins = ["PBM_CALL uint8_t", "enum {"].map(|word| item.rfind(word));
        item[begins.into_iter().flatten().max().unwrap()..].to_string()
    };
    code.split(';').filter(is_versioned).map(cut).collect()
}

/// Whoever changes a signature or the record raises the version: in include/pbm.h, in `version` of crate pbm, and here, with the
/// fingerprint that fails. A call that is added needs a new fingerprint alone: an archive without it does not link.
#[test]
fn the_version_is_of_these_signatures() {
    let header = header();
    let all = versioned(&header);
    println!("{all:#?}");
    assert_eq!(all.len(), 2 + NAMES.len() + Way::BOTH.len());
    let [number, fingerprint] = ["1", "b0e47ea4e1b2d5de"];
    assert!(header.contains(&format!("\n#define PBM_VERSION {number}\n")));
    assert_eq!(
        format!("{:016x}", fnv(all.join("\n").as_bytes())),
        fingerprint
    );
}

#[test]
fn what_a_version_is_of() {
    let header = "/* pbm_commented(void); */ enum { PBM_RECORD_LEN = 20 }; /* The bytes. */ enum { PBM_AT_N = 0,\n PBM_AT_M = 1 };
enum { PBM_DONE = 0 };\nstatic inline int f(void) { return 1; }\n/* Reads. */\nPBM_CALL\nuint8_t pbm_read(const uint8_t *record,
                 uint64_t block);\nuint64_t pbm_version(void);\n";
    assert_eq!(
        versioned(header),
        [
            "enum { PBM_RECORD_LEN = 20 }",
            "enum { PBM_AT_N = 0, PBM_AT_M = 1 }",
            "PBM_CALL uint8_t pbm_read(const uint8_t *record, uint64_t block)",
        ]
    );
}

/// A number that is not looked at, and a null pointer, are warned of.
#[test]
fn a_compiler_warns() {
    let folder = target().join("c");
    fs::create_dir_all(&folder).unwrap();
    let source = folder.join("warned.c");
    for (line, warning) in [
        ("if (pbm_out(record, 20, 1)) return 1;", None),
        ("pbm_out(record, 20, 1);", Some("unused-result")),
        ("if (pbm_out(NULL, 20, 1)) return 1;", Some("nonnull")),
    ] {
        let text = format!("#include \"pbm.h\"\nint main(void)\n{{\n    uint8_t record[20] = {{0}};\n    {line}\n    return record[0];\n}}\n");
        fs::write(&source, text).unwrap();
        let mut command = Command::new("gcc");
        command.args([
            "-std=c99",
            "-O2",
            "-Wall",
            "-Wextra",
            "-Wpedantic",
            "-c",
            "-o",
            "/dev/null",
        ]);
        let output = run(command.arg("-I").arg(root().join("include")).arg(&source));
        let said = String::from_utf8(output.stderr).unwrap();
        match warning {
            Some(warning) => assert!(said.contains(&format!("-W{warning}")), "{line}: {said}"),
            None => assert_eq!(said, "", "{line}"),
        }
    }
}

/// README's program, with nothing but the header and the archive beside it, by README's command: as C99, as it stands there, as C11 and
/// as C++17.
#[test]
fn the_program_of_readme() {
    let readme = Document::read("README.md");
    let program = readme.fence("c", "#include \"pbm.h\"");
    assert_eq!(program.lines().count(), 10, "{program}");
    let commands = readme.fences("sh");
    let mut commands = commands.iter().filter_map(|line| line.strip_prefix("cc "));
    let command = commands.next().expect("README compiles it");
    for compiler in [
        ["cc", "-std=c99", ""],
        ["cc", "-std=c11", ""],
        ["c++", "-std=c++17", "-x c++ "],
    ] {
        let [name, standard, language] = compiler;
        let folder = target().join("c/readme");
        let _ = fs::remove_dir_all(&folder);
        fs::create_dir_all(folder.join("include")).unwrap();
        let header = "include/pbm.h";
        fs::copy(root().join(header), folder.join(header)).unwrap();
        fs::copy(archive(), folder.join("libpbm.a")).unwrap();
        fs::write(folder.join("log.c"), format!("{program}\n")).unwrap();
        assert!(command.contains("-std=c99") && command.contains(" log.c "));
        let command = command.replace("-std=c99", standard);
        let command = command.replace(" log.c ", &format!(" {language}log.c -x none "));
        let line = format!("{name} -Wall -Wextra -Wpedantic -Werror {command}");
        run(Command::new("sh").args(["-c", &line]).current_dir(&folder));
        let output = run(&mut Command::new(folder.join("log")));
        let printed = text(&output.stdout);
        assert_eq!(printed, "done: oak, 4 boards\n", "{standard}");
        readme.has(&format!("`{}`", printed.trim_end()));
    }
}

#[test]
fn the_archive_has_the_calls_and_its_version() {
    let output = run(Command::new("nm")
        .args(["--extern-only", "--defined-only"])
        .arg(archive()));
    // address, kind and name; T is a function
    let mut found: Vec<String> = text(&output.stdout)
        .lines()
        .map(|line| line.split_whitespace().collect::<Vec<_>>())
        .filter(|words| words.len() == 3 && words[2].starts_with("pbm_"))
        .map(|words| words[1..].join(" "))
        .collect();
    found.sort_unstable();
    let names = (NAMES.into_iter().chain(Way::BOTH.map(Way::name))).chain(["version"]);
    let mut wanted: Vec<String> = names.map(|name| format!("T pbm_{name}")).collect();
    wanted.sort_unstable();
    assert_eq!(found, wanted);
}

/// It keeps nothing between calls, and two calls that run at once share nothing: code is all there is.
#[test]
fn the_archive_has_no_memory_of_its_own() {
    let output = run(Command::new("size").arg("-A").arg(archive()));
    let sections: Vec<&str> = text(&output.stdout)
        .lines()
        .filter_map(|line| line.split_whitespace().next())
        .filter(|name| name.starts_with('.'))
        .collect();
    assert!(sections.contains(&".text.pbm_read"), "{sections:?}");
    let harmless = [".text", ".rodata", ".comment", ".note", ".llvm_addrsig"];
    for name in sections {
        assert!(harmless.iter().any(|&h| name.starts_with(h)), "{name}");
    }
}

const C: &[&str] = &["gcc", "-std=c11", "-pthread"];

/// "There are 16 KiB of stack left for a call": run on so many, and what was touched of them is what the header says.
#[test]
fn the_stack_of_a_call() {
    let output = run(&mut Command::new(program("stack", C, &["tests/c/stack.c"])));
    let printed = text(&output.stdout);
    print!("{printed}");
    assert_eq!(printed.lines().count(), 28);
    for line in printed.lines() {
        let (call, depths) = line.split_once(": ").unwrap();
        let (first, then) = depths.split_once(", then ").unwrap();
        let (first, then): (u64, u64) = (first.parse().unwrap(), then.parse().unwrap());
        let limit = match call {
            "continue" | "continue, a part" => 5 * 1024,
            "sweep" | "sweep, an unsound stripe" | "sweep, before a growth" => 5 * 1024,
            _ => 1024,
        };
        assert!(then < limit && first <= 16 * 1024, "{line}");
    }
}

#[test]
fn readers_at_the_same_time() {
    let output = run(&mut Command::new(program(
        "readers",
        C,
        &["tests/c/readers.c"],
    )));
    let printed = text(&output.stdout);
    assert_eq!(printed.lines().count(), 11);
    assert!(
        printed
            .lines()
            .all(|line| line.ends_with(": 4 readers at once")),
        "{printed}"
    );
}

#[test]
fn a_call_that_is_killed() {
    let output = run(&mut Command::new(program(
        "killed",
        C,
        &["tests/c/killed.c"],
    )));
    let printed = "\
advance, stopped 258 times: the old record, at most k moves in doubt; a sweep finds what has changed, 238 times
write, stopped 88 times: the old record, one block and its parity in doubt; a sweep finds what has changed, 44 times
continue, stopped 42 times: the old record, by which every block is read, and right when made again
grow and format, each stopped 17 times: the old record, and right when made again
";
    assert_eq!(text(&output.stdout), printed);
}
