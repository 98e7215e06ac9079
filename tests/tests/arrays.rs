//! "no array for block bytes in its source or in what it calls": no function that a write reaches has an array, nor a type or a
//! constant that it names on the way.

use yuzkamide_tests::files::texts;
use yuzkamide_tests::pbm::{family, in_rattle};
use yuzkamide_tests::program::target;
use yuzkamide_tests::reach::{arrays, Item, Sources};

fn sources() -> Sources {
    Sources::of(&texts(&target().join("../crates"), "rt"))
}

/// A call as its family's crate, `lent` and `pbm` have it.
fn in_all_crates(call: &str) -> [(&str, String); 3] {
    [family(call), "lent", "pbm"].map(|in_crate| match in_crate {
        "pbm" => (in_crate, format!("pbm_{call}")),
        _ => (in_crate, in_rattle(call).to_string()),
    })
}

/// Each with the place where it stands.
fn arrays_of(reached: &[&Item]) -> Vec<String> {
    let all = reached.iter().flat_map(|item| {
        let found = arrays(&item.text).into_iter();
        found.map(|array| format!("{array} of {}", item.place()))
    });
    all.collect()
}

fn has(reached: &[&Item], in_crate: &str, name: &str) -> bool {
    let is = |item: &&Item| item.in_crate == in_crate && item.name == name;
    reached.iter().any(is)
}

#[test]
fn a_write_has_no_array() {
    let sources = sources();
    for (in_crate, name) in in_all_crates("write") {
        let reached = sources.reached(in_crate, &name);
        for fold in ["fold_others", "fold_parity"] {
            assert!(has(&reached, "parity", fold), "{name} reaches {fold}");
        }
        for part in ["load", "xor", "store", "Four"] {
            assert!(has(&reached, "lanes", part), "{name} reaches {part}");
        }
        assert!(has(&reached, "access", "put") && has(&reached, "state", "Record"));
        assert_eq!(arrays_of(&reached), [""; 0], "{name} of {in_crate}");
    }
}

/// The same search finds those that other calls have.
#[test]
fn reads_and_rebuilds_have_arrays() {
    let sources = sources();
    for (call, array) in [
        ("read", "[0u8; N] of add_part in blocks/src/sum.rt"),
        (
            "continue",
            "[0u8; 4096] of fill_disk_alone in repair/src/rebuilding.rt",
        ),
    ] {
        for (in_crate, name) in in_all_crates(call) {
            let found = arrays_of(&sources.reached(in_crate, &name));
            assert!(found.iter().any(|f| f == array), "{name}: {found:?}");
        }
    }
}

// ---- the search itself

/// The sources of crates that are made up.
fn made_up(files: &[(&str, &str)]) -> Sources {
    let texts: Vec<_> = files
        .iter()
        .map(|(path, text)| (path.to_string(), text.to_string()))
        .collect();
    Sources::of(&texts)
}

const A_LIB: &str = "\
mod one;
mod two;
pub use one::go;
use b::Pair;
pub struct Kept {
    pub pair: Pair,
}
fn unused() {
    b::far()
}
";

/// `hidden` stands in a contract and after a dot, `lost` in a comment.
const A_ONE: &str = "\
use crate::Kept;
use crate::two::{
    SIZE, step,
};
pub fn go(k: Kept) -> u64
    ensures { result ≡ hidden k }
{
    // lost(k)
    if (k.len() < SIZE) {
        return step(k.hidden);
    }
    b::near(0)
}
fn hidden() {
}
";

const A_TWO: &str = "\
pub(crate) const SIZE: usize = 3;
pub(crate) fn step(x: u64) -> u64
{
    near(x)
}
fn near(x: u64) -> u64
{
    x
}
";

const B_LIB: &str = "\
mod deep;
pub use deep::{near, far};
pub struct Pair {
    pub a: u64,
}
";

const B_DEEP: &str = "\
pub fn near(x: u64) -> u64
{
    let y = Role::Data(x);
    x
}
pub fn far() {
}
enum Role {
    Data(u64),
}
";

#[test]
fn names_are_followed() {
    let sources = made_up(&[
        ("a/src/lib.rt", A_LIB),
        ("a/src/one.rt", A_ONE),
        ("a/src/two.rt", A_TWO),
        ("b/src/lib.rt", B_LIB),
        ("b/src/deep.rt", B_DEEP),
    ]);
    let reached = sources.reached("a", "go");
    let mut places: Vec<String> = reached.iter().map(|item| item.place()).collect();
    places.sort_unstable();
    assert_eq!(
        places,
        [
            "Kept in a/src/lib.rt",
            "Pair in b/src/lib.rt",
            "Role in b/src/deep.rt",
            "SIZE in a/src/two.rt",
            "go in a/src/one.rt",
            "near in a/src/two.rt",
            "near in b/src/deep.rt",
            "step in a/src/two.rt",
        ]
    );
}

#[test]
#[should_panic(expected = "elsewhere, called by go in a/src/lib.rt")]
fn a_call_that_is_not_found() {
    let lib = "pub fn go(x: u64) -> u64\n{\n    elsewhere(x)\n}\n";
    made_up(&[("a/src/lib.rt", lib)]).reached("a", "go");
}

#[test]
fn what_is_an_array() {
    for (text, found) in [
        ("let mut own = [0u8; 4096];", "[0u8; 4096]"),
        ("&mut [u8; 64]", "[u8; 64]"),
        ("[u64; 3]", "[u64; 3]"),
        ("let x = [a, b];", "[a, b]"),
        ("f(&[0])", "[0]"),
        ("pub bytes: [u8; 16],", "[u8; 16]"),
        ("= [1, 2, 3]", "[1, 2, 3]"),
        ("let x = [a];", "[a]"),
    ] {
        assert_eq!(arrays(text), [found], "{text}");
    }
    for text in [
        "&mut [u8]",
        "&'a [u8]",
        "images[at + i] = f(x)[0][1];",
        "&mut own[..len]",
        "&images[0..0]",
    ] {
        assert_eq!(arrays(text), [""; 0], "{text}");
    }
}

#[test]
fn an_array_in_a_tuple_struct() {
    let lib = "pub struct Own(pub [u8; 64]);\npub fn go(o: Own) -> u64\n{\n    0\n}\n";
    let sources = made_up(&[("a/src/lib.rt", lib)]);
    assert_eq!(
        arrays_of(&sources.reached("a", "go")),
        ["[u8; 64] of Own in a/src/lib.rt"]
    );
}

const A_WIDE: &str = "\
pub trait Wide: Copy {
    const LEN: usize;

    fn load(x: u64) -> Self
        ensures bytes { bytes result ≡ x };

    fn store(self, x: u64);
}
impl Wide for u8 {
    const LEN: usize = ONE;

    fn load(x: u64) -> u8 {
        near(x)
    }

    fn store(self, x: u64) {
        far::<u8>(x);
    }
}
const ONE: usize = 1;
pub fn go<W: Wide>(x: u64) -> W
    ensures { store result ≡ far x }
{
    u16::from_le_bytes(x.b);
    W::load(W::LEN)
}
pub fn then(x: u64)
{
    x.more.store(x);
}
fn near(x: u64) -> u8
{
    0
}
fn far<T>(x: u64) -> u8
{
    let one = [0u8; 1];
    1
}
";

/// Of all types, since the type is not looked for; by a path, and after a dot.
#[test]
fn methods_are_followed() {
    let sources = made_up(&[("a/src/lib.rt", A_WIDE)]);
    let places = |name: &str| {
        let reached = sources.reached("a", name);
        let mut places: Vec<String> = reached.iter().map(|item| item.place()).collect();
        places.sort_unstable();
        places
    };
    assert_eq!(
        places("go"),
        [
            "ONE in a/src/lib.rt",
            "Wide::LEN in a/src/lib.rt",
            "Wide::load in a/src/lib.rt",
            "go in a/src/lib.rt",
            "near in a/src/lib.rt",
            "u8::LEN in a/src/lib.rt",
            "u8::load in a/src/lib.rt",
        ]
    );
    assert_eq!(
        places("then"),
        [
            "Wide::store in a/src/lib.rt",
            "far in a/src/lib.rt",
            "then in a/src/lib.rt",
            "u8::store in a/src/lib.rt",
        ]
    );
    assert_eq!(
        arrays_of(&sources.reached("a", "then")),
        ["[0u8; 1] of far in a/src/lib.rt"]
    );
}

/// `impl` in a type has no method.
#[test]
fn a_parameter_of_any_type_with_a_trait() {
    let lib = "pub fn go(x: &mut impl Read) -> u64\n{\n    let one = [0u8; 1];\n    0\n}\n";
    let sources = made_up(&[("a/src/lib.rt", lib)]);
    assert_eq!(
        arrays_of(&sources.reached("a", "go")),
        ["[0u8; 1] of go in a/src/lib.rt"]
    );
}
