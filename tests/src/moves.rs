//! The moves of a growth, enumerated by document 01's rule, and what the program `zone_moves` is to print.

pub struct Move {
    pub index: u64,
    pub zone: i64,
    pub within: i64,
    pub from: i64,
    pub to: i64,
}

/// The moves of zones 0 to `last` in document 01's order: zone, then p, then i, rising. The index is counted, not computed.
pub fn moves(n: i64, m: i64, last: i64) -> Vec<Move> {
    let mut all = Vec::new();
    for zone in 0..=last {
        for p in n..n + m {
            for i in 0..n {
                all.push(Move {
                    index: all.len() as u64,
                    zone,
                    within: p - i,
                    from: (p + zone * m - 2 * i).rem_euclid(n),
                    to: p,
                });
            }
        }
    }
    all
}

/// The moves of a growth over so many stripes: "Only whole groups move now", and a group is n zones of n + m stripes.
pub fn of_growth(n: i64, m: i64, stripes: i64) -> Vec<Move> {
    let zones = stripes / (n + m);
    let in_whole_groups = zones - zones % n;
    moves(n, m, in_whole_groups - 1)
}

/// The lines that `zone_moves` prints for a good request.
pub fn listing(n: i64, m: i64, z: i64) -> String {
    moves(n, m, z)
        .iter()
        .filter(|x| x.zone == z)
        .map(|x| format!("{} {} {} {} {}\n", x.index, x.zone, x.within, x.from, x.to))
        .collect()
}

/// What `zone_moves` prints for any input.
pub fn answer(input: &[u8]) -> String {
    match request(input) {
        Some((n, m, z)) => listing(n, m, z),
        None => "refused 6\n".to_string(),
    }
}

/// "one line "n m z" (decimal, no leading zeros, single spaces, a line feed behind)", n 3 to 16, m 1 to 16, z below n.
fn request(input: &[u8]) -> Option<(i64, i64, i64)> {
    let end = input.iter().position(|&b| b == b'\n')?;
    let words: Vec<&[u8]> = input[..end].split(|&b| b == b' ').collect();
    let [n, m, z] = words[..] else { return None };
    let (n, m, z) = (number(n)?, number(m)?, number(z)?);
    ((3..=16).contains(&n) && (1..=16).contains(&m) && z < n).then_some((n, m, z))
}

fn number(word: &[u8]) -> Option<i64> {
    let text = std::str::from_utf8(word).ok()?;
    let value: i64 = text.parse().ok()?;
    (value.to_string() == text && value >= 0).then_some(value)
}
