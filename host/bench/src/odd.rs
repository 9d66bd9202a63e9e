//! Lines that a machine refuses for its numbers, and lines that are none.

use crate::prng::Prng;
use crate::profile::any_numbers;
use copy::layout::NUMBERS;
use copy::line::{parse, Call};
use copy::{Layout, Numbers};

/// The set-up of numbers in range.
pub fn set_up_line(n: &Numbers, word: u32) -> String {
    line_in(n.layout(), n, word)
}

/// The set-up line of a layout, which has no place for the other's numbers.
fn line_in(layout: Layout, n: &Numbers, word: u32) -> String {
    let Numbers { nc, nd, nr, f, rq, wq, top, columns } = n;
    match layout {
        Layout::Base => format!("S {nc} {nd} {nr} {f} {rq} {wq} {top} {word}"),
        Layout::Wide => format!("C {nc} {nd} {nr} {f} {columns} {top} {word}"),
    }
}

fn any_set_up(rng: &mut Prng) -> (Layout, Numbers) {
    let layout = rng.pick(&Layout::ALL);
    (layout, any_numbers(rng, layout))
}

/// A well-formed set-up with one number changed; now and then it is still in range.
fn odd_set_up(rng: &mut Prng, word: u32) -> String {
    let (layout, n) = any_set_up(rng);
    let near = [0, 1, 2, 3, 4, 5, 6, 8, 9, 16, 17, n.nd - 1, n.nd + 1];
    let far = [128, 2_147_483_648, 4_294_967_294, u32::MAX];
    let changed = match layout {
        Layout::Base => rng.below(7),
        Layout::Wide => rng.pick(&[0, 1, 2, 3, 6, 7]),
    };
    let mut row = [0; NUMBERS];
    n.write(&mut row);
    row[changed] = if rng.one_in(4) { rng.pick(&far) } else { rng.pick(&near) };
    line_in(layout, &Numbers::read(&row), word)
}

/// A number just out of 1 to `count`, or far out.
fn outside(rng: &mut Prng, count: u32) -> u32 {
    rng.pick(&[0, count + 1, count + 2, 64, 129, 65_536, 2_147_483_649, u32::MAX])
}

/// A well-formed line with a number out of range, or a call likely refused.
pub fn refused(rng: &mut Prng, n: &Numbers, word: u32) -> String {
    let any_client = rng.between(1, n.nc);
    let any_replica = rng.between(1, n.nr);
    match rng.below(18) {
        0 => format!("R {}", outside(rng, n.nc)),
        1 => format!("W {} {word}", outside(rng, n.nc)),
        2 => format!("D {}", rng.pick(&[0, 129, 130, 256, 4992, 5036, u32::MAX])),
        3 | 4 => format!("D {}", rng.between(1, 128)),
        5 => format!("G {any_replica} {any_replica}"),
        6 => format!("G {any_replica} {}", outside(rng, n.nr)),
        7 => format!("G {} {any_replica}", outside(rng, n.nr)),
        8 => format!("T {}", outside(rng, n.nr)),
        9 => format!("X {} 1", rng.pick(&[0, 4, 5, 256, u32::MAX])),
        10 => format!("X 1 {}", outside(rng, n.nc)),
        11 => format!("X 2 {}", outside(rng, n.nd)),
        12 => format!("X 3 {}", outside(rng, n.nr)),
        13 => format!("R {any_client}"),
        14 => format!("W {any_client} {word}"),
        _ => odd_set_up(rng, word),
    }
}

/// A line made from a well-formed one that is malformed, but for rare luck. That luck is not
/// taken where a page is in play: its word might be that of another write.
pub fn malformed(rng: &mut Prng, n: &Numbers, word: u32) -> Vec<u8> {
    loop {
        let line = spoiled(rng, n, word);
        let lucky = match parse(&line) {
            Some(Call::SetUp { layout, numbers, .. }) => numbers.in_range(layout),
            Some(Call::Write { .. }) => true,
            _ => false,
        };
        if !lucky {
            return line;
        }
    }
}

fn spoiled(rng: &mut Prng, n: &Numbers, word: u32) -> Vec<u8> {
    let good = match rng.below(7) {
        0 => set_up_line(&any_set_up(rng).1, word),
        1 => format!("R {}", rng.between(1, n.nc)),
        2 => format!("W {} {word}", rng.between(1, n.nc)),
        3 => format!("D {}", rng.between(1, 128)),
        4 => format!("G {} {}", rng.between(1, n.nr), rng.between(1, n.nr)),
        5 => format!("T {}", rng.between(1, n.nr)),
        _ => format!("X {} {}", rng.between(1, 3), rng.between(1, 5)),
    };
    spoil(rng, good.into_bytes())
}

fn spoil(rng: &mut Prng, mut line: Vec<u8>) -> Vec<u8> {
    let at = rng.below(line.len() + 1);
    let inside = rng.below(line.len());
    match rng.below(21) {
        0 => line.clear(),
        1 => line.push(b'\r'),
        2 => line.push(b' '),
        3 => line.insert(0, b' '),
        4 => line.insert(at, b' '),
        5 => line.insert(at, 0),
        6 => line.insert(at, 0xff),
        7 => line.insert(at, any_byte(rng)),
        8 => line[inside] = any_byte(rng),
        9 => drop(line.remove(inside)),
        10 => line.truncate(inside),
        11 => line.insert(2, b'0'),
        12 => line[0] = line[0].to_ascii_lowercase(),
        13 => line[1] = b'\t',
        14 => line.extend_from_slice(b" 1"),
        15 => line.extend_from_slice(b" 00"),
        16 => line.splice(2.., too_great(rng).bytes()).for_each(drop),
        17 => line = (0..rng.below(100)).map(|_| any_byte(rng)).collect(),
        18 => line[0] = rng.pick(b"SCRWDGTX"),
        19 => line.extend(vec![b' '; rng.pick(&[1, 76, 77, 78, 79, 80, 81, 300, 5000])]),
        _ => line = long_fields(rng),
    }
    line
}

fn any_byte(rng: &mut Prng) -> u8 {
    // LF would make two lines of one.
    match rng.below(256) as u8 {
        b'\n' => b'\r',
        byte => byte,
    }
}

fn too_great(rng: &mut Prng) -> &'static str {
    rng.pick(&[
        "4294967296",
        "4294967297",
        "9999999999",
        "18446744073709551617",
        "99999999999999999999999",
        "-1",
        "+1",
        "1.0",
        "0x1",
    ])
}

/// A set-up line of 79 to 82 bytes: well-formed but for its length.
fn long_fields(rng: &mut Prng) -> Vec<u8> {
    let mut digits = rng.between(70, 73);
    let mut line = b"S".to_vec();
    for _ in 0..8 {
        let length = digits.min(10);
        digits -= length;
        line.push(b' ');
        line.extend(vec![b'1'; length.max(1) as usize]);
    }
    line
}
