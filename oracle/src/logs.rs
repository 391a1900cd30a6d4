//! Logs for the comparison: those that tell neighbouring rules apart, and random ones with damaged lines among the others.
use crate::clouds::some_square;
use crate::inputs::{random_outline, random_spot};
use crate::lines::{at_the_end, damage};
use crate::random::Random;
use crate::shapes::{round_the_grid, star, Outline};
use crate::text::{point, polygon, triangle};

type Log = Vec<u8>;

const SQUARE: &str = "POLYGON ((0 0, 4 0, 4 4, 0 4, 0 0))";
const GUSSET: &str = "TRIANGLE ((0 0, 4 0, 0 4, 0 0))";
/// On an edge of both.
const ON_EDGE: &str = "POINT (2 0)";

/// The log in examples/.
const EXAMPLE: &[u8] = include_bytes!("../../examples/shift.log");

/// Logs that differ in how they end, and in the ends of their lines.
#[rustfmt::skip]
const ENDS: [&str; 17] = [
    "", "\n", "\n\n", "\r\n", "\n\r", " ", "\0", "POINT (0 0)", "POINT (0 0)\n", "POINT (0 0)\n\n", "\nPOINT (0 0)", "POINT (0 0)\n ",
    "POINT (0 0)\n\0", "POLYGON ((0 0, 4 0, 4 4, 0 4, 0 0))\r\nPOINT (2 0)\r\n",
    "POLYGON ((0 0, 4 0, 4 4, 0 4, 0 0))\nPOINT (2 0)\r\nPOINT (2 0)\n\rPOINT (2 0)\n", "POLYGON ((0 0, 4 0, 4 4, 0 4, 0 0))",
    "POLYGON ((0 0, 4 0, 4 4, 0 4, 0 0))\nPOINT (2 0)\nTRIANGLE ((0 0, 4 0, 0 4, 0 0))\nPOINT (2 0)",
];

/// Lines that are refused, many of them only at their end.
#[rustfmt::skip]
const REFUSED: [&str; 93] = [
    "", " ", "\r", "\t", "\0", "0", "11", "inside", "#", "P", "PO", "POINT", "POLYGON", "TRIANGLE", "POINT ", "POLYGON ", "TRIANGLE ", "POINT EMPTY",
    "POLYGON EMPTY", "TRIANGLE EMPTY", "POINT ()", "POINT (2)", "POINT (2 )", "POINT ( 0)", "POINT ( 2 0)", "POINT (2 0 )", "POINT (2 0 0)",
    "POINT (2  0)", "POINT (2\t0)", "POINT (2,0)", "POINT (2, 0)", "POINT (2 0, 2 0)", "POINT(2 0)", "POINT  (2 0)", "POINT (2 0", "POINT 2 0",
    "POINT ((2 0))", "point (2 0)", "Point (2 0)", "POINTS (2 0)", "APOINT (2 0)", " POINT (2 0)", "POINT (2 0) ", "POINT (2 0)\r", "POINT (2 0)\0",
    "POINT (2 0)POINT (2 0)", "POINT (2 0)\rPOINT (2 0)", "POINT (2 0)\0POINT (2 0)", "POINT (02 0)", "POINT (2 00)", "POINT (2 -0)", "POINT (-0 0)",
    "POINT (+2 0)", "POINT (2.0 0)", "POINT (2 0.)", "POINT (2e0 0)", "POINT (0x2 0)", "POINT (--2 0)", "POINT (2- 0)", "POINT (- 0)", "POINT (2 -)",
    "POINT (2 \u{2212}1)", "POINT (\u{ff12} 0)", "POINT (2 \u{660})", "POINT (2\u{a0}0)", "\u{feff}POINT (2 0)", "POINT (2 0)\u{2028}", "POINT (1025 0)",
    "POINT (0 1025)", "POINT (-1025 0)", "POINT (0 -1025)", "POINT (2147483648 0)", "POINT (4294967298 0)", "POINT (2 18446744073709551616)",
    "POINT (-4294967294 0)", "POINT (16777217 0)", "TRIANGLE (())", "TRIANGLE ((500 500))", "TRIANGLE ((500 500, 500 500))",
    "TRIANGLE ((500 500, 600 500, 500 500))", "TRIANGLE ((500 500, 600 500, 500 600))", "TRIANGLE ((500 500, 600 500, 600 600, 500 600, 500 500))",
    "TRIANGLE ((500 500, 600 500, 500 600, 500 500), (0 0, 4 0, 0 4, 0 0))", "MULTIPOLYGON (((500 500, 600 500, 600 600, 500 500)))",
    "LINESTRING (500 500, 600 500)", "POLYGON (())", "POLYGON ((500 500))",
    "POLYGON ((500 500, 600 500, 600 600, 500 500), (520 510, 530 510, 530 520, 520 510))",
    "POLYGON ((500 500, 600 500, 600 600, 500 500),(520 510, 530 510, 530 520, 520 510))", "POLYGON ((500 500,600 500,600 600,500 500))",
    "POLYGON ((500 500, 1025 500, 600 600, 500 500))", "POLYGON ((1025 500, 600 500, 600 600, 1025 500))",
    "TRIANGLE ((500 500, 600 500, 600 -1025, 500 500))",
];

/// What a refused outline may have at its end, from its last corner on.
#[rustfmt::skip]
const LATE: [&str; 15] = [
    "600 600, 500 500)) ", "600 600, 500 500))\r", "600 600, 500 500))\0", "600 600, 500 500)))", "600 600, 500 500)", "600 600, 500 500",
    "600 600, 500 501))", "600 600, 500 0500))", "600 600, 500 -500))", "600 600,500 500))", "600 0600, 500 500))", "600 1025, 500 500))",
    "-1025 600, 500 500))", "600 600, 600 600))", "600 600, 500 500, 500 500)) ",
];

/// Outlines of few corners, most of them odd ones.
#[rustfmt::skip]
const SMALL: [&str; 18] = [
    "POLYGON ((2 2, 2 2))", "POLYGON ((0 0, 4 2, 0 0))", "POLYGON ((1 1, 1 1, 1 1))", "POLYGON ((0 0, 2 1, 4 2, 0 0))",
    "POLYGON ((0 0, 4 0, 0 4, 0 0))", "POLYGON ((0 0, 0 4, 4 0, 0 0))", "POLYGON ((0 0, 0 4, 4 4, 4 0, 0 0))",
    "POLYGON ((0 0, 0 0, 4 0, 4 4, 4 4, 0 0))", "POLYGON ((0 0, 4 4, 4 0, 0 4, 0 0))", "POLYGON ((0 0, 4 0, 0 0, 0 4, 0 0))",
    "POLYGON ((0 0, 2 0, 4 0, 4 4, 0 4, 0 0, 2 0, 4 0, 4 4, 0 4, 0 0))", "POLYGON ((0 0, 4 0, 4 4, 2 1, 0 4, 0 0))",
    "TRIANGLE ((0 0, 4 0, 0 4, 0 0))", "TRIANGLE ((0 0, 0 4, 4 0, 0 0))", "TRIANGLE ((0 0, 2 1, 4 2, 0 0))", "TRIANGLE ((0 0, 4 2, 0 0, 0 0))",
    "TRIANGLE ((2 2, 2 2, 2 2, 2 2))", "TRIANGLE ((3 1, 3 1, 0 4, 3 1))",
];

/// Lines with a newline each.
fn joined<L: AsRef<[u8]>>(lines: impl IntoIterator<Item = L>) -> Log {
    lines.into_iter().flat_map(|line| [line.as_ref(), b"\n"].concat()).collect()
}

/// So many corners at the origin, and before them one at this place.
fn crowd(first: &str, corners: usize) -> String {
    format!("POLYGON (({first}, {}{first}))", "0 0, ".repeat(corners - 1))
}

/// Every refused line with a spot behind it, with no outline in force, one of each kind, and one of very many corners.
fn refusals() -> Vec<Log> {
    let late = ["POLYGON", "TRIANGLE"].iter().flat_map(|word| LATE.map(|end| format!("{word} ((500 500, 600 500, {end}")));
    let many = [("500 500", 513), ("1025 500", 513), ("1025 500", 512), ("500 500", 1600)].map(|(first, corners)| crowd(first, corners));
    let mut lines: Vec<Vec<u8>> = REFUSED.iter().map(|line| line.as_bytes().to_vec()).collect();
    lines.extend(late.chain(many).map(String::into_bytes));
    lines.extend([&b"\x80"[..], b"\xff", b"POINT (2 0)\xff", b"POINT (\xb2 0)", b"POINT (2\xa00)", b"\xc3POINT (2 0)"].map(<[u8]>::to_vec));
    let round = polygon(&round_the_grid(1024));
    let in_force = ["", GUSSET, SQUARE, round.as_str()];
    let log = joined(lines.iter().flat_map(|line| [line.as_slice(), ON_EDGE.as_bytes()]));
    in_force.map(|outline| [joined([outline]), log.clone()].concat()).to_vec()
}

/// Spots in and round every outline of few corners, and spots before any.
fn small_outlines() -> Log {
    let spots: Vec<String> = (0..64).map(|i| point((i % 8 - 1, i / 8 - 1))).collect();
    [""].iter().chain(&SMALL).flat_map(|outline| [joined([outline]), joined(&spots)].concat()).collect()
}

/// The most corners, with spots at all of them and beside them, and one corner more.
fn large_outlines() -> Log {
    let star = star(512);
    let mut lines = vec![polygon(&star)];
    lines.extend(star.iter().flat_map(|&(x, y)| [point((x, y)), point((x + 1, y)), point((x - 1, y))]));
    for outline in [round_the_grid(1024), round_the_grid(-1024), [star, vec![(0, 0)]].concat()] {
        lines.push(polygon(&outline));
        lines.extend([(0, 0), (1024, 1024), (-1024, 0), (1024, 1025), (5, 1024)].map(point));
    }
    lines.extend([crowd("3 0", 512), ON_EDGE.to_string(), crowd("4 0", 513), "POINT (3 0)".to_string(), "POINT (4 0)".to_string()]);
    joined(lines)
}

/// A line in form of so many bytes, with a number of almost as many digits.
fn long(begin: &str, bytes: usize, end: &str) -> String {
    format!("{begin}{}{end}", "1".repeat(bytes - begin.len() - end.len()))
}

/// Lines of about the most bytes that a line may have, each with a spot behind it.
fn long_lines() -> Log {
    let corners = "0 0, ".repeat(600);
    let mut lines = vec![SQUARE.to_string()];
    for bytes in (8186..=8200).chain([1000, 4000, 4096, 16384, 65536]) {
        let spots = [long("POINT (", bytes, " 0)"), long("POINT (2 -", bytes, ")")];
        let outlines = [long("POLYGON ((0 0, 0 ", bytes, ", 0 0))"), long("TRIANGLE ((0 0, ", bytes, " 0, 0 4, 0 0))")];
        lines.extend(spots.into_iter().chain(outlines).flat_map(|line| [line, ON_EDGE.to_string()]));
        if bytes >= 4000 {
            lines.extend([long(&format!("POLYGON ((0 0, {corners}"), bytes, " 0, 0 0))"), ON_EDGE.to_string()]);
        }
    }
    joined(lines)
}

/// Where a program may think that an overlong line, or what it holds of the log, is at its end.
const BOUNDS: [usize; 17] = [4096, 8191, 8192, 8193, 8194, 12288, 16383, 16384, 16385, 16386, 24576, 32768, 65535, 65536, 65537, 73728, 131072];

fn behind(bound: usize, filler: &str, rest: &str) -> Log {
    filler.bytes().cycle().take(bound).chain(rest.bytes()).collect()
}

/// Overlong lines of which what stands behind a bound would be a line in form; the first of a log, and behind others.
fn overlong() -> Vec<Log> {
    let far = "POLYGON ((500 500, 600 500, 600 600, 500 500))";
    let mut logs = Vec::new();
    for bound in BOUNDS {
        let lines = [behind(bound, "POINT (0 0)", "POINT (0 0)"), behind(bound, "\0", far), behind(bound, "1", far), behind(bound, " ", "")];
        for first in &lines[..2] {
            let others = lines.iter().flat_map(|line| [line, ON_EDGE.as_bytes()]);
            logs.push([joined([first.as_slice(), SQUARE.as_bytes(), ON_EDGE.as_bytes()]), joined(others), first.clone()].concat());
        }
    }
    let blocks = [8192, 8193, 65536].map(|bytes| long("POLYGON ((0 0, 4 ", bytes, ", 0 0))").repeat(100_000 / bytes + 1));
    let points = "POINT (0 0)".repeat(100_000 / 11);
    logs.push(joined([SQUARE, &blocks[0], ON_EDGE, &blocks[1], ON_EDGE, &blocks[2], ON_EDGE, &points, ON_EDGE, &points[1..], ON_EDGE]));
    logs.extend(blocks.map(String::into_bytes));
    logs
}

/// A line with each of its bytes made every byte.
fn replaced(line: &[u8]) -> Log {
    joined((0..line.len()).flat_map(|at| (0..=255).map(move |byte| [&line[..at], &[byte], &line[at + 1..]].concat())))
}

/// Behind an outline, lines of each kind with any byte in place of one, or with one byte less or one twice, and all that such a line begins with.
fn one_byte_wrong() -> Vec<Log> {
    let outline = joined(["POLYGON ((0 -12, 5 -12, 5 310, 0 310, 0 -12))"]);
    let kinds = ["POLYGON ((0 0, 4 0, 4 10, 0 0))", "TRIANGLE ((0 0, 4 0, 4 -10, 0 0))", "POINT (2 -10)"].map(str::as_bytes);
    let places = || kinds.into_iter().flat_map(|line| (0..line.len()).map(move |at| (line, at)));
    let lost = joined(places().map(|(line, at)| [&line[..at], &line[at + 1..]].concat()));
    let doubled = joined(places().map(|(line, at)| [&line[..=at], &line[at..]].concat()));
    let begun = joined(places().map(|(line, at)| &line[..=at]));
    let logs = kinds.map(replaced).into_iter().chain([lost, doubled, begun]);
    logs.map(|log| [outline.clone(), log].concat()).collect()
}

/// Logs that tell neighbouring rules apart, and the example.
pub fn fixed() -> Vec<Log> {
    let mut logs = vec![EXAMPLE.to_vec()];
    logs.extend(ENDS.map(|text| text.as_bytes().to_vec()));
    logs.extend(refusals());
    logs.extend([small_outlines(), large_outlines(), long_lines()]);
    logs.extend(one_byte_wrong());
    logs.extend(overlong());
    logs
}

/// Those that lines have, and some others.
const BYTES: &[u8] = b"POLYGONTRIANGLEPOINT(), -0123456789\t\r\n+.\0\x80\xff";

/// A long line of any bytes, the last of which look like a line.
fn random_overlong(r: &mut Random) -> Log {
    let most = [30, 10_000, 100_000][r.below(3)];
    let bytes = 9000 + r.below(most);
    let mut line: Log = (0..bytes).map(|_| BYTES[r.below(BYTES.len())]).filter(|&b| b != b'\n').collect();
    let at = [8192, 8193, 65536, r.below(line.len())][r.below(4)].min(line.len());
    line.splice(at.., *b"POINT (0 0)");
    line
}

/// A spot that most often has to do with the outline, and at times one off the grid.
fn spot(r: &mut Random, outline: &Outline) -> (i32, i32) {
    match r.below(8) {
        0 => (r.within(-1030, 1030), r.within(-1030, 1030)),
        1 => (r.within(-500, 500), r.within(-500, 500)),
        _ => random_spot(r, outline),
    }
}

/// A line in form. An outline takes the place of the one that spots are near to.
fn good_line(r: &mut Random, outline: &mut Outline, outlines: usize) -> String {
    match r.below(outlines) {
        0 => {
            *outline = random_outline(r);
            at_the_end(r, outline);
            polygon(outline)
        }
        1 => {
            let corners = [2, 3, 3, 3, 3, 3, 3, 4][r.below(8)];
            *outline = some_square(r, corners);
            at_the_end(r, outline);
            triangle(outline)
        }
        _ => point(spot(r, outline)),
    }
}

/// Some lines or some thousand, with few outlines among them or many; every second log lacks the last newline.
pub fn random(r: &mut Random) -> Log {
    let most = [4, 60, 600, 4000][r.below(4)];
    let lines = 1 + r.below(most);
    let (outlines, wrong) = ([4, 20, 200][r.below(3)], [2, 10, 100][r.below(3)]);
    let mut outline = Vec::new();
    let mut log = Vec::new();
    for _ in 0..lines {
        let mut line = good_line(r, &mut outline, outlines).into_bytes();
        if r.below(wrong) == 0 {
            damage(r, &mut line, BYTES);
        }
        if r.below(2000) == 0 {
            line = random_overlong(r);
        }
        log.extend(line);
        log.push(b'\n');
    }
    if r.below(2) == 0 {
        log.pop();
    }
    log
}
