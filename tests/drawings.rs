//! The script examples/book, run as a process, beside a reader of drawings in Rust: the bytes of the book, or what is wrong and
//! where. `tests/scripts` has the messages in full, and the script `run`.

use crate::{oracle, Random, Tally};
use std::io::Write;
use std::process::{Command, Stdio};

// A character of a drawing, and where it stands. Lines and columns count from 1, rows of the drawing from 0.
#[derive(Clone, Copy)]
struct Cell {
    line: usize,
    column: i64,
    row: i64,
    byte: u8,
}

impl Cell {
    fn place(self) -> String {
        format!("line {}, column {}", self.line, self.column)
    }

    fn is_pixel(self) -> bool {
        self.byte == b'#' || self.byte == b'O'
    }
}

fn name(byte: u8) -> String {
    match byte {
        b' ' => "a space".into(),
        b'\t' => "a tab".into(),
        b'\r' => "a carriage return".into(),
        33..=126 => format!("the character {}", byte as char),
        _ => format!("the byte {byte:02X} in hex"),
    }
}

// The patterns, cell by cell, or why the lines are no drawing.
fn patterns(text: &[u8]) -> Result<Vec<Vec<Cell>>, String> {
    let text = text.strip_prefix(b"\xef\xbb\xbf").unwrap_or(text);
    let (mut all, mut now, mut row, mut remark) = (Vec::new(), Vec::<Cell>::new(), 0, 0);
    for (k, line) in text.split(|&b| b == b'\n').enumerate() {
        let blank = |b: &u8| b" \t\r".contains(b);
        if line.len() > 4096 {
            return Err(format!("line {}: more than 4096 characters", k + 1));
        }
        let inner = line.iter().position(|b| !b" \t".contains(b)).map_or(&line[..0], |from| &line[from..]);
        if inner.starts_with(b"//") {
            remark = k + 1;
            continue;
        }
        let end = line.iter().rposition(|b| !blank(b)).map_or(0, |last| last + 1);
        if end == 0 && line.iter().any(|&b| b != b'\r') {
            return Err(format!("line {}: nothing but spaces", k + 1));
        }
        let cells: Vec<Cell> =
            (0..end).map(|c| Cell { line: k + 1, column: c as i64 + 1, row, byte: line[c] }).collect();
        if let Some(c) = cells.iter().find(|c| !b"#.Oo".contains(&c.byte)) {
            return Err(format!("{}: {} is no part of a drawing; ", c.place(), name(c.byte)));
        }
        if now.last().is_some_and(|c| c.line < remark) && end > 0 {
            return Err(format!("line {remark}: a remark inside a drawing"));
        }
        now.extend(&cells);
        let marks: Vec<_> = now.iter().filter(|c| b"Oo".contains(&c.byte)).collect();
        if marks.len() > 1 {
            return Err(format!("{}: a second (0, 0); this pattern has one at {}", marks[1].place(), marks[0].place()));
        }
        row += 1;
        if end == 0 {
            row = 0;
            all.extend((!now.is_empty()).then(|| std::mem::take(&mut now)));
        }
    }
    all.extend((!now.is_empty()).then_some(now));
    Ok(all)
}

// The bytes of one pattern, or why it is none of a book.
fn pattern(n: usize, cells: &[Cell]) -> Result<Vec<u8>, String> {
    let mark = cells.iter().find(|c| b"Oo".contains(&c.byte)).map_or((1, 0), |c| (c.column, c.row));
    let pixels: Vec<&Cell> = cells.iter().filter(|c| c.is_pixel()).collect();
    if pixels.is_empty() {
        return Err(format!("line {}: refused 2: pattern {n} has no pixel", cells[0].line));
    }
    if let Some(c) = pixels.get(64) {
        return Err(format!("{}: refused 2: one pixel too many for pattern {n}", c.place()));
    }
    let mut bytes = vec![pixels.len() as u8];
    for c in pixels {
        for z in [c.column - mark.0, c.row - mark.1] {
            if !(-16..16).contains(&z) {
                let at = format!("({}, {})", c.column - mark.0, c.row - mark.1);
                return Err(format!("{}: refused 3: pattern {n} has a pixel at {at}", c.place()));
            }
            bytes.push(z as i8 as u8);
        }
    }
    Ok(bytes)
}

fn is_ragged(cells: &[Cell]) -> bool {
    let lengths = |row| cells.iter().filter(|c| c.row == row).count();
    (1..=cells[cells.len() - 1].row).any(|row| lengths(row) != lengths(0))
}

// What the script should write, its status, and how its message begins.
fn wanted(text: &[u8]) -> (Vec<u8>, i32, String) {
    let fault = |status, why| (Vec::new(), status, format!("book: standard input: {why}"));
    let all = match patterns(text) {
        Err(why) => return fault(2, why),
        Ok(all) => all,
    };
    match all.get(16) {
        Some(late) => return fault(1, format!("line {}: refused 2: a 17th pattern begins here", late[0].line)),
        None if all.is_empty() => return fault(1, "refused 2: no pattern is drawn".into()),
        None => {}
    }
    let parts: Result<Vec<_>, _> = all.iter().enumerate().map(|(n, cells)| pattern(n, cells)).collect();
    match parts {
        Err(why) => fault(1, why),
        Ok(parts) => {
            let counts: Vec<_> = parts.iter().map(|part| part[0].to_string()).collect();
            let (s, z) = (if parts.len() == 1 { "" } else { "s" }, if counts == ["1"] { "" } else { "s" });
            let mut told = format!("book: {} pattern{s} of {} pixel{z}\n", parts.len(), counts.join(", "));
            if let Some(n) = all.iter().position(|cells| is_ragged(cells)) {
                told += &format!("book: the lines of pattern {n} differ in length; a short line has no pixel at its end\n");
            }
            ([vec![parts.len() as u8], parts.concat()].concat(), 0, told)
        }
    }
}

fn got(text: &[u8]) -> (Vec<u8>, i32, String) {
    let mut child = Command::new("timeout")
        .args(["60", "bash", "examples/book", "-"])
        .stdin(Stdio::piped())
        .stdout(Stdio::piped())
        .stderr(Stdio::piped())
        .spawn()
        .expect("bash is there");
    // who stops at a fault does not read the rest
    let _ = child.stdin.take().unwrap().write_all(text);
    let out = child.wait_with_output().unwrap();
    (out.stdout, out.status.code().unwrap_or(-1), String::from_utf8_lossy(&out.stderr).into_owned())
}

fn case(t: &mut Tally, text: &[u8]) {
    let (w, mut g) = (wanted(text), got(text));
    let what = || format!("{:?}", String::from_utf8_lossy(text));
    if w.1 != 0 {
        g.2.truncate(w.2.len());
    } else {
        // as it is drawn, row by row, the pixels are in order
        t.same(what, oracle::read(&g.0).map(|_| ()), Ok(()));
    }
    t.same(what, g, w);
}

// A few patterns, most of them legal, with remarks, blanks and other ends of lines between them.
fn random_drawing(random: &mut Random) -> Vec<u8> {
    let mut text = Vec::new();
    let many = random.one_of(&[0, 1, 1, 2, 3, 5, 15, 16, 17]);
    let (wide, high) = random.one_of(&[(3, 3), (8, 8), (16, 2), (17, 1), (2, 17), (33, 2), (12, 40)]);
    let end: &[u8] = random.one_of(&[&b"\n"[..], b"\r\n", b" \t\n"]);
    for _ in 0..many {
        let (columns, rows) = (random.from_to(1, wide), random.from_to(1, high));
        let often = random.one_of(&[1, 2, 2, 6, 20]);
        let mark = (random.from_to(0, 2 * columns), random.from_to(0, 2 * rows));
        for j in 0..rows {
            for i in 0..columns {
                let pixel = random.from_to(1, often) == 1;
                text.push(match ((i, j) == mark, pixel) {
                    (true, true) => b'O',
                    (true, false) => b'o',
                    (false, true) => b'#',
                    (false, false) => b'.',
                });
            }
            text.extend(end);
            if random.from_to(0, 99) == 0 {
                text.extend(random.one_of(&["// a remark\n", "  // #O#\n", "\t//\n", "//\r\n"]).bytes());
            }
        }
        if random.from_to(0, 3) == 0 {
            text.extend(random.one_of(&["// a remark\n", "  // #O#\n", "\t//\n", "//\r\n"]).bytes());
        }
        text.extend(random.one_of(&["\n", "\n\n", "\r\n", "\n\r\r\n", "\n", "\n", "\n", "\n", "  \n"]).bytes());
    }
    text
}

fn random_drawings() -> Tally {
    let mut t = Tally::new("drawings, random");
    let mut random = Random::new(23);
    for round in 0..500 {
        let mut text = random_drawing(&mut random);
        if round % 3 == 2 && !text.is_empty() {
            let at = random.from_to(0, text.len() as i64 - 1) as usize;
            text[at] = random.one_of(&[b'O', b'o', b' ', b'\t', b'\r', b'/', b'0', b'\n', 0, 1, 127, 200, 255]);
        }
        case(&mut t, &text);
    }
    t
}

// The edges of each limit.
fn edges() -> Tally {
    let mut t = Tally::new("drawings, edges");
    let row = |n: usize| "#".repeat(n);
    let mut texts: Vec<Vec<u8>> = vec![
        b"".to_vec(),
        b"\n\r\n// only a remark\n".to_vec(),
        b"#.#\n   \n#.#\n".to_vec(),
        b"###\n// second\n#.#\n".to_vec(),
        b"###\n// one\n// two\n#x\n".to_vec(),
        b"###\n// end\n\n// begin\n#.#\n// end".to_vec(),
        b"#\n##\n\n##\n#\n".to_vec(),
        b"##\n##\n\n###\n##\n".to_vec(),
        b"#\n\t\n#".to_vec(),
        b"#\n \r\n#".to_vec(),
        b"#\r\n\r\n#\r\n\r\n".to_vec(),
        b"#\n ".to_vec(),
        b"#".to_vec(),
        b"\xef\xbb\xbf#\n".to_vec(),
        b"#\xef\xbb\xbf\n".to_vec(),
        b"...\n\n#".to_vec(),
        b"o".to_vec(),
        b" #".to_vec(),
        b"OO".to_vec(),
        b"o#\n#O".to_vec(),
        b"O x".to_vec(),
        b"OOx".to_vec(),
        b"#\r#".to_vec(),
        b"/#".to_vec(),
        b"# // no remark".to_vec(),
    ];
    for width in [16, 17, 31, 32, 33] {
        let tall = "#\n".repeat(width);
        texts.extend([row(width).into_bytes(), format!("{}O", row(width - 1)).into_bytes(), tall.clone().into_bytes()]);
        texts.push(format!("{}O{}", row(16), row(width - 17 + (width == 16) as usize)).into_bytes());
        texts.push(format!("{}o\n{tall}", ".".repeat(15)).into_bytes());
    }
    for n in [15, 16, 17, 18, 300] {
        texts.push("#\n\n".repeat(n).into_bytes());
        texts.push(["#\n\n".repeat(n), row(17)].concat().into_bytes());
        texts.push([row(17), "\n\n#".repeat(n)].concat().into_bytes());
        texts.push(["#\n\n".repeat(n), "x".into()].concat().into_bytes());
    }
    for n in [63, 64, 65, 66, 300] {
        texts.push((0..n).map(|k| if k % 13 == 12 { "#\n" } else { "#" }).collect::<String>().into_bytes());
    }
    for n in [4093, 4094, 4095, 4096, 4097, 4098, 4099, 4100, 5000] {
        texts.push(format!("{}O", ".".repeat(n - 1)).into_bytes());
        texts.push([&b"\xef\xbb\xbf"[..], ".".repeat(n - 1).as_bytes(), b"O\n"].concat());
        texts.push(format!("#\n//{}\n", " ".repeat(n - 2)).into_bytes());
        texts.push(format!("O{}\n", " ".repeat(n - 1)).into_bytes());
    }
    for byte in 0..=255u8 {
        texts.push(vec![b'#', byte, b'#']);
    }
    texts.iter().for_each(|text| case(&mut t, text));
    t
}

// The four corners of a block, with (0, 0) at a mark: (1, 1) without one.
fn corners(width: usize, height: usize, mark: (usize, usize), has_mark: bool) -> Vec<u8> {
    let mut rows = vec![vec![b'.'; width + 1]; height];
    for (i, j) in [(0, 0), (width - 1, 0), (0, height - 1), (width - 1, height - 1)] {
        rows[j][i] = b'#';
    }
    if has_mark {
        let cell = &mut rows[mark.1 - 1][mark.0 - 1];
        *cell = if *cell == b'#' { b'O' } else { b'o' };
    }
    rows.join(&b'\n')
}

// Where a drawing is refused by 3, an O or o at each end of the columns and lines that the message names makes it legal, and one
// just outside does not.
fn advice() -> Tally {
    let mut t = Tally::new("drawings, where (0, 0) has to be");
    for (width, height, has_mark) in [(17, 1, false), (20, 3, true), (32, 32, true), (3, 18, false), (32, 2, false), (31, 17, true)]
    {
        let message = got(&corners(width, height, (1, 1), has_mark)).2;
        let Some((_, named)) = message.split_once("near its middle: in column ") else {
            t.same(|| message.clone(), "no advice", "advice");
            continue;
        };
        let ends = |part: &str| {
            let all: Vec<usize> = part.split(" to ").map(|n| n.trim().parse().unwrap_or(0)).collect();
            (all[0], all[all.len() - 1])
        };
        let (columns, lines) = named.split_once(" of line ").unwrap_or_default();
        let ((left, right), (top, bottom)) = (ends(columns), ends(lines));
        for (column, line) in [(left, top), (left, bottom), (right, top), (right, bottom)] {
            t.same(|| format!("{width} {height} {column} {line}"), got(&corners(width, height, (column, line), true)).1, 0);
        }
        for (column, line) in [(left - 1, top), (right + 1, top), (left, top - 1), (left, bottom + 1)] {
            if (1..=width).contains(&column) && (1..=height).contains(&line) {
                t.same(|| format!("{width} {height} {column} {line}"), got(&corners(width, height, (column, line), true)).1, 1);
            }
        }
    }
    t
}

pub fn run() -> Vec<Tally> {
    vec![edges(), random_drawings(), advice()]
}
