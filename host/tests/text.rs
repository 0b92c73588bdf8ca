//! The reader, the writer and the listing program: text around every refusal.

mod common;

use common::brute::{self, counted};
use common::*;
use rumbleog::number::*;
use rumbleog::{table_text_for, Query, Table};

/// Compares the reader on one text and these column lengths. Text that it
/// accepts comes out of the writer again, byte for byte.
fn read(rng: &mut Rng, text: &[u8], lengths: [usize; 3]) -> u32 {
    let lent = Lent::holding(rng, text);
    let [mut days, mut first, mut second] = lengths.map(|n| Lent::<u16>::new(rng, n));
    let mut want = [
        days.get().to_vec(),
        first.get().to_vec(),
        second.get().to_vec(),
    ];
    let [a, b, c] = &mut want;
    let expected = brute::read_table(text, a, b, c);
    let got = read_table(
        lent.get(),
        days.get_mut(),
        first.get_mut(),
        second.get_mut(),
    );
    assert_eq!(
        got,
        expected,
        "{lengths:?} {:?}",
        String::from_utf8_lossy(text)
    );
    days.holds(&want[0], "days");
    first.holds(&want[1], "first");
    second.holds(&want[2], "second");
    lent.kept("text");
    if got.number == OK {
        let rows = got.count as usize;
        let table = Table {
            days: &days.get()[..rows],
            first: &first.get()[..rows],
            second: &second.get()[..rows],
        };
        let mut again = Lent::<u8>::new(rng, text.len());
        let written = write_table(table, again.get_mut());
        assert_eq!(written, counted(text.len()), "text that was read");
        again.holds(text, "text written again");
    }
    got.number
}

/// Compares the writer on these columns and this text space. What it writes
/// reads back as it was.
fn write(rng: &mut Rng, table: &Owned, space: usize) -> u32 {
    let lent = LentTable::new(rng, table);
    let mut text = Lent::<u8>::new(rng, space);
    let mut want = text.get().to_vec();
    let expected = brute::write_table(table.lend(), &mut want);
    let got = write_table(lent.lend(), text.get_mut());
    assert_eq!(got, expected, "{space} bytes: {table:?}");
    text.holds(&want, "text");
    lent.kept();
    if got.number == OK {
        let rows = table.rows();
        let [mut days, mut first, mut second] = [rows; 3].map(|n| Lent::<u16>::new(rng, n));
        let read = read_table(
            &text.get()[..got.count as usize],
            days.get_mut(),
            first.get_mut(),
            second.get_mut(),
        );
        assert_eq!(read, counted(rows), "text that was written");
        days.holds(&table.days, "days read back");
        first.holds(&table.first, "first read back");
        second.holds(&table.second, "second read back");
    }
    got.number
}

/// Compares the listing on one text; room for the answer, one byte less, none,
/// and more.
fn listed(rng: &mut Rng, input: &[u8]) -> u32 {
    let lent = Lent::holding(rng, input);
    let answer = brute::list_text(input);
    let length = answer.as_ref().map_or(200, Vec::len);
    for room in [length, length - 1, length + 30, 0] {
        let mut output = Lent::<u8>::new(rng, room);
        let mut want = output.get().to_vec();
        let expected = match &answer {
            Err(refusal) => *refusal,
            Ok(text) => brute::put(text, &mut want),
        };
        let got = list(lent.get(), output.get_mut());
        assert_eq!(
            got,
            expected,
            "room {room}: {:?}",
            String::from_utf8_lossy(input)
        );
        output.holds(&want, "output");
    }
    lent.kept("input");
    answer.map_or_else(|refusal| refusal.number, |_| OK)
}

/// What a listing of damaged text meets.
const LISTED: [u32; 8] = [
    OK,
    BAD_DAY,
    BAD_ACCOUNTS,
    DAY_FALLS,
    BAD_K,
    BAD_RANGE,
    BAD_LINE,
    BAD_FIELD,
];

/// Each of these numbers came up: a test that never meets one is weak.
fn met(seen: &[u64; 16], numbers: &[u32]) {
    for &number in numbers {
        assert!(seen[number as usize] > 0, "no text met {number}");
    }
}

const TWO: &str = "    3     1     7\n    9    12  4095\n";

/// Every byte of a text replaced by every byte.
#[test]
fn each_byte_of_rows() {
    let mut rng = Rng(21);
    let mut cases = 0;
    for at in 0..TWO.len() {
        for byte in 0..=255 {
            let mut text = TWO.as_bytes().to_vec();
            text[at] = byte;
            read(&mut rng, &text, [2, 2, 2]);
            cases += 1;
        }
    }
    println!("read_table, a byte replaced: {cases} cases");
}

#[test]
fn each_byte_of_a_listing() {
    let mut rng = Rng(22);
    let mut seen = [0; 16];
    let text = format!("    2    1    6\n{}", season().text());
    let bytes = b"\0\t\n\r 0123456789/:+-AZ\x7f\x80\xff";
    let mut cases = 0;
    for at in 0..text.len() {
        for &byte in bytes {
            // Wide ranges are dear to brute force and cheap to avoid.
            if (5..16).contains(&at) && byte.is_ascii_digit() && at % 5 != 4 {
                continue;
            }
            let mut text = text.clone().into_bytes();
            text[at] = byte;
            seen[listed(&mut rng, &text) as usize] += 1;
            cases += 4;
        }
    }
    println!("list, a byte replaced: {cases} cases; by refusal number {seen:?}");
    met(&seen, &LISTED);
}

/// Cut anywhere, a byte dropped, a byte put in.
#[test]
fn cut_and_shifted_text() {
    let mut rng = Rng(23);
    let text = format!("    2    1    6\n{}", season().text()).into_bytes();
    let mut cases = 0;
    for at in 0..=text.len() {
        listed(&mut rng, &text[..at]);
        read(&mut rng, &text[16.min(at)..at], [6, 6, 6]);
        read(&mut rng, &text[at..], [6, 6, 6]);
        for byte in [None, Some(b'\n'), Some(b' '), Some(b'1')] {
            let mut other = text.clone();
            match byte {
                None if at < text.len() => drop(other.remove(at)),
                None => {}
                Some(byte) => other.insert(at, byte),
            }
            listed(&mut rng, &other);
            read(&mut rng, &other[16..], [7, 7, 7]);
            cases += 5;
        }
        cases += 6;
    }
    println!("cut and shifted text: {cases} cases");
}

#[test]
fn fields() {
    let mut rng = Rng(24);
    let days = [
        "     ", "    0", "    1", "   00", "   01", "00001", "65535", "65536", "99999", "10000",
        "1    ", " 1 1 ", "1 111", "   -1", "   +1", "  1.0", "\t   1", "    a", "  \0 1",
        "  \n 1", "09999", "    9", "   10", "  100", " 1000", " 9999", "  ١ ",
    ];
    let accounts = [
        "      ", "     0", "     1", "    00", "000000", "065535", "065536", " 65535", " 65536",
        "655350", "999999", "100000", " 99999", "1     ", "   1 1", "    -5", "    5 ", "00000a",
        "65536a", "     a", "  4095", "  4096",
    ];
    let mut seen = [0; 16];
    let mut cases = 0;
    for day in days {
        for first in accounts {
            for second in accounts {
                let line = format!("{day}{first}{second}\n");
                for text in [line.clone(), TWO.to_string() + &line, line + TWO] {
                    seen[read(&mut rng, text.as_bytes(), [3, 3, 3]) as usize] += 1;
                    cases += 1;
                }
            }
        }
    }
    met(&seen, &[OK, BAD_LINE, BAD_FIELD, BAD_NUMBER]);
    // The query line, with and without a row behind it.
    for k in days {
        for ts in days {
            for te in [
                "    1", "    6", "65536", " 0001", "    0", " 1025", "     ",
            ] {
                // Brute force goes through every window: keep ranges short.
                if ts.trim() == "1" || te.trim() == ts.trim() || te.trim() == "6" {
                    listed(&mut rng, format!("{k}{ts}{te}\n").as_bytes());
                    listed(&mut rng, format!("{k}{ts}{te}\n{TWO}").as_bytes());
                    cases += 8;
                }
            }
        }
    }
    println!("fields: {cases} cases");
}

/// Places: the shortest column decides, and columns may differ.
#[test]
fn reader_places() {
    let mut rng = Rng(25);
    let mut cases = 0;
    for lines in 0..4 {
        let text = "    3     1     7\n".repeat(lines);
        for a in 0..6 {
            for b in 0..6 {
                for c in 0..6 {
                    let number = read(&mut rng, text.as_bytes(), [a, b, c]);
                    let expected = if a.min(b).min(c) < lines { NO_ROOM } else { OK };
                    assert_eq!(number, expected);
                    // A broken line is found before the places are counted.
                    let broken = text.clone() + "    3     1    07\n";
                    let number = read(&mut rng, broken.as_bytes(), [a, b, c]);
                    assert_eq!(number, BAD_FIELD);
                    cases += 2;
                }
            }
        }
    }
    // Long text: the reader has no limit of its own.
    let text = "    3     1     7\n".repeat(20_000);
    let enough = read(&mut rng, text.as_bytes(), [20_000, 20_001, 20_000]);
    assert_eq!(enough, OK);
    let short = read(&mut rng, text.as_bytes(), [20_000, 19_999, 20_000]);
    assert_eq!(short, NO_ROOM);
    println!("reader places: {cases} cases");
}

/// A number of 16 bits: of each number of digits, often the first or the last.
fn some_number(rng: &mut Rng) -> u16 {
    let digits = [
        (0, 9),
        (10, 99),
        (100, 999),
        (1_000, 9_999),
        (10_000, 65_535),
    ];
    let (low, high) = rng.pick(&digits);
    let number = match rng.below(4) {
        0 => low,
        1 => high,
        _ => rng.from(low, high),
    };
    number as u16
}

/// Columns of these lengths with any numbers: mostly no table.
fn some_columns(rng: &mut Rng, lengths: [usize; 3]) -> Owned {
    let [days, first, second] =
        lengths.map(|length| (0..length).map(|_| some_number(rng)).collect());
    Owned {
        days,
        first,
        second,
    }
}

/// Text space: 1 comes before 10, one byte too few is a 10, and what is left
/// over is kept.
#[test]
fn writer_places() {
    let mut rng = Rng(28);
    let mut cases = 0;
    for a in 0..5 {
        for b in 0..5 {
            for c in 0..5 {
                let table = some_columns(&mut rng, [a, b, c]);
                for space in 0..=18 * 5 {
                    let expected = if a != b || b != c {
                        COLUMNS_DIFFER
                    } else if space < 18 * a {
                        NO_ROOM
                    } else {
                        OK
                    };
                    assert_eq!(write(&mut rng, &table, space), expected);
                    cases += 1;
                }
            }
        }
    }
    println!("writer places: {cases} cases");
}

/// Every number of 16 bits once in each column: more rows than a table has.
#[test]
fn each_number_written() {
    let mut rng = Rng(29);
    let days: Vec<u16> = (0..=65_535).collect();
    let table = Owned {
        first: days.iter().rev().copied().collect(),
        second: days.iter().map(|day| day.rotate_left(3)).collect(),
        days,
    };
    let space = table_text_for(65_536);
    assert_eq!(write(&mut rng, &table, space), OK);
    assert_eq!(write(&mut rng, &table, space + 1), OK);
    assert_eq!(write(&mut rng, &table, space - 1), NO_ROOM);
}

/// Random columns, mostly of one length: text space for them, a byte or a line
/// less, none, and more.
#[test]
fn random_columns() {
    let mut rng = Rng(30);
    let mut seen = [0; 16];
    let tables = 10_000;
    for _ in 0..tables {
        let rows = rng.below(12);
        let lengths = [rows; 3].map(|rows| some_length(&mut rng, rows));
        let table = some_columns(&mut rng, lengths);
        let room = table_text_for(table.rows());
        let less = |bytes| room.saturating_sub(bytes);
        for space in [room, less(1), less(18), 0, room + 1, room + 40] {
            seen[write(&mut rng, &table, space) as usize] += 1;
        }
    }
    println!("write_table: {tables} random tables, 6 spaces each; by refusal number {seen:?}");
    met(&seen, &[OK, COLUMNS_DIFFER, NO_ROOM]);
}

/// Random rows as text, most with a byte or two replaced. Some are still text of
/// a table, another one: it comes out as it is.
#[test]
fn random_rows() {
    let mut rng = Rng(31);
    let mut seen = [0; 16];
    let mut damaged = 0;
    let cases = 40_000;
    for _ in 0..cases {
        let rows = rng.below(8);
        let whole = some_columns(&mut rng, [rows; 3]).text().into_bytes();
        let mut text = whole.clone();
        for _ in 0..rng.below(3).min(rows) {
            let at = rng.below(text.len());
            text[at] = rng.pick(b"  0123456789\nx");
        }
        let number = read(&mut rng, &text, [rows; 3]);
        seen[number as usize] += 1;
        damaged += u32::from(number == OK && text != whole);
    }
    println!("read_table: {cases} random texts; by refusal number {seen:?}");
    println!("read_table: {damaged} damaged texts read, and written again");
    assert!(damaged > 1_000, "{damaged} damaged texts read");
    met(&seen, &[OK, BAD_LINE, BAD_FIELD, BAD_NUMBER]);
}

/// Random tables as text, valid and damaged, with random damage of bytes.
#[test]
fn random_listings() {
    let mut rng = Rng(26);
    let mut seen = [0; 16];
    let cases = 10_000;
    for _ in 0..cases {
        let mut table = small_table(&mut rng, 14);
        if rng.once_in(5) {
            damage(&mut rng, &mut table);
        }
        let rows = table
            .days
            .len()
            .min(table.first.len())
            .min(table.second.len());
        table.days.truncate(rows);
        let range = some_range(&mut rng, &table);
        let (ts, te) = (range.start(), range.end());
        let Query { k } = some_query(&mut rng);
        let mut text = format!("{k:>5}{ts:>5}{te:>5}\n{}", table.text()).into_bytes();
        if rng.once_in(4) {
            let at = rng.below(text.len());
            if at >= 16 {
                text[at] = rng.pick(b" 019\nx");
            }
        }
        if rng.once_in(10) {
            text.pop();
        }
        seen[listed(&mut rng, &text) as usize] += 1;
    }
    println!("list: {cases} random texts, 4 rooms each; by refusal number {seen:?}");
    met(&seen, &LISTED);
}

/// Triangles on days 2 to 64, and one that opens on day 1 and closes on day
/// `close`: 63 * 64 / 2 + 65 - close rings, all found without brute force.
fn triangles(close: u16) -> Owned {
    let mut rows = vec![(1, 4, 5), (1, 4, 6), (close, 5, 6)];
    for day in 2..=64 {
        rows.extend([(day, 1, 2), (day, 1, 3), (day, 2, 3)]);
    }
    Owned::sorted(&rows)
}

#[test]
fn the_lists_room_is_2048_rings() {
    for (close, rings) in [(34, 2_047), (33, 2_048), (32, 2_049), (2, 2_079)] {
        let text = format!("    2    1   64\n{}", triangles(close).text());
        let mut output = vec![b'#'; 22 * 2_100];
        let got = list(text.as_bytes(), &mut output);
        if rings <= 2_048 {
            assert_eq!((got.number, got.place), (OK, 0));
            assert_eq!(got.count, 22 * (1 + rings));
            let end = got.count as usize;
            assert_eq!(brute::list_text(text.as_bytes()).unwrap(), output[..end]);
            assert!(output[end..].iter().all(|&byte| byte == b'#'));
            let exact = list(text.as_bytes(), &mut output[..end]);
            assert_eq!(exact, got);
            let short = list(text.as_bytes(), &mut output[..end - 1]);
            assert_eq!((short.number, short.place, short.count), (NO_ROOM, 0, 0));
        } else {
            assert_eq!((got.number, got.place, got.count), (NO_ROOM, 0, 0));
            assert!(output.iter().all(|&byte| byte == b'#'));
        }
    }
}

/// 18,448 bytes are read, 18,449 are not, whatever they are.
#[test]
fn the_programs_bytes() {
    let row = "    7     1     2\n";
    let full = String::from("    1    1    9\n") + &row.repeat(1_024);
    assert_eq!(full.len(), 18_448);
    let mut output = vec![b'#'; 100];
    let got = list(full.as_bytes(), &mut output);
    assert_eq!((got.number, got.place, got.count), (OK, 0, 44));
    assert_eq!(
        &output[..44],
        b"start  end span  rows\n    7    7    1  1024\n"
    );
    for extra in ["\n", " ", "x", row] {
        let over = full.clone() + extra;
        let got = list(over.as_bytes(), &mut output);
        assert_eq!((got.number, got.place, got.count), (TOO_LARGE, 0, 0));
    }
    // Before any line is read.
    let noise = vec![b'x'; 18_449];
    let got = list(&noise, &mut output);
    assert_eq!((got.number, got.place, got.count), (TOO_LARGE, 0, 0));
    let got = list(&noise[..18_448], &mut output);
    assert_eq!((got.number, got.place, got.count), (BAD_LINE, 1, 0));
    // The last line of a full text.
    let mut last = full.clone().into_bytes();
    last[18_447] = b' ';
    let got = list(&last, &mut output);
    assert_eq!((got.number, got.place, got.count), (BAD_LINE, 1_025, 0));
    let got = list(&full.as_bytes()[..18_447], &mut output);
    assert_eq!((got.number, got.place, got.count), (BAD_LINE, 1_025, 0));
    let mut day = full.into_bytes();
    day[16 + 18 * 1_023 + 4] = b'6';
    let got = list(&day, &mut output);
    assert_eq!((got.number, got.place, got.count), (DAY_FALLS, 1_025, 0));
}

/// Which refusal comes first, and its line.
#[test]
fn order_of_the_programs_refusals() {
    let mut rng = Rng(27);
    let cases = [
        ("", BAD_LINE, 1),
        ("\n", BAD_LINE, 1),
        ("    2    1    6", BAD_LINE, 1),
        ("    2    1    6\n", OK, 0),
        ("    2    1    6 \n", BAD_LINE, 1),
        ("   2     1    6\n", BAD_FIELD, 1),
        ("65536    1     \n", BAD_FIELD, 1),
        ("65536    1    6\n", BAD_NUMBER, 1),
        ("65536    1    6\n\n", BAD_NUMBER, 1),
        ("    0    9    6\n\n", BAD_LINE, 2),
        (
            "    0    9    6\n    1     1     2\n    0     1\n",
            BAD_LINE,
            3,
        ),
        ("    0    9    6\n    0     1     2\n", BAD_DAY, 2),
        (
            "    0    9    6\n    1     1     2\n    1     2     2\n",
            BAD_ACCOUNTS,
            3,
        ),
        (
            "    0    9    6\n    2     1     2\n    1     1     2\n",
            DAY_FALLS,
            3,
        ),
        (
            "    0    9    6\n    2     1     2\n    1     2     1\n",
            BAD_ACCOUNTS,
            3,
        ),
        (
            "    0    9    6\n    2     1     2\n    2     1     2\n",
            BAD_K,
            0,
        ),
        (
            "    1    9    6\n    2     1     2\n    2     1     2\n",
            BAD_RANGE,
            0,
        ),
        ("    1    0    6\n", BAD_RANGE, 0),
        ("    1    1 1025\n", BAD_RANGE, 0),
        (" 4096    1    6\n", BAD_K, 0),
        (" 4095    1    6\n", OK, 0),
        (
            "    1    1    6\n    1     1 65536\n    0     1     2\n",
            BAD_NUMBER,
            2,
        ),
        ("    1    1    6\n    1 65536    02\n", BAD_FIELD, 2),
        ("    1    1    6\n    1     1 65535\n", BAD_ACCOUNTS, 2),
        ("    1    1    6\n 1024     0  4095\n", OK, 0),
        ("    1    1    6\n 1025     0  4095\n", BAD_DAY, 2),
        ("    1    1    6\n    1     0  4096\n", BAD_ACCOUNTS, 2),
        ("    1    1    6\n    1     1     2\r\n", BAD_LINE, 2),
        ("    1    1    6\n    1     1     2\n\n", BAD_LINE, 3),
        (
            "    1    1    6\n    1     1     2\n    1     1     3",
            BAD_LINE,
            3,
        ),
    ];
    for (text, number, line) in cases {
        let mut output = [b'#'; 100];
        let got = list(text.as_bytes(), &mut output);
        assert_eq!((got.number, got.place), (number, line), "{text:?}");
        listed(&mut rng, text.as_bytes());
    }
}
