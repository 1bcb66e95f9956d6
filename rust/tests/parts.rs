//! The texts of rows, kept names, SQL names and SQL texts.

mod common;

use common::{hex, kept, text, text_row};
use pgrxsc::{
    check_text, is_text, kept_name, name_start, row_text, sql_name, sql_text, Refusal, Row, Sort,
    LIMIT, MOST_KEPT, SQL_TEXT_SIZE,
};

const FIFTEEN: Refusal = Refusal::new(15, 0);

#[test]
fn row_texts() {
    let bytes = "aé€𐍈".as_bytes();
    assert_eq!(row_text(bytes, text_row(0, 10)), Ok("aé€𐍈"));
    assert_eq!(row_text(bytes, text_row(1, 5)), Ok("é€"));
    assert_eq!(row_text(bytes, text_row(10, 0)), Ok(""));

    // It leaves the bytes.
    assert_eq!(row_text(bytes, text_row(0, 11)), Err(FIFTEEN));
    assert_eq!(row_text(bytes, text_row(10, 1)), Err(FIFTEEN));
    assert_eq!(row_text(bytes, text_row(11, 0)), Err(FIFTEEN));
    assert_eq!(row_text(bytes, text_row(u32::MAX, u32::MAX)), Err(FIFTEEN));
    assert_eq!(row_text(bytes, text_row(2, u32::MAX)), Err(FIFTEEN));
    assert_eq!(row_text(&[], text_row(0, 0)), Ok(""));

    // It cuts a character.
    assert_eq!(row_text(bytes, text_row(2, 1)), Err(FIFTEEN));
    assert_eq!(row_text(bytes, text_row(0, 2)), Err(FIFTEEN));

    // It is of another sort.
    for sort in [Sort::Kind, Sort::Tag, Sort::Flag, Sort::Number, Sort::Count] {
        assert_eq!(row_text(bytes, Row::new(sort, 0, 1)), Err(FIFTEEN));
        assert_eq!(sql_name(bytes, Row::new(sort, 0, 1)), Err(FIFTEEN));
        assert_eq!(kept_name(bytes, Row::new(sort, 0, 1)), Err(FIFTEEN));
    }
}

#[test]
fn a_row_text_is_a_part_of_the_bytes() {
    let bytes = b"some text";
    let part = row_text(bytes, text_row(5, 4)).unwrap();
    assert!(std::ptr::eq(part.as_bytes(), &bytes[5..]));
}

/// Asserts that so many bytes of a name are kept: of a row amid bytes that are no text, and of the
/// name alone.
fn keeps(name: &str, expected: usize) {
    let bytes = [&[0xff, 0xc3], name.as_bytes(), &[0x80, 0xff]].concat();
    let part = kept_name(&bytes, text_row(2, name.len() as u32)).unwrap();
    assert_eq!(part, &name[..expected], "{name}");
    assert!(std::ptr::eq(part.as_bytes(), &bytes[2..2 + expected]));
    assert_eq!(check_text(name.as_bytes()), Some(expected), "{name}");
}

#[test]
fn kept_names_of_ascii() {
    let name = "a".repeat(200);
    for len in 0..=63 {
        keeps(&name[..len], len);
    }
    for len in 64..=200 {
        keeps(&name[..len], 63);
    }
    assert_eq!(MOST_KEPT, 63);
}

/// The first and the last character of two, of three and of four bytes, and one between them.
const LONG_CHARACTERS: [char; 9] = [
    '\u{80}',
    'é',
    '\u{7ff}',
    '\u{800}',
    '€',
    '\u{ffff}',
    '\u{10000}',
    '𐍈',
    '\u{10ffff}',
];

#[test]
fn kept_names_of_longer_characters() {
    for character in LONG_CHARACTERS {
        let size = character.len_utf8();
        for before in 0..=70 {
            // The name ends with the character.
            let mut name = format!("{:a<before$}{character}", "");
            let end = before + size;
            let cut = if before < 63 && 63 < end { before } else { 63 };
            keeps(&name, if end <= 63 { end } else { cut });
            // It goes on.
            name.push_str(&"b".repeat(80));
            keeps(&name, cut);
        }
    }
}

/// Names in which every character is a long one, so that byte 63 is at every place inside them.
#[test]
fn kept_names_without_ascii() {
    for first in LONG_CHARACTERS {
        for second in LONG_CHARACTERS {
            let mut name = String::from(first);
            while name.len() <= 80 {
                keeps(&name, kept(&name));
                name.push(second);
            }
        }
    }
    keeps(&"é".repeat(32), 62);
    keeps(&"€".repeat(21), 63);
    keeps(&"€".repeat(22), 63);
    keeps(&"𐍈".repeat(16), 60);
}

/// All of a text is tested, also behind the cut.
#[test]
fn a_bad_byte_anywhere() {
    let good = [b'a'; 130];
    for at in 0..good.len() {
        for byte in [0x80, 0xbf, 0xc0, 0xc3, 0xff] {
            let mut bytes = good;
            bytes[at] = byte;
            assert_eq!(kept_name(&bytes, text_row(0, 130)), Err(FIFTEEN), "{at}");
            assert_eq!(check_text(&bytes), None, "{at}");
            // It is before the row, or after it.
            let (before, after) = (text_row(0, at as u32), text_row(at as u32 + 1, 0));
            assert_eq!(kept_name(&bytes, before).unwrap().len(), at.min(63));
            assert_eq!(kept_name(&bytes, after), Ok(""));
        }
    }
    // The row's end cuts a character, and what is kept is well before it.
    let bytes = [&good[..], "𐍈".as_bytes()].concat();
    for len in 131..134 {
        assert_eq!(kept_name(&bytes, text_row(0, len)), Err(FIFTEEN));
        assert_eq!(check_text(&bytes[..len as usize]), None);
    }
    assert_eq!(kept_name(&bytes, text_row(0, 134)).unwrap().len(), 63);
}

/// A kept name is the beginning of the row's text, and is refused where the text is.
#[test]
fn kept_names_of_all_rows() {
    let bytes = "aé€𐍈".repeat(9).into_bytes();
    let end = bytes.len() as u32;
    let far = [u32::MAX - 1, u32::MAX];
    for offset in (0..=end + 1).chain(far) {
        for len in (0..=end + 1).chain(far) {
            for sort in [Sort::Text, Sort::Count] {
                let row = Row::new(sort, offset, len);
                let expected = row_text(&bytes, row).map(|text| &text[..kept(text)]);
                assert_eq!(kept_name(&bytes, row), expected, "{row:?}");
            }
        }
    }
    assert_eq!(kept_name(&bytes, text_row(end, 0)), Ok(""));
    assert_eq!(kept_name(&bytes, text_row(end, 1)), Err(FIFTEEN));
    assert_eq!(kept_name(&bytes, text_row(end + 1, 0)), Err(FIFTEEN));
    assert_eq!(kept_name(&[], text_row(0, 0)), Ok(""));
    assert_eq!(kept_name(&[], text_row(0, 1)), Err(FIFTEEN));
}

/// The text check against that of the standard library, at every cut of some bytes.
#[test]
fn text_checks() {
    let bytes = [
        "aé€𐍈".repeat(9).as_bytes(),
        b"\xed\x9f\xbf\xee\x80\x80\xf4\x8f\xbf\xbf",
        b"\xed\xa0\x80",
        "a".repeat(70).as_bytes(),
        b"\xc0\x80\xf4\x90\x80\x80\xff",
        "𐍈é€".repeat(9).as_bytes(),
    ]
    .concat();
    let mut answers = [0, 0];
    for start in 0..=bytes.len() {
        for end in start..=bytes.len() {
            let part = &bytes[start..end];
            let expected = std::str::from_utf8(part).ok().map(kept);
            assert_eq!(check_text(part), expected, "{part:?}");
            assert_eq!(check_text(part).is_some(), is_text(part));
            answers[usize::from(expected.is_some())] += 1;
        }
    }
    assert!(answers.into_iter().all(|answers| answers > 1000));
}

#[test]
fn a_check_of_long_text() {
    let mut text = vec![b'a'; LIMIT + 1];
    assert_eq!(check_text(&text), Some(63));
    text[62..64].copy_from_slice("é".as_bytes());
    assert_eq!(check_text(&text), Some(62));
    text.push(0xc3);
    assert_eq!(check_text(&text), None);
    text.push(0xa9);
    assert_eq!(check_text(&text), Some(62));
}

#[test]
fn sql_names() {
    for (name, expected) in [
        ("a:::b", ":b"),
        ("a::", ""),
        ("a", "a"),
        ("a:b", "a:b"),
        ("", ""),
        ("::", ""),
        ("::::x", "x"),
        ("a::b::c", "c"),
        ("a::b:", "b:"),
        ("é::ü", "ü"),
    ] {
        // The row is not at the start of the bytes, and colons stand around it.
        let bytes = format!("::{name}::z");
        let row = text_row(2, name.len() as u32);
        assert_eq!(sql_name(bytes.as_bytes(), row), Ok(expected), "{name}");
    }
    assert_eq!(sql_name(b"a::b", text_row(1, 4)), Err(FIFTEEN));
    assert_eq!(sql_name(b"a::\xff", text_row(0, 4)), Err(FIFTEEN));
}

#[test]
fn starts_of_sql_names() {
    for (name, expected) in [
        ("", 0),
        ("add", 0),
        ("my_schema::add", 11),
        ("a::", 3),
        ("a:::b", 3),
        ("::::", 4),
        ("a:b", 0),
        ("é::é:", 4),
        (":é:", 0),
    ] {
        assert_eq!(name_start(name.as_bytes()), Some(expected), "{name}");
        let part = sql_name(name.as_bytes(), text_row(0, name.len() as u32));
        assert_eq!(part, Ok(&name[expected..]), "{name}");
    }
    for name in [
        &b"a::\xff"[..],
        b"\xff::a",
        b"a::\xc3",
        b"\xc3::a",
        b":\x80:",
    ] {
        assert_eq!(name_start(name), None, "{name:?}");
    }
}

#[test]
fn starts_in_long_names() {
    let mut name = vec![b'a'; LIMIT + 1];
    assert_eq!(name_start(&name), Some(0));
    name.extend(b"::add");
    assert_eq!(name_start(&name), Some(LIMIT + 3));
    name.push(0xc3);
    assert_eq!(name_start(&name), None);
    name.push(0xa9);
    assert_eq!(name_start(&name), Some(LIMIT + 3));
}

#[test]
fn sql_texts_in_the_bytes() {
    let bytes = [vec![0xff; 3], vec![1], text("INT[]"), vec![0xff]].concat();
    let mut buffer = [0xee; SQL_TEXT_SIZE];
    let part = sql_text(&bytes, 3, &mut buffer).unwrap();
    assert_eq!(part, "INT[]");
    assert!(std::ptr::eq(part.as_bytes(), &bytes[8..13]));
    assert_eq!(buffer, [0xee; SQL_TEXT_SIZE]);
}

#[test]
fn sql_texts_in_the_buffer() {
    for (mapping, expected) in [
        ("03 00 00000000 00 00000000", "NUMERIC"),
        ("03 00 07000000 00 09000000", "NUMERIC"),
        ("03 01 0a000000 00 02000000", "NUMERIC(10)"),
        ("03 01 00000000 01 00000000", "NUMERIC(0, 0)"),
        (
            "03 01 ffffffff 01 ffffffff",
            "NUMERIC(4294967295, 4294967295)",
        ),
    ] {
        let mut buffer = [0xee; SQL_TEXT_SIZE];
        assert_eq!(sql_text(&hex(mapping), 0, &mut buffer), Ok(expected));
        assert!(buffer.starts_with(expected.as_bytes()));
        assert!(buffer[expected.len()..].iter().all(|&byte| byte == 0xee));
    }
}

#[test]
fn sql_texts_refused() {
    let mut buffer = [0xee; SQL_TEXT_SIZE];
    for (mapping, offset, number, place) in [
        ("", 0, 5, 0),
        ("05", 2, 5, 2),
        ("05", u32::MAX, 5, u32::MAX as usize),
        ("01 02000000 61", 0, 5, 5),
        ("03 02 00000000 00 00000000", 0, 6, 1),
        ("01 01000000 ff", 0, 7, 5),
        ("06", 0, 9, 0),
        ("00 02 05", 1, 9, 2),
        ("00 05", 1, 10, 1),
        ("04", 0, 10, 0),
        ("02 01 01000000 61", 0, 10, 0),
    ] {
        let refusal = sql_text(&hex(mapping), offset, &mut buffer).unwrap_err();
        assert_eq!(refusal, Refusal::new(number, place), "{mapping}");
    }
    assert_eq!(buffer, [0xee; SQL_TEXT_SIZE]);
}

#[test]
fn sql_text_buffer_of_another_size() {
    let numeric = hex("03 00 00000000 00 00000000");
    let literal = hex("01 01000000 61");
    for size in [0, 1, 7, 30, 32, 100] {
        let mut buffer = vec![0xee; size];
        for mapping in [&numeric, &literal] {
            let refusal = sql_text(mapping, 0, &mut buffer).unwrap_err();
            assert_eq!(refusal, Refusal::new(17, 0), "{size}");
        }
        assert_eq!(buffer, vec![0xee; size]);
        // Only a mapping that has an SQL text gets so far.
        let refusal = sql_text(&[5], 0, &mut buffer).unwrap_err();
        assert_eq!(refusal, Refusal::new(10, 0));
    }
}

#[test]
fn too_many_bytes() {
    let bytes = vec![b'a'; LIMIT + 1];
    let one = Refusal::new(1, 0);
    let mut buffer = [0; SQL_TEXT_SIZE];
    assert_eq!(row_text(&bytes, text_row(0, 1)), Err(one));
    assert_eq!(kept_name(&bytes, text_row(0, 1)), Err(one));
    assert_eq!(kept_name(&bytes, Row::new(Sort::Flag, 0, 1)), Err(one));
    assert_eq!(sql_name(&bytes, text_row(0, 1)), Err(one));
    assert_eq!(sql_text(&bytes, 0, &mut buffer), Err(one));
    assert_eq!(row_text(&bytes[1..], text_row(0, 1)), Ok("a"));
    assert_eq!(kept_name(&bytes[1..], text_row(0, 1)), Ok("a"));
    let all = text_row(0, LIMIT as u32);
    assert_eq!(kept_name(&bytes[1..], all).unwrap().len(), 63);
}

#[test]
fn texts() {
    let cases: [(&[u8], bool); 10] = [
        (b"", true),
        (b"plain", true),
        ("é€𐍈".as_bytes(), true),
        (b"\xf4\x8f\xbf\xbf", true),
        (b"\xc0\x80", false),
        (b"\xed\xa0\x80", false),
        (b"\xf4\x90\x80\x80", false),
        (b"\xe2\x82", false),
        (b"\x80", false),
        (b"\xff", false),
    ];
    for (bytes, expected) in cases {
        assert_eq!(is_text(bytes), expected, "{bytes:?}");
    }
}
