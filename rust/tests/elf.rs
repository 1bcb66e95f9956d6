//! Sections of ELF files, which are built by the ELF specification.

#[allow(dead_code)]
#[path = "../examples/list.rs"]
mod list;

use pgrxsc::builder::{Builder, Function, Schema};
use pgrxsc::{
    find_section, read_section, section_range, Refusal, RefusalKind, Table, ELF_SECTION_NAME, LIMIT,
};
use std::ops::Range;

const EIGHTEEN: Refusal = Refusal::new(18, 0);
const NINETEEN: Refusal = Refusal::new(19, 0);
const TWENTY: Refusal = Refusal::new(20, 0);

// Types of sections.
const PROGBITS: u32 = 1;
const STRTAB: u32 = 3;
const NOBITS: u32 = 8;

// Fields of the file header.
const CLASS: Range<usize> = 4..5;
const BYTE_ORDER: Range<usize> = 5..6;
const HEADERS_OFFSET: Range<usize> = 40..48;
const HEADER_SIZE: Range<usize> = 58..60;
const HEADER_COUNT: Range<usize> = 60..62;
const NAMES_INDEX: Range<usize> = 62..64;

// Fields of a section header.
const NAME: Range<usize> = 0..4;
const TYPE: Range<usize> = 4..8;
const OFFSET: Range<usize> = 24..32;
const SIZE: Range<usize> = 32..40;

/// An ELF file. After the file header it has the bytes of the sections, the section name table and
/// the section headers: that of index 0, then those of the sections, the last for the section name
/// table.
#[derive(Clone)]
struct Elf {
    bytes: Vec<u8>,
    /// Where the section headers begin.
    headers: usize,
}

impl Elf {
    /// The file of sections that are given by name, type and bytes.
    fn new(sections: &[(&str, u32, &[u8])]) -> Elf {
        let mut bytes = vec![0; 64];
        bytes[..7].copy_from_slice(b"\x7fELF\x02\x01\x01");
        let mut names = vec![0];
        let mut headers = vec![(0, 0, 0, 0)];
        for &(name, kind, content) in sections {
            headers.push((names.len(), kind, bytes.len(), content.len()));
            names.extend(name.as_bytes());
            names.push(0);
            if kind != NOBITS {
                bytes.extend(content);
            }
        }
        let name = names.len();
        names.extend(b".shstrtab\0");
        headers.push((name, STRTAB, bytes.len(), names.len()));
        bytes.extend(names);

        let mut elf = Elf {
            headers: bytes.len(),
            bytes,
        };
        elf.set(16..18, 3); // a shared object
        elf.set(18..20, 62); // for x86-64
        elf.set(20..24, 1); // the version of the format
        elf.set(HEADERS_OFFSET, elf.headers as u64);
        elf.set(52..54, 64); // the size of the file header
        elf.set(HEADER_SIZE, 64);
        elf.set(HEADER_COUNT, headers.len() as u64);
        elf.set(NAMES_INDEX, headers.len() as u64 - 1);
        elf.bytes.resize(elf.headers + 64 * headers.len(), 0);
        for (index, (name, kind, offset, size)) in headers.into_iter().enumerate() {
            elf.set(elf.header(index, NAME), name as u64);
            elf.set(elf.header(index, TYPE), kind.into());
            elf.set(elf.header(index, OFFSET), offset as u64);
            elf.set(elf.header(index, SIZE), size as u64);
        }
        elf
    }

    /// Where a field of the section header of an index stands.
    fn header(&self, index: usize, field: Range<usize>) -> Range<usize> {
        let start = self.headers + 64 * index;
        start + field.start..start + field.end
    }

    fn get(&self, field: Range<usize>) -> u64 {
        let bytes = self.bytes[field].iter().rev();
        bytes.fold(0, |number, &byte| 256 * number + u64::from(byte))
    }

    fn set(&mut self, field: Range<usize>, value: u64) {
        let len = field.len();
        self.bytes[field].copy_from_slice(&value.to_le_bytes()[..len]);
    }

    /// The file with another value in a field.
    fn with(&self, field: Range<usize>, value: u64) -> Elf {
        let mut elf = self.clone();
        elf.set(field, value);
        elf
    }

    fn find(&self, name: &str) -> Result<&[u8], Refusal> {
        find_section(&self.bytes, name)
    }
}

#[test]
fn found() {
    let elf = Elf::new(&[
        (".text", PROGBITS, b"code"),
        (".empty", PROGBITS, b""),
        (".pgrxsc", PROGBITS, b"schema"),
        (".note", 7, b"a note"),
    ]);
    assert_eq!(elf.find(".text"), Ok(&b"code"[..]));
    assert_eq!(elf.find(".empty"), Ok(&b""[..]));
    assert_eq!(elf.find(ELF_SECTION_NAME), Ok(&b"schema"[..]));
    assert_eq!(elf.find(".note"), Ok(&b"a note"[..]));
    let names = b"\0.text\0.empty\0.pgrxsc\0.note\0.shstrtab\0";
    assert_eq!(elf.find(".shstrtab"), Ok(&names[..]));
    assert_eq!(elf.find(".data"), Err(TWENTY));
}

#[test]
fn a_section_is_a_part_of_the_file() {
    fn schema_section(file: &[u8]) -> &[u8] {
        let name = String::from(".pgrxsc");
        find_section(file, &name).unwrap()
    }
    let elf = Elf::new(&[(".text", PROGBITS, b"code"), (".pgrxsc", PROGBITS, b"abc")]);
    assert!(std::ptr::eq(schema_section(&elf.bytes), &elf.bytes[68..71]));
}

#[test]
fn names_of_many_types() {
    let elf = Elf::new(&[(".text", PROGBITS, b"code")]);
    let expected = Ok(&b"code"[..]);
    assert_eq!(find_section(&elf.bytes, ".text"), expected);
    assert_eq!(find_section(&elf.bytes, b".text"), expected);
    assert_eq!(find_section(&elf.bytes, &b".text"[..]), expected);
    assert_eq!(find_section(&elf.bytes, String::from(".text")), expected);
}

#[test]
fn names_that_are_not_utf8() {
    let mut elf = Elf::new(&[("..", PROGBITS, b"a"), (".b", PROGBITS, b"b")]);
    let names = elf.get(elf.header(3, OFFSET)) as usize;
    elf.bytes[names + 1..names + 3].copy_from_slice(b"\xff\xc3");
    assert_eq!(find_section(&elf.bytes, b"\xff\xc3"), Ok(&b"a"[..]));
    assert_eq!(elf.find(".b"), Ok(&b"b"[..]));
}

#[test]
fn the_first_of_equal_names() {
    let elf = Elf::new(&[
        (".a", PROGBITS, b"other"),
        (".b", PROGBITS, b"first"),
        (".b", PROGBITS, b"second"),
    ]);
    assert_eq!(elf.find(".b"), Ok(&b"first"[..]));

    // It is the first also where it cannot be given.
    let bad = elf.with(elf.header(2, OFFSET), u64::MAX);
    assert_eq!(bad.find(".b"), Err(NINETEEN));
}

#[test]
fn sections_without_bytes() {
    let first = Elf::new(&[(".b", NOBITS, b"none"), (".b", PROGBITS, b"some")]);
    assert_eq!(first.find(".b"), Err(TWENTY));
    let second = Elf::new(&[(".b", PROGBITS, b"some"), (".b", NOBITS, b"none")]);
    assert_eq!(second.find(".b"), Ok(&b"some"[..]));

    // Where such a section ends does not matter.
    let long = first.with(first.header(1, SIZE), u64::MAX);
    assert_eq!(long.find(".b"), Err(TWENTY));

    // All of the type's four bytes count.
    for kind in [0, 7, 9, 0x0100_0008, u64::from(u32::MAX)] {
        let other = first.with(first.header(1, TYPE), kind);
        let start = other.get(other.header(1, OFFSET)) as usize;
        assert_eq!(other.find(".b"), Ok(&other.bytes[start..start + 4]));
    }
}

#[test]
fn header_0_has_no_name() {
    let mut elf = Elf::new(&[(".a", PROGBITS, b"a"), (".b", PROGBITS, b"b")]);
    for field in [NAME, TYPE, OFFSET, SIZE] {
        let value = elf.get(elf.header(2, field.clone()));
        elf.set(elf.header(0, field), value);
    }
    assert_eq!(elf.find(".b"), Ok(&b"b"[..]));
    elf.set(elf.header(2, NAME), 1);
    assert_eq!(elf.find(".b"), Err(TWENTY));
    assert_eq!(elf.find(".a"), Ok(&b"a"[..]));

    let alone = elf.with(HEADER_COUNT, 1).with(NAMES_INDEX, 0);
    assert_eq!(alone.find(".b"), Err(TWENTY));
}

/// The section name table may be that of header 0, and its type is not looked at.
#[test]
fn any_section_name_table() {
    let mut elf = Elf::new(&[(".a", PROGBITS, b"a"), (".names", PROGBITS, b"?.a\0x\0")]);
    elf.set(elf.header(1, NAME), 4);
    assert_eq!(elf.find("x"), Err(TWENTY));
    let other = elf.with(NAMES_INDEX, 2);
    assert_eq!(other.find("x"), Ok(&b"a"[..]));
    assert_eq!(other.find(".a"), Err(TWENTY));

    let mut zero = elf.with(NAMES_INDEX, 0);
    assert_eq!(zero.find("x"), Err(TWENTY));
    for field in [OFFSET, SIZE] {
        let value = zero.get(zero.header(2, field.clone()));
        zero.set(zero.header(0, field), value);
    }
    assert_eq!(zero.find("x"), Ok(&b"a"[..]));
    let without_bytes = zero.with(zero.header(0, TYPE), NOBITS.into());
    assert_eq!(without_bytes.find("x"), Ok(&b"a"[..]));
}

#[test]
fn whole_names() {
    let elf = Elf::new(&[(".rela.text", 4, b"rela"), (".data", PROGBITS, b"data")]);
    for name in [".rela.tex", ".rela", ".rela.text2", "rela.text", ".text"] {
        assert_eq!(elf.find(name), Err(TWENTY), "{name}");
    }

    // A name may be the end of another one.
    let elf = elf.with(elf.header(2, NAME), 1 + 5);
    assert_eq!(elf.find(".text"), Ok(&b"data"[..]));
    assert_eq!(elf.find(".rela.text"), Ok(&b"rela"[..]));
    assert_eq!(elf.find(".data"), Err(TWENTY));
}

#[test]
fn names_inside_the_table() {
    let elf = Elf::new(&[(".a", PROGBITS, b"a"), (".b", PROGBITS, b"b")]);
    // The table has 17 bytes: 0, .a, 0, .b, 0, .shstrtab, 0. What is cut off remains in the file.
    let cut = |len| elf.with(elf.header(3, SIZE), len);
    assert_eq!(cut(17).find(".shstrtab"), elf.find(".shstrtab"));
    assert_eq!(cut(16).find(".shstrtab"), Err(TWENTY));
    assert_eq!(cut(7).find(".b"), Ok(&b"b"[..]));
    assert_eq!(cut(6).find(".b"), Err(TWENTY));
    assert_eq!(cut(5).find(".b"), Err(TWENTY));
    assert_eq!(cut(4).find(".b"), Err(TWENTY));
    assert_eq!(cut(4).find(".a"), Ok(&b"a"[..]));
    assert_eq!(cut(0).find(".a"), Err(TWENTY));

    // A header whose name is outside is passed over.
    for name in [17, 18, 1000, u64::from(u32::MAX)] {
        let elf = elf.with(elf.header(1, NAME), name);
        assert_eq!(elf.find(".a"), Err(TWENTY), "{name}");
        assert_eq!(elf.find(".b"), Ok(&b"b"[..]), "{name}");
    }
    // The name given may be longer than the table.
    assert_eq!(elf.find(&".shstrtab".repeat(1000)), Err(TWENTY));
}

#[test]
fn no_names() {
    let elf = Elf::new(&[("", PROGBITS, b"1"), ("a", PROGBITS, b"2"), ("b", 1, b"3")]);
    for name in ["", "\0", "a\0", "\0a", "a\0b", "b\0.shstrtab"] {
        assert_eq!(elf.find(name), Err(TWENTY), "{name:?}");
    }
    assert_eq!(elf.find("a"), Ok(&b"2"[..]));
}

#[test]
fn not_elf64() {
    let elf = Elf::new(&[(".text", PROGBITS, b"code")]);
    for len in 0..64 {
        assert_eq!(find_section(&elf.bytes[..len], ".text"), Err(EIGHTEEN));
    }
    for place in 0..4 {
        let byte = elf.get(place..place + 1);
        let other = elf.with(place..place + 1, byte + 1);
        assert_eq!(other.find(".text"), Err(EIGHTEEN));
    }
    for class in [0, 1, 3, 255] {
        assert_eq!(elf.with(CLASS, class).find(".text"), Err(EIGHTEEN));
    }
    for order in [0, 2, 3, 255] {
        assert_eq!(elf.with(BYTE_ORDER, order).find(".text"), Err(EIGHTEEN));
    }
    for size in [0, 40, 63, 65, 64 + 256] {
        assert_eq!(elf.with(HEADER_SIZE, size).find(".text"), Err(EIGHTEEN));
    }
    assert_eq!(find_section(b"", ""), Err(EIGHTEEN));
    let kind = find_section(b"", "").unwrap_err().kind();
    assert_eq!(kind, Some(RefusalKind::NotElf64));
}

#[test]
fn bad_section_headers() {
    let elf = Elf::new(&[(".a", PROGBITS, b"a"), (".text", PROGBITS, b"code")]);
    let len = elf.bytes.len() as u64;
    let refused = |field: Range<usize>, value| {
        let elf = elf.with(field.clone(), value);
        assert_eq!(elf.find(".text"), Err(NINETEEN), "{field:?} {value}");
    };
    // No section headers.
    refused(HEADER_COUNT, 0);
    // No section name table. The last index is one of extended numbering.
    for index in [4, 5, 0xffff] {
        refused(NAMES_INDEX, index);
    }
    for count in [1, 3] {
        refused(HEADER_COUNT, count);
    }
    // The section header table ends past the file.
    for count in [5, 0xffff] {
        refused(HEADER_COUNT, count);
    }
    let headers = elf.headers as u64;
    for offset in [headers + 1, len, len + 1, headers + (1 << 32), u64::MAX] {
        refused(HEADERS_OFFSET, offset);
    }
    // The section name table does, then the section found.
    for (index, size) in [(3, elf.get(elf.header(3, SIZE))), (2, 4)] {
        for offset in [len - size + 1, len, len + 1, 1 << 63, u64::MAX] {
            refused(elf.header(index, OFFSET), offset);
        }
        let offset = elf.get(elf.header(index, OFFSET));
        for size in [len - offset + 1, len + 1, 1 << 63, u64::MAX] {
            refused(elf.header(index, SIZE), size);
        }
        // These sums are 0 and 5 in 64 bits.
        for size in [offset.wrapping_neg(), offset.wrapping_neg() + 5] {
            refused(elf.header(index, SIZE), size);
        }
    }
    let kind = elf.with(HEADER_COUNT, 0).find(".text").unwrap_err().kind();
    assert_eq!(kind, Some(RefusalKind::BadSectionHeaders));

    // Where another section ends does not matter.
    let other = elf.with(elf.header(1, SIZE), u64::MAX);
    assert_eq!(other.find(".text"), Ok(&b"code"[..]));
    // A section may end where the file does, also an empty one.
    let last = elf.with(elf.header(2, OFFSET), len - 4);
    assert_eq!(last.find(".text"), Ok(&[0; 4][..]));
    let empty = elf.with(elf.header(2, SIZE), 0);
    let last = empty.with(elf.header(2, OFFSET), len);
    assert_eq!(last.find(".text"), Ok(&[][..]));
    let outside = empty.with(elf.header(2, OFFSET), len + 1);
    assert_eq!(outside.find(".text"), Err(NINETEEN));
}

/// With the sum in 64 bits, the section header table would be a part of the file, from 64 bytes
/// before its start on.
#[test]
fn a_header_table_around_the_end_of_numbers() {
    let mut elf = Elf::new(&[(".a", PROGBITS, &[0; 128]), (".text", PROGBITS, b"code")]);
    let last = elf.headers + 2 * 64..elf.headers + 4 * 64;
    elf.bytes.copy_within(last, 64);
    assert_eq!(elf.find(".text"), Ok(&b"code"[..]));
    elf.set(HEADERS_OFFSET, 64_u64.wrapping_neg());
    assert_eq!(elf.find(".text"), Err(NINETEEN));
}

/// The section headers come last in the file, so every file that is cut lacks some of them.
#[test]
fn cut_files() {
    let elf = Elf::new(&[(".text", PROGBITS, b"code")]);
    for len in 64..elf.bytes.len() {
        assert_eq!(find_section(&elf.bytes[..len], ".text"), Err(NINETEEN));
    }
    let longer = [&elf.bytes[..], b"more"].concat();
    assert_eq!(find_section(&longer, ".text"), Ok(&b"code"[..]));
}

#[test]
fn order_of_refusals() {
    let elf = Elf::new(&[(".text", PROGBITS, b"code")]);
    // 18 comes before 19, and 19 before 20.
    let nineteen = elf.with(HEADER_COUNT, 0);
    assert_eq!(nineteen.find(""), Err(NINETEEN));
    assert_eq!(nineteen.with(CLASS, 1).find(""), Err(EIGHTEEN));
    let names = elf.with(elf.header(2, SIZE), u64::MAX);
    for name in ["", "a\0b", ".data"] {
        assert_eq!(names.find(name), Err(NINETEEN), "{name:?}");
    }
    // A section that is not found is not looked at.
    let text = elf.with(elf.header(1, SIZE), u64::MAX);
    assert_eq!(text.find(".data"), Err(TWENTY));
    let kind = text.find(".data").unwrap_err().kind();
    assert_eq!(kind, Some(RefusalKind::NoSuchSection));
}

#[test]
fn many_sections() {
    let names: Vec<String> = (0..6000).map(|index| format!(".section{index}")).collect();
    let sections: Vec<_> = names
        .iter()
        .map(|name| (name.as_str(), PROGBITS, name.as_bytes()))
        .collect();
    let elf = Elf::new(&sections);
    for name in [&names[0], &names[10], &names[255], &names[5999]] {
        assert_eq!(elf.find(name), Ok(name.as_bytes()));
    }
    assert_eq!(elf.find(".section6000"), Err(TWENTY));
}

/// A section of a schema and a function.
fn section() -> Vec<u8> {
    let mut builder = Builder::new();
    builder.add(Schema {
        name: "api",
        ..Schema::default()
    });
    builder.add(Function {
        name: "one",
        ..Function::default()
    });
    builder.to_section().unwrap()
}

#[test]
fn schema_sections() {
    let section = section();
    let elf = Elf::new(&[
        (".text", PROGBITS, b"code"),
        (ELF_SECTION_NAME, PROGBITS, &section),
    ]);
    let found = elf.find(ELF_SECTION_NAME).unwrap();
    let (mut table, mut alone) = (Table::new(), Table::new());
    let reading = table.read_section(found).unwrap();
    assert_eq!(reading.entities().len(), 2);
    assert_eq!(reading.texts().nth(1), Some("api"));

    // Offsets count from the section's start, and so do places.
    assert_eq!(reading.entities().next().unwrap().offset(), 4);
    let expected = alone.read_section(&section).unwrap();
    assert_eq!(reading.numbers(), expected.numbers());
    let mut bad = elf.clone();
    let start = bad.get(bad.header(2, OFFSET)) as usize;
    bad.bytes[start + 4] = 10;
    let found = bad.find(ELF_SECTION_NAME).unwrap();
    let refusal = table.read_section(found).unwrap_err();
    assert_eq!(refusal, Refusal::new(8, 4));
}

#[test]
fn ranges_of_sections() {
    let elf = Elf::new(&[(".text", PROGBITS, b"code"), (".empty", PROGBITS, b"")]);
    assert_eq!(section_range(&elf.bytes, ".text"), Ok(64..68));
    assert_eq!(section_range(&elf.bytes, ".empty"), Ok(68..68));
    assert_eq!(section_range(&elf.bytes, ".data"), Err(TWENTY));
    assert_eq!(section_range(&elf.bytes[..63], ".text"), Err(EIGHTEEN));
    let outside = elf.with(elf.header(1, OFFSET), u64::MAX);
    assert_eq!(section_range(&outside.bytes, ".text"), Err(NINETEEN));
}

/// Positions in a file, as a linker map has them.
#[test]
fn positions_in_files() {
    let section = section();
    let elf = Elf::new(&[
        (".text", PROGBITS, b"code"),
        (ELF_SECTION_NAME, PROGBITS, &section),
    ]);
    let range = section_range(&elf.bytes, ELF_SECTION_NAME).unwrap();
    assert_eq!(range, 68..68 + section.len());
    let mut table = Table::new();
    let directory = table.read_directory(&elf.bytes[range.clone()]).unwrap();
    // The schema has 17 bytes and its name, after the four of its length.
    let function = range.start + 24;
    for position in 0..elf.bytes.len() {
        let inside = position.checked_sub(range.start);
        let found = inside.and_then(|inside| directory.at(inside as u64));
        let expected = match position {
            _ if !range.contains(&position) => None,
            _ if position < function => Some(0),
            _ => Some(1),
        };
        assert_eq!(found.map(|(index, _)| index), expected, "{position}");
    }
}

/// The limit is one for sections, not for files.
#[test]
fn files_above_the_limit() {
    let (long, section) = (vec![1; LIMIT + 1], section());
    let elf = Elf::new(&[
        (".long", PROGBITS, &long),
        (ELF_SECTION_NAME, PROGBITS, &section),
    ]);
    let found = elf.find(ELF_SECTION_NAME).unwrap();
    let mut table = Table::new();
    let reading = table.read_section(found).unwrap();
    assert_eq!(reading.entities().len(), 2);

    let found = elf.find(".long").unwrap();
    assert!(found == long);
    let refusal = read_section(found, &mut []).unwrap_err();
    assert_eq!(refusal, Refusal::new(1, 0));

    let zeros = vec![0; LIMIT];
    let elf = Elf::new(&[(ELF_SECTION_NAME, PROGBITS, &zeros)]);
    let found = elf.find(ELF_SECTION_NAME).unwrap();
    assert!(read_section(found, &mut []).is_ok());
}

#[test]
fn listings() {
    let listing = |file: &[u8]| {
        let mut out = Vec::new();
        list::list(file, &mut out).unwrap();
        String::from_utf8(out).unwrap()
    };
    let section = section();
    let elf = Elf::new(&[(ELF_SECTION_NAME, PROGBITS, &section)]);
    assert!(listing(&section).starts_with("accept 2 "));
    assert_eq!(listing(&elf.bytes), listing(&section));
    assert_eq!(listing(&elf.with(CLASS, 1).bytes), "refuse 18 0\n");
    assert_eq!(listing(&elf.with(HEADER_COUNT, 0).bytes), "refuse 19 0\n");
    assert_eq!(listing(&Elf::new(&[]).bytes), "refuse 20 0\n");
    let bad = Elf::new(&[(ELF_SECTION_NAME, PROGBITS, &[1, 0, 0, 0, 10])]);
    assert_eq!(listing(&bad.bytes), "refuse 8 4\n");

    // As a section, a file that begins so is refused too.
    assert_eq!(listing(b"\x7fELF"), "refuse 18 0\n");
    let refusal = read_section(b"\x7fELF", &mut []).unwrap_err();
    assert_eq!(refusal, Refusal::new(4, 0));
}
