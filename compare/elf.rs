//! `find_section` beside binutils on shared objects, and beside a model of it on damaged copies of them. Built and run by
//! `compare/elf [SEED] [DIR..]`, which gives it the objects' paths on standard input, each followed by a zero byte.
#[allow(dead_code)]
mod common;

use common::Random;
use std::ffi::{c_int, c_void, OsStr};
use std::fs::{self, File};
use std::io::Read;
use std::os::fd::AsRawFd;
use std::os::unix::ffi::OsStrExt;
use std::panic::catch_unwind;
use std::path::{Path, PathBuf};
use std::process::{exit, Command, Stdio};
use std::{ptr, slice};

/// How many damaged files there are at least.
const DAMAGED: usize = 1_000_000;

/// The most bytes of a file that is damaged, of one whose sections are dumped, and of one of which all sections are.
const MOST_DAMAGED: usize = 1 << 20;
const MOST_DUMPED: usize = 8 << 20;
const ALL_DUMPED: usize = 48 << 10;

/// How far an object is moved at least.
const FAR: usize = 1 << 32;

/// readelf may cut a name of this length or more.
const LONG: usize = 128;

/// Where objcopy dumps sections.
const DUMPS: &str = "target/compare_elf.dump";

/// A section's start and length, or a refusal's number and place.
type Answer = Result<(usize, usize), (u32, usize)>;

fn refused(number: u32) -> Answer {
    Err((number, 0))
}

fn ours(file: &[u8], name: &[u8]) -> Answer {
    match pgrxsc::find_section(file, name) {
        Ok(section) => Ok(((section.as_ptr() as usize).wrapping_sub(file.as_ptr() as usize), section.len())),
        Err(refusal) => Err((refusal.number(), refusal.place())),
    }
}

/// The model: a little-endian number.
fn number(bytes: &[u8]) -> u128 {
    bytes.iter().rev().fold(0, |number, &byte| number * 256 + u128::from(byte))
}

/// The model: a part of the file, unless it ends past it. No sum of two 64-bit numbers wraps.
fn part(file: &[u8], start: u128, len: u128) -> Option<&[u8]> {
    (start + len <= file.len() as u128).then(|| &file[start as usize..][..len as usize])
}

/// The model: where a header says that its section starts, and how long it is.
fn extent(header: &[u8]) -> (u128, u128) {
    (number(&header[24..32]), number(&header[32..40]))
}

/// The model: the name at an offset, if that and the zero byte after the name are inside the name table.
fn name_at(names: &[u8], offset: u128) -> Option<&[u8]> {
    let rest = names.get(usize::try_from(offset).ok()?..)?;
    rest.iter().position(|&byte| byte == 0).map(|end| &rest[..end])
}

/// The model of `find_section`.
fn model(file: &[u8], name: &[u8]) -> Answer {
    if file.len() < 64 || file[..6] != *b"\x7fELF\x02\x01" || number(&file[58..60]) != 64 {
        return refused(18);
    }
    let (table, count, index) = (number(&file[40..48]), number(&file[60..62]), number(&file[62..64]));
    if count == 0 || index >= count {
        return refused(19);
    }
    let Some(table) = part(file, table, 64 * count) else { return refused(19) };
    let (start, len) = extent(&table[64 * index as usize..]);
    let Some(names) = part(file, start, len) else { return refused(19) };
    if name.is_empty() || name.contains(&0) {
        return refused(20);
    }
    let mut headers = table.chunks(64).skip(1);
    let Some(header) = headers.find(|header| name_at(names, number(&header[..4])) == Some(name)) else { return refused(20) };
    if number(&header[4..8]) == 8 {
        return refused(20);
    }
    let (start, len) = extent(header);
    part(file, start, len).map_or(refused(19), |_| Ok((start as usize, len as usize)))
}

extern "C" {
    fn mmap(at: *mut c_void, len: usize, protection: c_int, flags: c_int, file: c_int, offset: i64) -> *mut c_void;
    fn mprotect(at: *mut c_void, len: usize, protection: c_int) -> c_int;
    fn munmap(at: *mut c_void, len: usize) -> c_int;
}

/// Mapped memory, of which changes go to no file.
struct Memory {
    start: *mut u8,
    len: usize,
}

impl Memory {
    /// `len` bytes of the file, or of none.
    fn new(len: usize, file: Option<&File>) -> Self {
        let (read_write, private, anonymous, unreserved) = (1 | 2, 2, 0x20, 0x4000);
        let (flags, file) = file.map_or((private | anonymous | unreserved, -1), |file| (private, file.as_raw_fd()));
        // SAFETY: a new mapping overlaps nothing.
        let start = unsafe { mmap(ptr::null_mut(), len.max(1), read_write, flags, file, 0) };
        assert!(start as isize != -1, "no memory for {len} bytes: {}", std::io::Error::last_os_error());
        Memory { start: start.cast(), len }
    }

    fn of_file(path: &Path) -> Self {
        let file = File::open(path).unwrap_or_else(|error| panic!("{}: {error}", path.display()));
        Memory::new(file.metadata().expect("the file's length").len() as usize, Some(&file))
    }

    /// Memory for copies, of which only pages that are used take room, with a page after it that cannot be read.
    fn guarded() -> Self {
        let (guard, no_access) = (4096, 0);
        let mut memory = Memory::new(FAR + MOST_DAMAGED + guard, None);
        memory.len -= guard;
        // SAFETY: the page is the mapping's last, and not in a slice.
        assert!(unsafe { mprotect(memory.start.add(memory.len).cast(), guard, no_access) } == 0, "no guard page");
        memory
    }

    fn bytes(&mut self) -> &mut [u8] {
        // SAFETY: this is the mapping, or all before its guard page.
        unsafe { slice::from_raw_parts_mut(self.start, self.len) }
    }

    /// A copy of the bytes that ends where the memory does, so that reading past it crashes.
    fn copy(&mut self, bytes: &[u8]) -> &mut [u8] {
        let start = self.len - bytes.len();
        let copy = &mut self.bytes()[start..];
        copy.copy_from_slice(bytes);
        copy
    }
}

impl Drop for Memory {
    fn drop(&mut self) {
        // SAFETY: no slice of it is left. The guard page, if any, stays.
        unsafe { munmap(self.start.cast(), self.len.max(1)) };
    }
}

/// A section header as readelf prints it.
struct Header {
    /// None if it may differ from what is printed.
    name: Option<Vec<u8>>,
    nobits: bool,
    start: usize,
    len: usize,
    /// Whether objcopy can dump the section.
    dumps: bool,
}

impl Header {
    /// Of the two lines: the name, then the type, the address, the start, the length and others.
    fn new(name: &str, line: &str) -> Option<Self> {
        let words: Vec<_> = line.split_whitespace().collect();
        let address = words.iter().position(|word| word.len() == 16 && u64::from_str_radix(word, 16).is_ok())?;
        let number = |i: usize| usize::from_str_radix(words.get(address + i)?, 16).ok();
        let (start, len, nobits) = (number(1)?, number(2)?, words[0] == "NOBITS");
        let loaded = number(0)? > 0;
        let dumps = (loaded || words[0] == "PROGBITS") && !nobits && len > 0 && !name.contains(['=', '*', '?', '[', '!', '\\']);
        // Bytes that cannot be printed are shown as ^A or <80>.
        let name = (name.len() < LONG && !name.contains(['^', '<'])).then(|| name.as_bytes().to_vec());
        Some(Header { name, nobits, start, len, dumps })
    }

    /// Where the section ends; far past the file if that is no 64-bit number.
    fn end(&self) -> usize {
        self.start.saturating_add(self.len)
    }
}

/// An ELF file as readelf shows it.
struct Object {
    path: PathBuf,
    len: usize,
    /// Where the header table starts.
    table: usize,
    /// The index of the name table's header.
    index: usize,
    headers: Vec<Header>,
}

impl Object {
    /// The object, or the number by which the file is refused whatever the name.
    fn new(path: &Path, file: &[u8]) -> Result<Self, u32> {
        if !file.starts_with(b"\x7fELF") {
            return Err(18);
        }
        // With -t each name is on a line of its own. Warnings are left out.
        let mut readelf = Command::new("readelf");
        readelf.args(["-h", "-t", "-W"]).arg(path).env("LC_ALL", "C").stderr(Stdio::null());
        let text = String::from_utf8(readelf.output().expect("readelf runs").stdout).expect("readelf prints ASCII");
        let field = |title| text.lines().find_map(|line| line.trim_start().strip_prefix(title)).map_or("", str::trim);
        let number = |title| field(title).split_whitespace().next().and_then(|word| word.parse::<usize>().ok()).unwrap_or(0);
        let (class, order, size) = (field("Class:"), field("Data:"), number("Size of section headers:"));
        if class != "ELF64" || !order.ends_with("little endian") || size != 64 {
            return Err(18);
        }
        let (table, count) = (number("Start of section headers:"), number("Number of section headers:"));
        let index = number("Section header string table index:");
        if count == 0 || index >= count || table.saturating_add(64 * count) > file.len() {
            return Err(19);
        }
        let mut headers = Vec::new();
        let mut lines = text.lines();
        while let Some(line) = lines.next() {
            if let Some((number, name)) = line.strip_prefix("  [").and_then(|line| line.split_once("] ")) {
                if number.trim().parse() == Ok(headers.len()) {
                    headers.extend(lines.next().and_then(|line| Header::new(name, line)));
                }
            }
        }
        assert!(headers.len() == count, "readelf's line of header {} is unclear: {}", headers.len(), path.display());
        if headers[index].end() > file.len() {
            return Err(19);
        }
        Ok(Object { path: path.to_owned(), len: file.len(), table, index, headers })
    }

    /// The first header of a name.
    fn first(&self, name: &[u8]) -> Option<&Header> {
        self.headers[1..].iter().find(|header| !name.is_empty() && header.name.as_deref() == Some(name))
    }

    /// What readelf's headers say of a name.
    fn answer(&self, name: &[u8]) -> Answer {
        match self.first(name) {
            None => refused(20),
            Some(header) if header.nobits => refused(20),
            Some(header) if header.end() > self.len => refused(19),
            Some(header) => Ok((header.start, header.len)),
        }
    }

    fn names(&self) -> impl Iterator<Item = &[u8]> {
        self.headers[1..].iter().filter_map(|header| header.name.as_deref()).filter(|name| !name.is_empty())
    }

    /// The empty name, each name with a byte less or more, and with a zero byte.
    fn neighbours(&self) -> Vec<Vec<u8>> {
        let mut neighbours = vec![vec![], vec![0]];
        for (name, next) in self.names().zip(self.names().skip(1).chain([&b"x"[..]])) {
            neighbours.extend([&name[1..], &name[..name.len() - 1]].map(<[u8]>::to_vec));
            neighbours.extend([[name, b"x"], [b"x", name], [name, name]].map(|two| two.concat()));
            neighbours.extend([[name, b"\0", b""], [b"", b"\0", name], [name, b"\0", next]].map(|three| three.concat()));
        }
        neighbours.retain(|name| name.len() < LONG);
        neighbours
    }

    /// Where a file cut may be refused otherwise: at its start and around the ends of its tables and sections.
    fn cuts(&self) -> Vec<usize> {
        let starts = self.headers.iter().map(|header| header.start);
        let ends = self.headers.iter().map(Header::end);
        let places = starts.chain(ends).chain([self.table, self.table + 64 * self.headers.len()]);
        let mut cuts: Vec<_> = places.flat_map(|place| [place.saturating_sub(1), place, place.saturating_add(1)]).collect();
        cuts.extend(0..=65);
        cuts.retain(|&cut| cut < self.len);
        cuts.sort_unstable();
        cuts.dedup();
        cuts
    }
}

/// A copy that is damaged in place, and what was there before.
struct Damage<'a> {
    file: &'a mut [u8],
    object: &'a Object,
    before: Vec<(usize, u8)>,
}

impl Damage<'_> {
    fn set(&mut self, at: usize, bytes: &[u8]) {
        for (at, &byte) in (at..).zip(bytes) {
            if at < self.file.len() && self.file[at] != byte {
                self.before.push((at, self.file[at]));
                self.file[at] = byte;
            }
        }
    }

    fn get(&self, at: usize, len: usize) -> Vec<u8> {
        (at..at + len).map(|at| self.file.get(at).map_or(0, |&byte| byte)).collect()
    }

    fn undo(&mut self) {
        while let Some((at, byte)) = self.before.pop() {
            self.file[at] = byte;
        }
    }

    /// Sets the bytes at a place to another number. `beside` is what the number is added to.
    fn renumber(&mut self, at: usize, len: usize, beside: u64, random: &mut Random) {
        let old = number(&self.get(at, len)) as u64;
        let near = random.below(3) as u64;
        let new = match random.below(9) {
            0 => near,
            1 => old.wrapping_add(1),
            2 => old.wrapping_sub(1),
            3 => u64::MAX - near,
            4 => random.next(),
            5 => random.below(self.file.len() + 2) as u64,
            6 => old ^ 1 << random.below(8 * len),
            // The sum is about the file's length, or about 2 to the 64th.
            7 => (self.file.len() as u64 + near).wrapping_sub(beside).wrapping_sub(1),
            _ => near.wrapping_sub(beside).wrapping_sub(1),
        };
        self.set(at, &new.to_le_bytes()[..len]);
    }

    fn change_byte(&mut self, at: usize, random: &mut Random) {
        let old = self.get(at, 1)[0];
        let new = [0, 255, old.wrapping_add(1), old.wrapping_sub(1), random.next() as u8][random.below(5)];
        self.set(at, &[new]);
    }

    /// Changes something that `find_section` looks at, and answers the header whose name is worth asking for.
    fn change(&mut self, random: &mut Random) -> usize {
        let Object { table, index, ref headers, .. } = *self.object;
        let (names, count) = (&headers[index], headers.len());
        let (i, j) = (if random.below(4) == 0 { index } else { random.below(count) }, random.below(count));
        let (header, other) = (table + 64 * i, table + 64 * j);
        match random.below(17) {
            0 => self.change_byte(random.below(64), random),
            1 => self.renumber(40, 8, 64 * count as u64, random),
            2 => self.renumber([58, 60, 60, 60, 62, 62, 62][random.below(7)], 2, 0, random),
            3 => self.change_byte(header + random.below(64), random),
            4 => self.renumber(header, 4, 0, random),
            5 => {
                let types = [8, 0, 1, 0x108, 8 << 8, 8 << 24, 1 << 31 | 8, random.next() as u32];
                self.set(header + 4, &types[random.below(types.len())].to_le_bytes());
            }
            6 | 7 => self.renumber(header + 24, 8, number(&self.get(header + 32, 8)) as u64, random),
            8 | 9 => self.renumber(header + 32, 8, number(&self.get(header + 24, 8)) as u64, random),
            10 | 11 => {
                for _ in 0..=random.below(3) {
                    self.change_byte(names.start + random.below(names.len.max(1)), random);
                }
            }
            12 => {
                // The name table ends about where a name does.
                let name_len = headers[i].name.as_ref().map_or(0, Vec::len);
                let end = number(&self.get(header, 4)) as u64 + (name_len + random.below(3)) as u64;
                self.set(table + 64 * index + 32, &end.to_le_bytes());
            }
            13 => {
                let (one, two) = (self.get(header, 64), self.get(other, 64));
                self.set(header, &two);
                self.set(other, &one);
            }
            // A name stands twice.
            14 => self.set(other, &self.get(header, 4)),
            15 => self.set(other, &self.get(header, 64)),
            _ => {
                // Another header is that of the name table.
                let j = random.below(2) * j;
                self.set(62, &(j as u16).to_le_bytes());
                self.set(table + 64 * j, &self.get(table + 64 * index, 64));
            }
        }
        i
    }
}

#[derive(Default)]
struct Counts {
    refused: [u64; 2],
    objects: u64,
    unclear: u64,
    sections: u64,
    absent: u64,
    dumped: u64,
    undumped: u64,
    moved: u64,
    certain: u64,
    damaged: u64,
    answers: [u64; 4],
    differences: u64,
}

impl Counts {
    /// Compares our answer with another's.
    fn compare(&mut self, file: &[u8], name: &[u8], answer: Answer, title: impl Fn() -> String) {
        let ours = catch_unwind(|| ours(file, name)).unwrap_or_else(|_| {
            println!("panics: {}, name {}", title(), name.escape_ascii());
            exit(1)
        });
        if ours != answer {
            self.differ(|| format!("{}, name {}: ours {}, not {}", title(), name.escape_ascii(), shown(ours), shown(answer)));
        }
    }

    /// Counts a difference, of which the first are printed.
    fn differ(&mut self, text: impl Fn() -> String) {
        self.differences += 1;
        if self.differences <= 20 {
            println!("differs: {}", text());
        }
    }

    /// Compares all names with what readelf prints.
    fn compare_headers(&mut self, file: &[u8], object: &Object) {
        let title = || format!("{} and readelf", object.path.display());
        for name in object.names() {
            self.compare(file, name, object.answer(name), title);
            self.sections += 1;
        }
        for name in object.neighbours() {
            self.compare(file, &name, object.answer(&name), title);
            self.absent += u64::from(object.first(&name).is_none());
        }
        self.unclear += object.headers.iter().filter(|header| header.name.is_none()).count() as u64;
    }

    /// Compares the bytes of some sections with those that objcopy dumps.
    fn compare_bytes(&mut self, file: &[u8], object: &Object, random: &mut Random) {
        let once = |name: &[u8]| object.names().filter(|&other| other == name).count() == 1;
        let sections = object.headers[1..].iter().filter(|header| header.dumps && header.end() <= object.len);
        let mut names: Vec<_> = sections.filter_map(|header| header.name.as_deref()).filter(|name| once(name)).collect();
        while file.len() > ALL_DUMPED && names.len() > 3 {
            names.swap_remove(random.below(names.len()));
        }
        if file.len() > MOST_DUMPED || names.is_empty() {
            return;
        }
        let mut objcopy = Command::new("objcopy");
        for (i, name) in names.iter().enumerate() {
            let dump = [name, format!("={DUMPS}/{i}").as_bytes()].concat();
            objcopy.arg("--dump-section").arg(OsStr::from_bytes(&dump));
        }
        objcopy.arg(&object.path).arg("/dev/null").stderr(Stdio::null()).status().expect("objcopy runs");
        for (i, name) in names.iter().enumerate() {
            let dump = format!("{DUMPS}/{i}");
            let Ok(bytes) = fs::read(&dump) else {
                self.undumped += 1;
                continue;
            };
            fs::remove_file(dump).expect("the dump can be removed");
            self.dumped += 1;
            if pgrxsc::find_section(file, name) != Ok(&bytes[..]) {
                self.differ(|| format!("{}, section {}: objcopy dumps other bytes", object.path.display(), name.escape_ascii()));
            }
        }
    }

    /// Damages of which the answer is known.
    fn refuse(&mut self, file: &mut [u8], object: &Object) {
        let found = |name: &&[u8]| object.answer(name).is_ok_and(|(_, len)| len > 0);
        let Some((name, section)) = object.names().find(found).and_then(|name| Some((name, object.first(name)?))) else { return };
        let count = object.headers.len() as u16;
        let mut changes: Vec<(usize, Vec<u8>, u32)> = Vec::new();
        for at in 0..6 {
            changes.extend([1, 2, 0x20, 0x80, 0xff].map(|flip| (at, vec![file[at] ^ flip], 18)));
        }
        changes.extend([0u16, 40, 56, 63, 65, 0x140, 0x4000, 0xffff].map(|size| (58, size.to_le_bytes().to_vec(), 18)));
        changes.push((60, vec![0, 0], 19));
        changes.extend([count, u16::MAX].map(|index| (62, index.to_le_bytes().to_vec(), 19)));
        for (at, bytes, number) in changes {
            let before = file[at..][..bytes.len()].to_vec();
            file[at..][..bytes.len()].copy_from_slice(&bytes);
            self.compare(file, name, refused(number), || format!("{} with {bytes:02x?} at byte {at}", object.path.display()));
            file[at..][..bytes.len()].copy_from_slice(&before);
            self.certain += 1;
        }
        let ends = [object.table + 64 * object.headers.len(), object.headers[object.index].end(), section.end()];
        for cut in (0..64).chain(ends.into_iter().filter(|&end| end > 64).map(|end| end - 1)) {
            let number = if cut < 64 { 18 } else { 19 };
            self.compare(&file[..cut], name, refused(number), || format!("{} cut to {cut} bytes", object.path.display()));
            self.certain += 1;
        }
    }

    /// Compares the names with all but the file header moved to the end of the memory.
    fn compare_moved(&mut self, original: &[u8], object: &Object, memory: &mut Memory) {
        let (file, by) = (memory.bytes(), FAR + MOST_DAMAGED - object.len);
        file[..64].copy_from_slice(&original[..64]);
        file[by..].copy_from_slice(original);
        let places = (0..object.headers.len()).map(|i| by + object.table + 64 * i + 24);
        for place in places.chain([40]) {
            let field = &mut file[place..place + 8];
            field.copy_from_slice(&(number(field) as u64).saturating_add(by as u64).to_le_bytes());
        }
        for name in object.names() {
            let answer = object.answer(name).map(|(start, len)| (start + by, len));
            self.compare(file, name, answer, || format!("{} moved by {by} bytes", object.path.display()));
            self.moved += 1;
        }
    }

    /// Compares the answers of a damaged file with the model's.
    fn compare_damaged(&mut self, damage: &Damage, names: &[&[u8]]) {
        self.damaged += 1;
        for name in names {
            let answer = model(damage.file, name);
            self.answers[answer.map_or_else(|(number, _)| number as usize - 17, |_| 0)] += 1;
            self.compare(damage.file, name, answer, || {
                let changes: Vec<_> = damage.before.iter().map(|&(at, _)| format!("{at}: {:02x}", damage.file[at])).collect();
                let (path, len) = (damage.object.path.display(), damage.file.len());
                format!("{path}, {len} bytes of it, with bytes {changes:?}, and the model")
            });
        }
    }

    /// Compares the copies that are cut, alone and with something changed, and `rounds` whole ones with something changed.
    fn damage(&mut self, original: &[u8], object: &Object, rounds: usize, memory: &mut Memory, random: &mut Random) {
        let (names, neighbours): (Vec<_>, _) = (object.names().collect(), object.neighbours());
        for cut in object.cuts() {
            let three = [0; 3].map(|_| names[random.below(names.len())]);
            let mut damage = Damage { file: memory.copy(&original[..cut]), object, before: Vec::new() };
            self.compare_damaged(&damage, &three);
            damage.change(random);
            if !damage.before.is_empty() {
                self.compare_damaged(&damage, &three);
            }
        }
        let mut damage = Damage { file: memory.copy(original), object, before: Vec::new() };
        for _ in 0..rounds {
            let mut changed = 0;
            while damage.before.is_empty() || random.below(2) == 0 {
                changed = damage.change(random);
            }
            let name = object.headers[changed].name.as_deref().unwrap_or_default();
            let (other, neighbour) = (names[random.below(names.len())], &neighbours[random.below(neighbours.len())]);
            self.compare_damaged(&damage, &[name, name.get(1..).unwrap_or_default(), other, neighbour]);
            damage.undo();
        }
    }

    /// Prints what was compared, and ends.
    fn print(self, seed: u64) -> ! {
        let [other, headerless] = self.refused;
        println!("{} objects; {other} other files refused with 18, {headerless} with 19", self.objects);
        println!("{} sections and {} absent names by readelf", self.sections, self.absent);
        println!("{} sections left out, whose names readelf does not print as they are", self.unclear);
        println!("{} sections with the bytes that objcopy dumps; {} that it cannot dump", self.dumped, self.undumped);
        println!("{} sections moved past 4 GiB", self.moved);
        println!("{} damages with a refusal that is certain", self.certain);
        let [found, no_elf, outside, absent] = self.answers;
        println!("{} damaged files (seed {seed}), and the answers of the model:", self.damaged);
        println!("{no_elf} refusals 18, {outside} refusals 19, {absent} refusals 20, {found} sections found");
        println!("{} differences", self.differences);
        let compared = [self.objects, self.sections, self.absent, self.dumped, self.moved, self.certain];
        let enough = !compared.iter().chain(&self.answers).any(|&count| count == 0) && self.damaged >= DAMAGED as u64;
        if !enough {
            println!("too little was compared");
        }
        exit((self.differences > 0 || !enough).into());
    }
}

fn shown(answer: Answer) -> String {
    match answer {
        Ok((start, len)) => format!("{len} bytes at {start}"),
        Err((number, place)) => format!("refusal {number} at {place}"),
    }
}

fn main() {
    let seed = std::env::args().nth(1).map_or(103, |seed| seed.parse().expect("a number as seed"));
    let mut random = Random(seed | 1);
    let mut counts = Counts::default();
    let mut list = Vec::new();
    std::io::stdin().read_to_end(&mut list).expect("a list of paths");
    let _ = fs::remove_dir_all(DUMPS);
    fs::create_dir_all(DUMPS).expect("a folder for dumps");

    let mut objects = Vec::new();
    for path in list.split(|&byte| byte == 0).filter(|path| !path.is_empty()) {
        let path = Path::new(OsStr::from_bytes(path));
        let mut memory = Memory::of_file(path);
        let file = memory.bytes();
        match Object::new(path, file) {
            Ok(object) => {
                counts.objects += 1;
                counts.compare_headers(file, &object);
                counts.compare_bytes(file, &object, &mut random);
                counts.refuse(file, &object);
                if object.len <= MOST_DAMAGED && object.names().next().is_some() {
                    objects.push(object);
                }
            }
            Err(number) => {
                counts.refused[number as usize - 18] += 1;
                for name in [&b".text"[..], b".shstrtab", b"", b"\0"] {
                    counts.compare(file, name, refused(number), || format!("{} and readelf", path.display()));
                }
            }
        }
    }
    fs::remove_dir_all(DUMPS).expect("the dumps can be removed");

    let mut memory = Memory::guarded();
    for object in &objects {
        let mut original = Memory::of_file(&object.path);
        counts.compare_moved(original.bytes(), object, &mut memory);
        counts.damage(original.bytes(), object, DAMAGED.div_ceil(objects.len()), &mut memory, &mut random);
    }
    counts.print(seed);
}
