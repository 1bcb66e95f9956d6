//! What rows spell, by the layouts alone: the answer that a writer of payloads or sections has to give, and the bytes.
use crate::layouts::Reading;
use crate::what::What;
use pgrxsc::{Refusal, Row, Sort, LIMIT, ROW_WIDTH};

/// What is written of rows, whose texts stand in `text`, to a destination that is long enough; or the refusal.
pub fn written(what: What, numbers: &[u32], text: &[u8]) -> Result<Vec<u8>, Refusal> {
    let rows = spelled(what, numbers).ok_or(Refusal::new(14, 0))?;
    let texts = texts(&rows, text).ok_or(Refusal::new(15, 0))?;
    let len = |texts: &[&[u8]]| texts.iter().map(|text| text.len() as u64).sum::<u64>();
    // Beside the texts' own bytes there are a few for each row and each entry
    if len(&texts) > LIMIT as u64 {
        return Err(Refusal::new(16, 0));
    }
    let bytes = bytes(what, &rows, &texts);
    if bytes.len() > LIMIT {
        return Err(Refusal::new(16, 0));
    }
    Ok(bytes)
}

/// The rows, if they are those of what is to be written. Their bytes with empty texts are read then, and give the same rows; but
/// not if a row is missing, is left, or is another than is due there.
fn spelled(what: What, numbers: &[u32]) -> Option<Vec<Row>> {
    if numbers.is_empty() || numbers.len() % ROW_WIDTH != 0 {
        return None;
    }
    let rows = numbers.chunks_exact(ROW_WIDTH).map(|row| row.try_into().ok().and_then(Row::from_numbers));
    let rows: Vec<Row> = rows.collect::<Option<_>>()?;
    let one_byte = |row: &Row| matches!(row.sort, Sort::Kind | Sort::Tag | Sort::Flag);
    if rows.iter().any(|row| one_byte(row) && row.value > 255) {
        return None;
    }
    let texts = rows.iter().filter(|row| row.sort == Sort::Text).map(|_| [].as_slice()).collect::<Vec<_>>();
    let mut reading = Reading::default();
    reading.read(what, &bytes(what, &rows, &texts)).ok()?;
    let plain = |row: &Row| (row.sort, if row.sort == Sort::Text { 0 } else { row.value });
    reading.rows.iter().map(plain).eq(rows.iter().map(plain)).then_some(rows)
}

/// The texts of the text rows, if all are texts.
fn texts<'a>(rows: &[Row], text: &'a [u8]) -> Option<Vec<&'a [u8]>> {
    let rows = rows.iter().filter(|row| row.sort == Sort::Text);
    let texts = rows.map(|row| {
        let start = row.offset as usize;
        text.get(start..start + row.value as usize).filter(|text| std::str::from_utf8(text).is_ok())
    });
    texts.collect()
}

/// The bytes of rows with these texts. In a section each kind begins an entry; without one at the start it begins with no entry.
fn bytes(what: What, rows: &[Row], texts: &[&[u8]]) -> Vec<u8> {
    let (mut bytes, mut texts, mut entry) = (Vec::new(), texts.iter(), None);
    for row in rows {
        if what == What::Section && row.sort == Sort::Kind {
            let before = entry.replace(bytes.len());
            close(&mut bytes, before);
            bytes.extend([0; 4]);
        }
        match row.sort {
            Sort::Kind | Sort::Tag | Sort::Flag => bytes.push(row.value as u8),
            Sort::Number | Sort::Count => bytes.extend(row.value.to_le_bytes()),
            Sort::Text => {
                let text = texts.next().expect("a text for each text row");
                bytes.extend((text.len() as u32).to_le_bytes());
                bytes.extend(*text);
            }
        }
    }
    close(&mut bytes, entry);
    bytes
}

/// Stores the length of an entry that ends here.
fn close(bytes: &mut [u8], entry: Option<usize>) {
    if let Some(start) = entry {
        let len = (bytes.len() - start - 4) as u32;
        bytes[start..start + 4].copy_from_slice(&len.to_le_bytes());
    }
}
