//! The notation of the page's sheets as bytes, and records as rows of numbers. Bytes are put
//! together and taken apart here on their own, not by the code under test.

/// A byte that no record under test shows by accident at the places looked at.
pub const MARK: u8 = 0xA5;

/// The bytes of a sheet as the page writes it: "desk/duration/release/due, ...; a>b+handover, ...".
pub fn sheet(text: &str) -> Vec<u8> {
    let (pieces, links) = text.split_once(';').unwrap_or((text, ""));
    let mut file = Vec::new();
    for text in pieces.split(',').map(str::trim).filter(|text| !text.is_empty()) {
        let fields: Vec<u32> = text.split('/').map(|field| field.parse().unwrap()).collect();
        let [desk, duration, release, due] = fields[..] else { panic!("not a piece: {text}") };
        file.extend(piece(desk as u8, duration as u16, release, due));
    }
    for text in links.split(',').map(str::trim).filter(|text| !text.is_empty()) {
        let (before, rest) = text.split_once('>').unwrap();
        let (after, handover) = rest.split_once('+').unwrap();
        let number = |text: &str| text.parse().unwrap();
        file.extend(link(number(before), number(after), number(handover)));
    }
    file
}

pub fn piece(desk: u8, duration: u16, release: u32, due: u32) -> Vec<u8> {
    let front = [&[1, desk][..], &duration.to_le_bytes()].concat();
    [&front[..], &release.to_le_bytes(), &due.to_le_bytes(), &[0; 4]].concat()
}

pub fn link(before: u16, after: u16, handover: u16) -> Vec<u8> {
    let fields = [before.to_le_bytes(), after.to_le_bytes(), handover.to_le_bytes()].concat();
    [&[2, 0][..], &fields, &[0; 8]].concat()
}

/// The record with one byte put in.
pub fn with(mut record: Vec<u8>, place: usize, byte: u8) -> Vec<u8> {
    record[place] = byte;
    record
}

/// A record that a call writes: kind, desk, number and three fields.
pub type Row = (u8, u8, u16, i32, i32, i32);

pub fn rows(buffer: &[u8]) -> Vec<Row> {
    buffer.chunks_exact(16).map(row).collect()
}

fn row(record: &[u8]) -> Row {
    let field = |at: usize| i32::from_le_bytes(record[at..at + 4].try_into().unwrap());
    let number = u16::from_le_bytes([record[2], record[3]]);
    (record[0], record[1], number, field(4), field(8), field(12))
}

pub fn bytes(rows: &[Row]) -> Vec<u8> {
    let record = |&(kind, desk, number, first, second, third): &Row| {
        let fields = [first, second, third].map(i32::to_le_bytes).concat();
        [&[kind, desk][..], &number.to_le_bytes(), &fields].concat()
    };
    rows.iter().flat_map(record).collect()
}

/// A buffer of just the length asked for the pieces, and some bytes more, all marked.
pub fn marked(pieces: usize, more: usize) -> Vec<u8> {
    vec![MARK; 48 * pieces + more]
}

/// The rows at the front of the buffer; everything behind them must still be marked.
pub fn front_rows(buffer: &[u8], count: usize) -> Vec<Row> {
    let (front, behind) = buffer.split_at(16 * count);
    assert!(behind.iter().all(|&byte| byte == MARK), "bytes behind the records changed");
    rows(front)
}
