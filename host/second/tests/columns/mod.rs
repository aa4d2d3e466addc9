//! The columns of a case of cases.txt, for every test that runs them.

/// A row: the ten numbers of a record, and its line.
type Row = [i64; 11];

/// The bytes that an escaped column stands for.
pub fn bytes(column: &str) -> Vec<u8> {
    let mut parts = column.split("\\x");
    let mut out = parts.next().unwrap_or("").as_bytes().to_vec();
    for part in parts {
        let (code, rest) = part.split_at(2);
        out.push(u8::from_str_radix(code, 16).expect("two hexadecimal digits"));
        out.extend_from_slice(rest.as_bytes());
    }
    out
}

/// The column that stands for some bytes.
pub fn column(bytes: &[u8]) -> String {
    let one = |&byte: &u8| match byte {
        b'\\' => "\\x5C".to_string(),
        b' '..=b'~' => char::from(byte).to_string(),
        _ => format!("\\x{byte:02X}"),
    };
    bytes.iter().map(one).collect()
}

/// Makes a column's edits in rows, and gives the room for the text if one is named.
pub fn edit(rows: &mut [Row], edits: &str) -> Option<usize> {
    let mut room = None;
    for edit in edits.split(',') {
        let (place, value) = edit.split_once('=').expect("an edit");
        match place.strip_prefix('r').and_then(|place| place.split_once('c')) {
            Some((row, column)) => {
                let at = |number: &str| number.parse::<usize>().expect("a place from 1") - 1;
                rows[at(row)][at(column)] = value.parse().expect("a number");
            }
            None => room = Some(value.parse().expect("a room")),
        }
    }
    room
}
