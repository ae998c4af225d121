//! Bytes and words as hexadecimal text, for a case that failed.

use second::Tables;

/// Two digits for each byte.
pub fn of_bytes(bytes: &[u8]) -> String {
    bytes.iter().map(|byte| format!("{byte:02x}")).collect()
}

/// The bytes of a text of digits, if it is one.
pub fn bytes_of(text: &str) -> Option<Vec<u8>> {
    let digits: Option<Vec<u8>> = text
        .chars()
        .filter(|letter| !letter.is_whitespace())
        .map(|letter| letter.to_digit(16).map(|digit| digit as u8))
        .collect();
    let digits = digits?;
    let pairs = digits.chunks_exact(2);
    let whole = pairs.remainder().is_empty();
    whole.then(|| pairs.map(|pair| 16 * pair[0] + pair[1]).collect())
}

/// A line for each table, eight digits for each word.
pub fn of_tables(tables: &Tables) -> String {
    let line = |name: &str, words: &[u32]| {
        let words: Vec<String> = words.iter().map(|word| format!(" {word:08x}")).collect();
        format!("{name}:{}\n", words.concat())
    };
    [
        line("points", &tables.points),
        line("polygons", &tables.polygons),
        line("vertices", &tables.vertices),
        line("names", &tables.names),
        format!("name bytes: {}\n", of_bytes(&tables.name_bytes)),
        line("records", &tables.records),
    ]
    .concat()
}

#[cfg(test)]
mod tests {
    use super::*;

    #[test]
    fn bytes_come_back() {
        assert_eq!(of_bytes(&[0, 0x4f, 0xff]), "004fff");
        assert_eq!(bytes_of("004F ff"), Some(vec![0, 0x4f, 0xff]));
        assert_eq!(bytes_of("4"), None);
        assert_eq!(bytes_of("4g"), None);
    }

    #[test]
    fn tables_have_a_line_each() {
        let tables = Tables {
            polygons: vec![1, 2],
            name_bytes: vec![0x61],
            ..Tables::default()
        };
        let text = "points:\npolygons: 00000001 00000002\nvertices:\nnames:\n\
                    name bytes: 61\nrecords:\n";
        assert_eq!(of_tables(&tables), text);
    }
}
