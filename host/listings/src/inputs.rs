//! The files that the program is run on, each with a name.

use cases::accepted::accepted;
use cases::boundary;
use cases::files::files;
use cases::targeted::targeted;

/// A name and the bytes.
pub type Input = (String, Vec<u8>);

const READINGS: &str = include_str!("../../second/tests/readings.txt");
const SAMPLE_000: &str = include_str!("../../second/tests/sample-000.hex");
const CASE_L: &[u8] = include_bytes!("../../../samples/oak.lwo");
const PANEL: &[u8] = include_bytes!("../../../samples/panel.lwo");
const HORSE: &[u8] = include_bytes!("../../../samples/horse.lwo");

/// "The program's input: at most 65,536 bytes."
const MOST_BYTES: usize = 65_536;

/// The files that are the same in every run.
pub fn fixed() -> impl Iterator<Item = Input> {
    let mut list = samples();
    list.extend(readings());
    list.extend(plain_lengths());
    let bounds = boundary::small().into_iter().chain(boundary::large());
    list.extend(bounds.map(|one| (format!("boundary {}", one.name), one.file)));
    let targets = targeted().into_iter();
    list.extend(targets.map(|one| (format!("targeted {}", one.name), one.file)));
    let good = accepted().into_iter();
    list.extend(good.map(|one| (format!("accepted {}", one.name), one.file)));
    list.into_iter()
}

/// Valid, mutated, targeted and boundary files, without end.
pub fn generated(seed: u64) -> impl Iterator<Item = Input> {
    files(seed)
}

fn samples() -> Vec<Input> {
    vec![
        (String::from("case l"), CASE_L.to_vec()),
        (String::from("panel"), PANEL.to_vec()),
        (String::from("horse"), HORSE.to_vec()),
        (String::from("sample of source 000"), bytes(SAMPLE_000)),
    ]
}

/// Every file of the readings; the second word of a line is the file.
fn readings() -> Vec<Input> {
    let words = READINGS.lines().map(|line| line.split_whitespace().nth(1));
    let named = words.enumerate().map(|(number, word)| {
        let file = bytes(word.expect("a line has a file"));
        (format!("reading in line {}", number + 1), file)
    });
    named.collect()
}

/// No bytes, as many as are read, one more, and many more.
fn plain_lengths() -> Vec<Input> {
    let lengths = [0, MOST_BYTES, MOST_BYTES + 1, 4 * MOST_BYTES];
    let zeros = lengths.map(|length| (format!("{length} zeros"), vec![0; length]));
    zeros.into()
}

/// The bytes of a hexadecimal text; blanks and newlines are passed over.
fn bytes(text: &str) -> Vec<u8> {
    let digit = |byte: u8| char::from(byte).to_digit(16).expect("a hexadecimal digit") as u8;
    let digits: Vec<u8> = text
        .bytes()
        .filter(|byte| !byte.is_ascii_whitespace())
        .map(digit)
        .collect();
    let pairs = digits.chunks_exact(2);
    assert!(pairs.remainder().is_empty(), "an odd number of digits");
    pairs.map(|pair| pair[0] * 16 + pair[1]).collect()
}

#[cfg(test)]
mod tests {
    use super::*;
    use second::listing;

    /// The fixed files must reach what a listing can say, or they test little.
    #[test]
    fn the_fixed_files_have_every_sort_of_listing() {
        let first_lines: Vec<String> = fixed()
            .map(|(_, file)| listing(&file).lines().next().expect("a line").to_owned())
            .collect();
        let some = |wanted: &dyn Fn(&str) -> bool| first_lines.iter().any(|line| wanted(line));
        assert!(some(&|line| line == "accepted"));
        assert!(some(&|line| line == "not read"));
        assert!(some(&|line| line == "refused 16 at 0"));
        for number in (2..=15).chain([19, 20, 22]) {
            let start = format!("refused {number} at ");
            assert!(some(&|line| line.starts_with(&start)), "{start}");
        }
    }

    /// #111: "The listing adds ` part N` before ` vertices`": polygons with a
    /// part and without one, each with a surface and without one.
    #[test]
    fn the_fixed_files_have_parts() {
        let texts: Vec<String> = fixed().map(|(_, file)| listing(&file)).collect();
        for tagged in [
            " surface 0 part 0 vertices ",
            " surface 0 part 2 vertices ",
            " surface 2 part 0 vertices ",
            " surface 1 part 3 vertices ",
        ] {
            assert!(texts.iter().any(|text| text.contains(tagged)), "{tagged}");
        }
    }

    #[test]
    fn some_are_as_long_as_the_program_reads() {
        for length in [MOST_BYTES, MOST_BYTES + 1] {
            assert!(fixed().any(|(_, file)| file.len() == length), "{length}");
        }
    }
}
