//! The vectors of document 02's requests, from the files of tests/vectors.

/// A row: a whole input, and what is printed for it.
pub struct Vector {
    pub row: &'static str,
    pub input: Vec<u8>,
    pub printed: Vec<u8>,
}

/// The good sheet of the program's example.
pub const SHEET: &[u8] = b"seed=1\nflips=10\nwalks=1\nbias=400\n";

/// Every row of every file; the first lines of the files say how they are written.
pub fn vectors() -> Vec<Vector> {
    let files = [
        include_str!("../../vectors/02-blank-lines.txt"),
        include_str!("../../vectors/05-even-choices.txt"),
    ];
    let rows = files.into_iter().flat_map(str::lines);
    rows.filter(|row| !row.starts_with('#'))
        .map(vector)
        .collect()
}

fn vector(row: &'static str) -> Vector {
    let (input, printed) = row.split_once("=>").expect("a row has both sides");
    Vector {
        row,
        input: spelt(input),
        printed: spelt(printed),
    }
}

fn spelt(side: &str) -> Vec<u8> {
    side.split_whitespace().flat_map(word).collect()
}

fn word(word: &str) -> Vec<u8> {
    if word == "G" {
        return SHEET.to_vec();
    }
    let (times, piece) = word.split_once('*').unwrap_or(("1", word));
    let bytes = [("\\n", "\n"), ("\\t", "\t"), ("\\r", "\r"), ("\\s", " ")];
    let piece = bytes.iter().fold(piece.to_string(), |piece, (told, byte)| {
        piece.replace(told, byte)
    });
    let times = times.parse().expect("a number stands before *");
    piece.into_bytes().repeat(times)
}
