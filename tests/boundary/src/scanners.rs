//! Texts that the reader, its cursor and the independent reader follow a script over.

use oracle::generate::ReaderCase;
use oracle::reader::{ReaderStep, Row};
use oracle::Reader;

use crate::host::{Host, Scanner};

pub struct Scanners {
    host: Host,
}

impl Scanners {
    pub fn start() -> Scanners {
        Scanners {
            host: Host::start(),
        }
    }

    /// All must tell the same and leave the text as it was; tells the rows.
    pub fn follow(&mut self, case: &ReaderCase) -> Vec<Row> {
        let mut reader = Reader::standing_at(&case.text, case.at, case.line);
        let expected = (reader.follow(&case.script), case.text.clone());
        for by in Scanner::ALL {
            let followed = self.host.follow(by, case);
            assert_eq!(followed, Ok(expected.clone()), "{by:?}: {case:?}");
        }
        expected.0
    }
}

/// A case that begins as a reader does; in the script `n` stands for the next item, `p` for passing.
pub fn case_of(text: &[u8], script: &str) -> ReaderCase {
    let step = |letter| match letter {
        'n' => ReaderStep::Next,
        'p' => ReaderStep::Pass,
        other => panic!("{other} is no step"),
    };
    ReaderCase {
        text: text.to_vec(),
        at: 0,
        line: 1,
        script: script.chars().map(step).collect(),
    }
}
