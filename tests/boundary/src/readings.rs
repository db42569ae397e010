//! Texts given to both sides, each with tables full of rubbish.

use std::collections::BTreeSet;

use oracle::generate::Random;
use oracle::reading::ReadAnswer;
use oracle::Counts;

use crate::host::Form;
use crate::Sides;

pub struct Readings {
    pub sides: Sides,
    random: Random,
    /// What the texts are, in words, for the reports.
    case: String,
}

impl Readings {
    pub fn start(case: &str) -> Readings {
        Readings {
            sides: Sides::start(),
            random: Random::new(0),
            case: case.into(),
        }
    }

    /// Of numbered texts.
    pub fn start_numbered(case: &str) -> Readings {
        let mut readings = Readings::start(case);
        readings.sides.form = Form::Numbered;
        readings
    }

    /// Says what the texts that follow are.
    pub fn of(&mut self, case: String) -> &mut Readings {
        self.case = case;
        self
    }

    pub fn read(&mut self, text: &[u8]) -> ReadAnswer {
        self.lend_rubbish();
        self.sides.read(text)
    }

    /// Texts one by one; the reasons that were met.
    pub fn reasons_of(&mut self, texts: &[Vec<u8>]) -> BTreeSet<u64> {
        let reasons = texts.iter().map(|text| self.read(text).reason);
        reasons.collect()
    }

    /// A text that both must accept; tells its counts.
    pub fn accept(&mut self, text: &[u8]) -> Counts {
        self.lend_rubbish();
        self.sides.accept(text);
        self.sides.counts
    }

    /// A text that both must refuse for this reason, at this line.
    pub fn refuse(&mut self, text: &[u8], reason: u64, line: u64) {
        self.lend_rubbish();
        self.sides.refuse_text(text, reason, line);
    }

    fn lend_rubbish(&mut self) {
        self.sides.lend_rubbish(self.case.clone(), &mut self.random);
    }
}
