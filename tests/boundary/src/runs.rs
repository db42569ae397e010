//! Inputs given to both sides, each with tables and an output full of rubbish.

use oracle::generate::Random;
use oracle::reasons::{OUT_OF_RANGE, SHEET_FORM};

use crate::rubbish::rubbish_output;
use crate::sides::{Ran, Sides};
use crate::NARROW;

pub struct Runs {
    pub sides: Sides,
    random: Random,
}

impl Runs {
    pub fn start() -> Runs {
        Runs {
            sides: Sides::start(),
            random: Random::new(0),
        }
    }

    /// What both print.
    pub fn run(&mut self, input: &[u8]) -> Vec<u8> {
        self.sides.lend_rubbish("a run".into(), &mut self.random);
        self.sides.run(input, &mut rubbish_output(&mut self.random))
    }

    /// A run that this seed alone decides, where the two may differ.
    pub fn ran(&mut self, case: String, input: &[u8], seed: u64) -> Ran {
        let random = &mut Random::new(seed);
        self.sides.lend_rubbish(case, random);
        self.sides.ran(input, &mut rubbish_output(random))
    }

    /// Both must print these lines.
    pub fn prints(&mut self, input: &[u8], lines: &str) {
        let printed = self.run(input);
        assert_eq!(String::from_utf8_lossy(&printed), lines);
    }

    /// Both must refuse the input for this reason, at this line: with no table changed where the sheet is refused, else with every table 0.
    pub fn refuses(&mut self, input: &[u8], reason: u64, line: u64) {
        self.sides
            .lend_rubbish("a refusal".into(), &mut self.random);
        let mut left = self.sides.tables.clone();
        if reason != SHEET_FORM && reason != OUT_OF_RANGE {
            left.clear(&NARROW);
        }
        let output = &mut rubbish_output(&mut self.random);
        let printed = self.sides.run(input, output);
        let refusal = format!("result=refused\nreason={reason}\nline={line}\n");
        assert_eq!(String::from_utf8_lossy(&printed), refusal);
        assert!(left == self.sides.tables, "{refusal}");
    }
}
