//! Draws, choices and heads asked of both sides.

use oracle::draw::{choice, choice_even, draw, heads, Drawn};

use crate::host::{Fault, Host};

pub struct Draws {
    host: Host,
}

impl Draws {
    pub fn start() -> Draws {
        Draws {
            host: Host::start(),
        }
    }

    pub fn draw(&mut self, state: u64) -> Drawn {
        let called = self.host.draw(state);
        agreed(format!("a draw from {state}"), draw(state), called)
    }

    pub fn choice(&mut self, state: u64, among: u64) -> Drawn {
        let called = self.host.choice(state, among);
        let asked = format!("a choice among {among} from {state}");
        agreed(asked, choice(state, among), called)
    }

    pub fn choice_even(&mut self, state: u64, among: u64) -> Drawn {
        let called = self.host.choice_even(state, among);
        let asked = format!("an even choice among {among} from {state}");
        agreed(asked, choice_even(state, among), called)
    }

    pub fn heads(&mut self, state: u64, bias: u64) -> Drawn {
        let called = self.host.heads(state, bias);
        let asked = format!("heads at {bias} from {state}");
        agreed(asked, heads(state, bias), called)
    }
}

/// Both must have given the same.
fn agreed(asked: String, expected: Drawn, called: Result<Drawn, Fault>) -> Drawn {
    assert_eq!(called, Ok(expected), "{asked}");
    expected
}
