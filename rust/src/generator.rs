//! Draws, as the walk makes them.

use crate::error::Error;
use crate::sys::{self, Drawn};

/// Marsaglia's 32-bit xorshift. Every draw moves it on.
///
/// ```
/// use ngiyarumba::Generator;
///
/// let mut generator = Generator::new(1)?;
/// assert_eq!(generator.draw(), 270_369);
/// assert_eq!(generator.choice(3)?, 1);
/// assert_eq!(generator.state(), 67_634_689);
/// # Ok::<(), ngiyarumba::Error>(())
/// ```
#[derive(Clone, Debug, PartialEq, Eq)]
pub struct Generator {
    /// Never 0.
    state: u32,
}

impl Generator {
    /// A generator whose first state is the seed. Seed 0 is out of range.
    pub fn new(seed: u32) -> Result<Generator, Error> {
        Error::unless_zero(sys::draw(seed).reason, 0)?;
        Ok(Generator { state: seed })
    }

    /// The state: the seed at first, then the last draw.
    pub fn state(&self) -> u32 {
        self.state
    }

    /// A number from 1 to 4,294,967,295, which is the new state.
    pub fn draw(&mut self) -> u32 {
        let drawn = sys::draw(self.state);
        self.state = drawn.state;
        drawn.number
    }

    /// A number from 0 to m - 1: the draw's remainder by m. A choice among 0 is out of range, and
    /// nothing is drawn.
    pub fn choice(&mut self, m: u32) -> Result<u32, Error> {
        self.take(sys::choice(self.state, m))
    }

    /// A number from 0 to m - 1, none of them favoured: a draw that would favour some is made again, at
    /// most eight draws in all. A choice among 0 is out of range, and nothing is drawn.
    pub fn choice_even(&mut self, m: u32) -> Result<u32, Error> {
        self.take(sys::choice_even(self.state, m))
    }

    /// Whether the draw's remainder by 1,000 is below the bias. A bias over 1,000 is out of range,
    /// and nothing is drawn.
    pub fn heads(&mut self, bias: u32) -> Result<bool, Error> {
        Ok(self.take(sys::heads(self.state, bias))? == 1)
    }

    fn take(&mut self, drawn: Drawn) -> Result<u32, Error> {
        Error::unless_zero(drawn.reason, 0)?;
        self.state = drawn.state;
        Ok(drawn.number)
    }
}
