//! A whole run, from an order sheet to the printed lines.

use crate::error::Error;
use crate::sys::{self, Lent, OUT_SIZE};

/// What the program prints for an order sheet: four lines of numbers, the line `choice=even` or none,
/// then the clause text. A refused sheet or text is no error: its reason is printed. The call itself is
/// refused only for a short table or a short buffer, and here none is short.
///
/// ```
/// let printed = ngiyarumba::run("seed=1\nflips=10\nwalks=1\nbias=400\na b\n~a b\n")?;
/// assert_eq!(printed, "result=found\nwalks=1\nflips=1\nchosen=2\nanswer=a b\n");
///
/// let printed = ngiyarumba::run("seed=0\n")?;
/// assert_eq!(printed, "result=refused\nreason=11\nline=1\n");
/// # Ok::<(), ngiyarumba::Error>(())
/// ```
pub fn run(input: impl AsRef<[u8]>) -> Result<String, Error> {
    let mut out = [0; OUT_SIZE];
    let answer = sys::run(input.as_ref(), &mut Lent::zeros(), &mut out);
    Error::unless_zero(answer.reason, 0)?;
    let printed = out[..answer.length].iter();
    Ok(printed.copied().map(char::from).collect())
}
