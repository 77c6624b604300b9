//! Scripts: a text's lines, and the command that a line is.

use crate::protocol::{Call, Note};

pub const MAX_TEXT: usize = 16_384;

#[derive(Clone, Copy, Debug)]
pub enum Command {
    Roll(u32),
    Call(Call),
}

/// The lines of a text; a text that ends in byte 10 has no further line.
pub fn lines(text: &[u8]) -> impl Iterator<Item = &[u8]> {
    text.strip_suffix(b"\n").unwrap_or(text).split(|&byte| byte == b'\n')
}

/// The command that a line is, or none if it is misshapen.
pub fn command(line: &[u8]) -> Option<Command> {
    let mut words = line.split(|&byte| byte == b' ');
    let first = words.next()?;
    let mut argument = |key: &[u8]| number(words.next()?.strip_prefix(key)?);
    let command = if let Some(roll) = first.strip_prefix(b"roll=") {
        Command::Roll(number(roll)?)
    } else {
        Command::Call(match first.strip_prefix(b"do=")? {
            b"note" => Call::Note {
                at: argument(b"at=")?,
                note: Note {
                    a: argument(b"a=")?,
                    b: argument(b"b=")?,
                    c: argument(b"c=")?,
                    d: argument(b"d=")?,
                },
            },
            b"turn" => Call::Turn,
            b"take" => Call::Take { at: argument(b"at=")? },
            b"lose" => Call::Lose { at: argument(b"at=")? },
            b"stop" => Call::Stop { at: argument(b"at=")? },
            b"enter" => Call::Enter { at: argument(b"at=")? },
            _ => return None,
        })
    };
    words.next().is_none().then_some(command)
}

/// Decimal digits without leading zeros.
fn number(digits: &[u8]) -> Option<u32> {
    if digits.is_empty() || (digits[0] == b'0' && digits.len() > 1) {
        return None;
    }
    digits.iter().try_fold(0u32, |n, byte| {
        let digit = byte.checked_sub(b'0').filter(|&digit| digit < 10)?;
        n.checked_mul(10)?.checked_add(u32::from(digit))
    })
}
