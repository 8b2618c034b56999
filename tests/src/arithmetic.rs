//! One-word arithmetic, order tests and sets. An error is the trap: zero divisor (30), result out
//! of range (31), unless it wraps (02, K11).

use crate::instruction::Operator;
use crate::machine::Stop;

/// Takes X and Y; `wraps` is the rule for unsigned add, subtract and multiply.
#[inline(always)]
pub fn binary(operator: Operator, x: u32, y: u32, wraps: bool) -> Result<u32, Stop> {
    use Operator::*;
    let (i, j) = (x as i32, y as i32);
    match operator {
        AddI => signed(i.checked_add(j)),
        SubI => signed(i.checked_sub(j)),
        MulI => signed(i.checked_mul(j)),
        DivI if j == 0 => Err(Stop::ZeroDivisor),
        // Rounds toward zero.
        DivI => signed(i.checked_div(j)),
        ModI if j == 0 => Err(Stop::ZeroDivisor),
        ModI => Ok(modulus(i, j) as u32),
        AddU => unsigned(x.overflowing_add(y), wraps),
        SubU => unsigned(x.overflowing_sub(y), wraps),
        MulU => unsigned(x.overflowing_mul(y), wraps),
        DivU => x.checked_div(y).ok_or(Stop::ZeroDivisor),
        ModU => x.checked_rem(y).ok_or(Stop::ZeroDivisor),
        AddS => Ok(x | y),
        SubS => Ok(x & !y),
        MulS => Ok(x & y),
        Equ => Ok(u32::from(x == y)),
        Neq => Ok(u32::from(x != y)),
        LesI => Ok(u32::from(i < j)),
        GrtI => Ok(u32::from(i > j)),
        LeqI => Ok(u32::from(i <= j)),
        GeqI => Ok(u32::from(i >= j)),
        LesU => Ok(u32::from(x < y)),
        GrtU => Ok(u32::from(x > y)),
        LeqU => Ok(u32::from(x <= y)),
        GeqU => Ok(u32::from(x >= y)),
        LeqS => Ok(u32::from(x & !y == 0)),
        GeqS => Ok(u32::from(y & !x == 0)),
        // X is the number, signed; Y the set.
        Test => Ok(if x < 32 { (y >> x) & 1 } else { 0 }),
    }
}

#[inline(always)]
pub fn negate(x: u32) -> Result<u32, Stop> {
    signed((x as i32).checked_neg())
}

#[inline(always)]
fn signed(result: Option<i32>) -> Result<u32, Stop> {
    result.map(|value| value as u32).ok_or(Stop::DoesNotFit)
}

/// Gives the result modulo 2^32, unless that is another number and the rule is to trap.
#[inline(always)]
fn unsigned((wrapped, leaves_range): (u32, bool), wraps: bool) -> Result<u32, Stop> {
    if leaves_range && !wraps {
        return Err(Stop::DoesNotFit);
    }
    Ok(wrapped)
}

/// Ada's mod: the result has the divisor's sign.
fn modulus(i: i32, j: i32) -> i32 {
    let rest = i.wrapping_rem(j);
    if rest != 0 && (rest < 0) != (j < 0) {
        rest + j
    } else {
        rest
    }
}

#[cfg(test)]
mod tests {
    use super::binary;
    use crate::instruction::Operator::{self, *};
    use crate::machine::Stop;
    use crate::random::EDGES;

    const MODULUS: i128 = 1 << 32;

    /// Tries every pair of edge words, by either rule.
    fn try_edges(mut hold: impl FnMut(u32, u32, bool)) {
        for x in EDGES {
            for y in EDGES {
                [false, true].into_iter().for_each(|wraps| hold(x, y, wraps));
            }
        }
    }

    #[test]
    fn unsigned_results_are_those_of_request_k11() {
        let exact: [(Operator, fn(i128, i128) -> i128); 3] =
            [(AddU, |x, y| x + y), (SubU, |x, y| x - y), (MulU, |x, y| x * y)];
        for (operator, exact) in exact {
            try_edges(|x, y, wraps| {
                let result = exact(x.into(), y.into());
                let expected = match u32::try_from(result) {
                    Ok(word) => Ok(word),
                    Err(_) if wraps => Ok(result.rem_euclid(MODULUS) as u32),
                    Err(_) => Err(Stop::DoesNotFit),
                };
                assert_eq!(binary(operator, x, y, wraps), expected, "{operator:?} {x} {y} {wraps}");
            });
        }
    }

    #[test]
    fn all_else_keeps_its_results() {
        for operator in [DivU, ModU, AddI, SubI, MulI, DivI, ModI] {
            try_edges(|x, y, wraps| {
                assert_eq!(binary(operator, x, y, wraps), binary(operator, x, y, false));
            });
        }
        assert_eq!(binary(DivU, 1, 0, true), Err(Stop::ZeroDivisor));
        assert_eq!(binary(AddI, 0x7fff_ffff, 1, true), Err(Stop::DoesNotFit));
    }
}
