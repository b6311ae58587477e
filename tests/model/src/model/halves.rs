//! Busy refusals, and transfers on four lines in two halves.

use super::part::{Half, Part};
use super::rules::Rules;
use super::transfer::{refused, Outcome, Transfer};

/// One transfer as it is on the bus now: refusal 1, then 2, then what the transfer does.
pub fn transfer(rules: &Rules, part: &mut Part, transfer: Transfer) -> Outcome {
    if (rules.refused_busy)(part, transfer) {
        return refused(1);
    }
    if part.eight_lines {
        return (rules.whole)(rules, part, transfer);
    }
    match part.half {
        None => (rules.first_half)(rules, part, transfer),
        Some(half) if (rules.agree)(half, transfer) => {
            (rules.second_half)(rules, part, half, transfer)
        }
        Some(_) => {
            part.half = None;
            refused(2)
        }
    }
}

pub fn refused_busy(part: &Part, transfer: Transfer) -> bool {
    part.busy > 0 && transfer != Transfer::Status
}

pub fn agree(half: Half, transfer: Transfer) -> bool {
    half.rs == transfer.rs() && half.read == transfer.read()
}

/// Waits, costs no ticks and steps no counter; of a read it answers the upper half of the value.
pub fn first_half(rules: &Rules, part: &mut Part, transfer: Transfer) -> Outcome {
    let value = if transfer.read() {
        (rules.whole)(rules, &mut part.clone(), transfer).value
    } else {
        0
    };
    part.half = Some(Half {
        rs: transfer.rs(),
        read: transfer.read(),
        upper: transfer.lines() >> 4,
    });
    Outcome {
        answer: 20,
        value: value & 0xF0,
        wrap: false,
    }
}

/// Completes the byte, which acts; of a read it answers the lower half of the value.
pub fn second_half(rules: &Rules, part: &mut Part, half: Half, transfer: Transfer) -> Outcome {
    let byte = half.upper << 4 | transfer.lines() >> 4;
    part.half = None;
    let outcome = (rules.whole)(rules, part, transfer.of(byte));
    Outcome {
        value: outcome.value << 4,
        ..outcome
    }
}
