//! The text of a report.

use crate::ids::{Key, SpanId};

/// Appends the decimal digits of a number. `write!` does the same more slowly.
pub fn push_number(out: &mut Vec<u8>, mut number: u64) {
    let mut digits = [0; 20];
    let mut at = digits.len();
    loop {
        at -= 1;
        digits[at] = b'0' + (number % 10) as u8;
        number /= 10;
        if number == 0 {
            break;
        }
    }
    out.extend_from_slice(&digits[at..]);
}

pub fn push_id(out: &mut Vec<u8>, id: SpanId) {
    push_number(out, id.shard.into());
    out.push(b'.');
    push_number(out, id.serial.into());
}

pub fn push_key(out: &mut Vec<u8>, key: Key) {
    push_id(out, key.span);
    out.push(b'/');
    push_number(out, key.slot.into());
    out.push(b'/');
    push_number(out, key.generation.into());
}

/// A line of ids behind a word; `none` where there are none.
pub fn push_ids(out: &mut Vec<u8>, word: &str, ids: &[SpanId]) {
    out.extend_from_slice(word.as_bytes());
    for id in ids {
        out.push(b' ');
        push_id(out, *id);
    }
    out.extend_from_slice(if ids.is_empty() { b" none\n" } else { b"\n" });
}

/// The pairs of each mark of a report that somebody else wrote, in order; none for a mark that was
/// refused.
pub fn plans_of(report: &str) -> Option<Vec<Vec<(SpanId, SpanId)>>> {
    let mut plans: Vec<Vec<(SpanId, SpanId)>> = Vec::new();
    for line in report.lines() {
        let words: Vec<&str> = line.split(' ').collect();
        match words[..] {
            ["mark", ..] => plans.push(Vec::new()),
            ["fold", from, "onto", onto] => plans.last_mut()?.push((id_of(from)?, id_of(onto)?)),
            _ => {}
        }
    }
    Some(plans)
}

fn id_of(word: &str) -> Option<SpanId> {
    let (shard, serial) = word.split_once('.')?;
    Some(SpanId {
        shard: shard.parse().ok()?,
        serial: serial.parse().ok()?,
    })
}
