//! What the bench program prints.

use super::record::{run, Event};
use super::rules::Rules;
use super::transfer::Outcome;

pub const HEADING: &str = "event kind value answer result wrap\n";

pub fn bench(rules: &Rules, input: &[u8]) -> String {
    if (rules.too_long)(input.len()) {
        return "too long\n".to_string();
    }
    match (rules.events)(rules, input) {
        Ok(events) => (rules.table)(rules, &events),
        Err(number) => refusal(number),
    }
}

pub fn refusal(number: u8) -> String {
    format!("refused {number}\n")
}

pub fn table(rules: &Rules, events: &[Event]) -> String {
    let mut part = (rules.switched_on)();
    let mut text = HEADING.to_string();
    for (place, &event) in events.iter().enumerate() {
        let outcome = run(rules, &mut part, event);
        text.push_str(&(rules.table_line)(place + 1, event, outcome));
    }
    text
}

pub fn table_line(number: usize, event: Event, outcome: Outcome) -> String {
    let wrap = u8::from(outcome.wrap);
    format!(
        "{number} {} {} {} {} {wrap}\n",
        event.kind, event.value, outcome.answer, outcome.value
    )
}
