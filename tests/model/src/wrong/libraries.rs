//! Wrong models of what the library for C hands on of the wrap: the panel's and that of a list. That
//! which the request names comes first.

use super::Wrong;
use crate::model::library::list_answer;
use crate::model::panel::{call_wrap, Call};
use crate::model::record::DATA_WRITE;
use crate::model::rules::{Rules, PAPER};

pub const LIST: &[Wrong] = &[
    Wrong {
        name: "panel-wrap-of-last-transfer",
        rules: Rules {
            call_wrap: |_, own| own.last().is_some_and(|(_, outcome)| outcome.wrap),
            ..PAPER
        },
    },
    Wrong {
        name: "panel-wrap-of-first-data-transfer",
        rules: Rules {
            call_wrap: |_, own| {
                let mut data = own.iter().filter(|(event, _)| event.kind == DATA_WRITE);
                data.next().is_some_and(|(_, outcome)| outcome.wrap)
            },
            ..PAPER
        },
    },
    Wrong {
        name: "panel-wrap-if-all-data-writes",
        rules: Rules {
            call_wrap: |_, own| {
                let mut data = own.iter().filter(|(event, _)| event.kind == DATA_WRITE);
                data.all(|(_, outcome)| outcome.wrap)
            },
            ..PAPER
        },
    },
    Wrong {
        name: "panel-never-says-wrap",
        rules: Rules {
            call_wrap: |_, _| false,
            ..PAPER
        },
    },
    Wrong {
        name: "panel-wrap-for-every-night",
        rules: Rules {
            call_wrap: |call, _| matches!(call, Call::Log(..)),
            ..PAPER
        },
    },
    Wrong {
        name: "panel-wrap-for-night-22",
        rules: Rules {
            call_wrap: |call, own| matches!(call, Call::Log(22, _)) || call_wrap(call, own),
            ..PAPER
        },
    },
    Wrong {
        name: "panel-wrap-for-text-on-line-1",
        rules: Rules {
            call_wrap: |call, own| matches!(call, Call::Text(1, _)) || call_wrap(call, own),
            ..PAPER
        },
    },
    Wrong {
        name: "panel-wrap-for-text-on-line-0",
        rules: Rules {
            call_wrap: |call, own| matches!(call, Call::Text(0, _)) || call_wrap(call, own),
            ..PAPER
        },
    },
    Wrong {
        name: "list-never-says-wrap",
        rules: Rules {
            list_answer: |outcome| [outcome.answer, outcome.value, 0],
            ..PAPER
        },
    },
    Wrong {
        name: "list-says-wrap-as-255",
        rules: Rules {
            list_answer: |outcome| {
                let [answer, value, wrap] = list_answer(outcome);
                [answer, value, wrap * 255]
            },
            ..PAPER
        },
    },
    Wrong {
        name: "list-says-wrap-before-value",
        rules: Rules {
            list_answer: |outcome| {
                let [answer, value, wrap] = list_answer(outcome);
                [answer, wrap, value]
            },
            ..PAPER
        },
    },
    Wrong {
        name: "list-says-answer-again",
        rules: Rules {
            list_answer: |outcome| [outcome.answer, outcome.value, outcome.answer],
            ..PAPER
        },
    },
];
