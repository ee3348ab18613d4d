//! What pairs of runs must hold.

use crate::tally::Wanted;

pub const THE_SET: &str = "the set A";
pub const MOMENTS: &str = "moments";
pub const LEFT_OUT: &str = "left out";
/// Of lanes outside A, and of lanes of A.
pub const TRIGGERS: [&str; 2] = ["triggers that mark outside A", "triggers that mark in A"];
pub const CLOSED: [&str; 2] = ["groups closed outside A", "groups closed in A, in one run"];
pub const ENTERED: [&str; 2] = ["states entered outside A", "states entered in A, in one run"];
pub const BESIDE: &str = "outside A, and what was not the same in A then";
pub const READS: &str = "bytes read";
pub const AT_THE_END: &str = "lanes of A at the end";

pub const TRIGGER_BYTES: [&str; 4] = ["143", "144", "178", "179"];
/// From ConfigStatus 1 on.
pub const CODES: [&str; 7] =
    ["with 1", "with 2", "with 3", "with 4", "with 5", "with 6", "with 7"];
/// From DPState 1 on.
pub const STATES: [&str; 7] = [
    "1 DPDeactivated", "2 DPInit", "3 DPDeinit", "4 DPActivated", "5 DPTxTurnOn",
    "6 DPTxTurnOff", "7 DPInitialized",
];

const CLOSINGS: &[&str] = &[
    CODES[0], CODES[1], CODES[2], CODES[3], CODES[4], CODES[5], CODES[6], "a release",
    "by ApplyImmediate, lanes to commission",
];

pub const WANTED: Wanted = &[
    (
        THE_SET,
        &[
            "no lane", "one lane", "two or three lanes", "four lanes", "five or six lanes",
            "seven lanes", "all lanes", "neighbours that share bytes divided",
            "lanes that do not lie side by side",
        ],
    ),
    (
        MOMENTS,
        &[
            "both, the same event", "both, writes that differ", "both, triggers that differ",
            "both, conditions that differ", "the first alone", "the second alone",
            "alone: work", "alone: hardware", "alone: sample", "alone: condition",
            "alone: trigger", "alone: other write", "alone: write that changes nothing",
            "both: reset", "both: command", "both: the module goes on",
        ],
    ),
    (
        LEFT_OUT,
        &["lanes of a trigger, for a mixed group", "a moment, for modules in different states"],
    ),
    (TRIGGERS[0], &TRIGGER_BYTES),
    (TRIGGERS[1], &TRIGGER_BYTES),
    (CLOSED[0], CLOSINGS),
    (CLOSED[1], CLOSINGS),
    (ENTERED[0], &STATES),
    (ENTERED[1], &STATES),
    (
        BESIDE,
        &[
            "Apply in progress: a moment in one run alone",
            "group marked: a group ignored",
            "group marked: a group ignored in one run alone",
            "group ignored: a group marked",
            "group marked: lanes in progress",
            "group passes: lanes on a path",
            "work step: a lower lane in progress",
            "hardware event done: lanes in progress",
            "path goes up: DPDeinit bits",
            "path goes up: pending bits",
            "path goes up: outputs off",
            "path goes up: lanes DPActivated",
            "release closed: pending bits",
            "lanes pending: a release closed in one run alone",
            "lane copied: its neighbour's settings",
            "lane with settings: its neighbour copied in one run alone",
            "flag up: the same one raised in one run alone",
            "flag on: the same one ended in one run alone",
            "Apply cut off by a reset: something",
            "reset: lanes in progress",
            "module goes on: something",
        ],
    ),
    (
        READS,
        &[
            "with bits outside A", "shared by lanes of A and others",
            "shared, with different bits of A", "shared nibbles of active settings",
            "with a flag outside A", "with a flag outside A that is on",
        ],
    ),
    (
        AT_THE_END,
        &[
            "different", "different in what is staged", "different in active settings",
            "different in ConfigStatus", "different in DPState", "in progress in one run alone",
        ],
    ),
];
