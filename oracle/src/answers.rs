//! The original's answers to requests for records, and what it called from outside.
use crate::functions::{self, Argument, Description, Extra, Function, argument_words, evaluate};
use crate::pool::Pool;
use crate::record::{Kind, Record};
use crate::requests::Request;
use crate::supplied::{Call, Outside, Supplied, with_supplied};
use crate::words::{hex, word};
use std::collections::BTreeSet;

/// Refusal 5: the port's, for a powi exponent outside -1,024..1,024.
const EXPONENT_REFUSED: u64 = 5;

pub struct Answer {
    pub number: u64,
    pub words: Vec<u64>,
}

/// One request with everything its line holds.
pub struct Case {
    pub line: String,
    pub called: BTreeSet<Outside>,
}

/// Runs one request. With the Rust's own values the records run over f64 too and both must
/// agree, and every call must be one that document 01 lists, at the argument that it names.
pub fn case<K: Kind>(pool: &Pool, description: &Description, request: &Request) -> Case {
    let parts: Vec<Vec<f64>> = request.records.iter().map(|r| pool.floats(r)).collect();
    let values = supplied_values(description, request, &parts);
    let (answer, calls) = answer::<K>(description, &parts, request.argument, &values);
    if request.supplied.is_none() && answer.number == 0 {
        let own = over::<f64, K::Record<f64>>(description.function, &parts, request.argument);
        assert_eq!(own, answer.words, "{}: f64 differs", description.name);
        check_calls(description, &calls, &parts, request.argument);
    }
    let called = calls.iter().map(|call| call.outside).collect();
    Case { line: line(description, request, &values, &answer), called }
}

/// What the line supplies, beside each outside function's name.
fn supplied_values(
    description: &Description,
    request: &Request,
    parts: &[Vec<f64>],
) -> Vec<(Outside, f64)> {
    let outside = description.outside();
    let values: Vec<f64> = match &request.supplied {
        Some(values) => values.clone(),
        None => (outside.iter())
            .map(|o| o.own(&arguments(description.function, *o, parts, request.argument)))
            .collect(),
    };
    outside.into_iter().zip(values).collect()
}

fn arguments(
    function: Function,
    outside: Outside,
    parts: &[Vec<f64>],
    argument: Argument,
) -> Vec<f64> {
    let other = parts.get(1).map_or(0.0, |record| record[0]);
    functions::arguments(function, outside, (parts[0][0], other), argument)
}

fn answer<K: Kind>(
    description: &Description,
    parts: &[Vec<f64>],
    argument: Argument,
    values: &[(Outside, f64)],
) -> (Answer, Vec<Call>) {
    let refused =
        description.function == Function::Powi && !(-1024..=1024).contains(&argument.exponent);
    if refused {
        let words = vec![0; description.answer_words(K::PARTS)];
        return (Answer { number: EXPONENT_REFUSED, words }, vec![]);
    }
    let (words, calls) = with_supplied(values, || {
        over::<Supplied, K::Record<Supplied>>(description.function, parts, argument)
    });
    assert_eq!(words.len(), description.answer_words(K::PARTS));
    (Answer { number: 0, words }, calls)
}

/// The original's answer over a part type, as words.
pub fn over<F: crate::record::Part, R: Record<F>>(
    function: Function,
    parts: &[Vec<f64>],
    argument: Argument,
) -> Vec<u64> {
    let records: Vec<R> = parts.iter().map(|p| R::of(p)).collect();
    evaluate::<F, R>(function, &records, argument)
}

fn check_calls(description: &Description, calls: &[Call], parts: &[Vec<f64>], argument: Argument) {
    let (function, listed) = (description.function, description.outside());
    for call in calls {
        let called = argument_words(&call.arguments);
        let at = |o: &Outside| argument_words(&arguments(function, *o, parts, argument));
        let known = listed.iter().any(|o| *o == call.outside && at(o) == called);
        assert!(known || is_constant(function, call), "{}: {call:?}", description.name);
    }
    let short = !parts.is_empty() && functions::short_way(function, parts[0][0], argument);
    for outside in &listed {
        let called = calls.iter().any(|call| call.outside == *outside);
        assert!(called != short, "{}: {outside:?} called: {called}", description.name);
    }
}

/// exp2 and log2 take the logarithm of 2, for which document 01 has a constant.
fn is_constant(function: Function, call: &Call) -> bool {
    matches!(function, Function::Exp2 | Function::Log2)
        && call.outside == Outside::Ln
        && call.arguments == [2.0]
}

fn line(
    description: &Description,
    request: &Request,
    values: &[(Outside, f64)],
    answer: &Answer,
) -> String {
    let mut fields = vec![format!("{:02x}", description.function as u8)];
    fields.extend(request.records.iter().map(|record| places(record)));
    let mut values = values.iter();
    for extra in description.extras {
        fields.push(hex(match extra {
            Extra::Float => word(request.argument.float),
            Extra::Exponent => i64::from(request.argument.exponent) as u64,
            Extra::Value(_) => word(values.next().expect("a value").1),
        }));
    }
    fields.push(format!("{:02x}", answer.number));
    fields.extend(answer.words.iter().map(|w| hex(*w)));
    fields.join(" ")
}

/// A record as one field: two hex digits a part.
pub fn places(record: &[u8]) -> String {
    record.iter().map(|place| format!("{place:02x}")).collect()
}
