//! Conditions and worths, judged test by test: each test's value is asked for by Query.

use pirwodd::Refusal;
use story::pack::{Condition, How, Rule, Test};

use crate::stage::Stage;

/// For each alternative of a condition, its tests that fail. The condition holds where one has none.
pub fn failing<'c>(stage: &mut Stage, chart: &[u8], condition: &'c Condition) -> Result<Vec<Vec<&'c Test>>, Refusal> {
    let mut found = Vec::new();
    for alternative in &condition.alternatives {
        let mut failing = Vec::new();
        for test in alternative {
            if !passes(stage, chart, test)? {
                failing.push(test);
            }
        }
        found.push(failing);
    }
    Ok(found)
}

fn passes(stage: &mut Stage, chart: &[u8], test: &Test) -> Result<bool, Refusal> {
    let found = stage.value(chart, &test.chain, test.fluent)?;
    Ok(match test.how {
        How::Is => found == test.value,
        How::IsNot => found != test.value,
        How::AtLeast => found >= test.value,
    })
}

pub fn holds(stage: &mut Stage, chart: &[u8], condition: &Condition) -> Result<bool, Refusal> {
    Ok(failing(stage, chart, condition)?.iter().any(Vec::is_empty))
}

/// The worth of the first rule that holds, or 0.
pub fn worth(stage: &mut Stage, chart: &[u8], rules: &[Rule]) -> Result<usize, Refusal> {
    for rule in rules {
        if holds(stage, chart, &rule.condition)? {
            return Ok(rule.worth);
        }
    }
    Ok(0)
}
