//! Plans of NAKs (C-09 of document 02): checked, and made.
use crate::answer::{Said, ask, header_of, stray};
use crate::ffi;
use tools::command::Task;
use tools::places::*;

/// What stands in each of the caller's numbers before the call.
const LENT: u64 = 7;

fn task_of(task: &Task) -> Result<ffi::Task<'_>, String> {
    Ok(ffi::Task {
        header: header_of(&task.record)?,
        packet: task.size,
        received: &task.received,
        scope: (task.scope.start, task.scope.end),
    })
}

pub fn check(task: &Task, requests: &[u64], naks: &[u64]) -> Said {
    let task = task_of(task)?;
    let answer = ask(ANSWER_VALUE, |a| ffi::plan_check(&task, requests, naks, a))?;
    match answer[ANSWER_VALUE] {
        1 => Ok("ok accepted".to_string()),
        0 => Ok("ok not accepted".to_string()),
        _ => Err(stray(&answer)),
    }
}

fn made(task: &Task, requests: &mut [u64], naks: &mut [u64]) -> Said {
    let task = task_of(task)?;
    let answer = ask(ANSWER_PLAN_NAKS, |a| ffi::plan(&task, requests, naks, a))?;
    let [asked, dealt] = [ANSWER_PLAN_REQUESTS, ANSWER_PLAN_NAKS].map(|place| answer[place]);
    Ok(format!("ok requests {asked} naks {dealt}"))
}

/// The answer, and all of the caller's numbers after the call.
pub fn plan(task: &Task, requests: usize, naks: usize) -> String {
    let (mut requests, mut naks) = (vec![LENT; requests], vec![LENT; naks]);
    let said = made(task, &mut requests, &mut naks).unwrap_or_else(|refused| refused);
    format!("{said} lent {} {}", joined(&requests), joined(&naks))
}

fn joined(numbers: &[u64]) -> String {
    if numbers.is_empty() {
        return "-".to_string();
    }
    let words: Vec<String> = numbers.iter().map(u64::to_string).collect();
    words.join(",")
}
