// What the sessions of a long test came to, so that a reader sees that they are not trivial.

use crate::generator::{Case, Line};
use crate::model::{Cause, Run};
use std::collections::{BTreeMap, BTreeSet};
use std::fmt;

const OWN_CODE: &str = "Runs of code that they changed";
// At least this many sessions must have a run of each kind of changed code.
const MANY_SESSIONS: u64 = 1000;

// The calls that a program may make, and all the others as one.
const CALLS: [u8; 29] =
    [0, 1, 2, 6, 7, 8, 9, 10, 11, 12, 13, 14, 15, 16, 17, 18, 19, 20, 21, 22, 23, 24, 25, 26, 33, 34, 35, 36, 40];

#[derive(Default)]
pub struct Counts {
    pub sessions: u64,
    pub differences: u64,
    // Each count under a title and what is counted there.
    counts: BTreeMap<(&'static str, String), u64>,
    opcodes: BTreeSet<u8>,
}

impl Counts {
    pub fn add(&mut self, more: Counts) {
        self.sessions += more.sessions;
        self.differences += more.differences;
        for ((title, what), count) in more.counts {
            *self.counts.entry((title, what)).or_default() += count;
        }
        self.opcodes.extend(more.opcodes);
    }

    pub fn count(&mut self, title: &'static str, what: impl ToString, count: u64) {
        *self.counts.entry((title, what.to_string())).or_default() += count;
    }

    // Counts a session with the replies to its lines and its runs.
    pub fn add_session(&mut self, case: &Case, replies: &[String], runs: &[Run]) {
        let text = runs.iter().any(|run| !run.text.is_empty());
        let files = runs.iter().any(|run| !run.changed.is_empty());
        self.count("Sessions", "that print text", text as u64);
        self.count("Sessions", "that change files", files as u64);
        self.count("Sessions", "that do one or both", (text || files) as u64);
        runs.iter().for_each(|run| self.add_run(run));
        for (command, reply) in case.commands.iter().zip(replies) {
            let reply = if matches!(command.line, Line::Run) { "report" } else { reply.trim_end() };
            self.count("Lines and their replies", format!("{}: {reply}", command.verb()), 1);
        }
        self.add_reruns(case, runs);
    }

    fn add_run(&mut self, run: &Run) {
        self.count("Runs", "all", 1);
        self.count("Runs", "their steps", run.trace.len() as u64);
        self.count("Runs", "that change files", !run.changed.is_empty() as u64);
        self.count("Runs by their stops", word(&run.cause), 1);
        for call in &run.calls {
            let call = if CALLS.contains(call) { format!("{call:2}") } else { "of another number".to_string() };
            self.count("Calls made", call, 1);
        }
        self.opcodes.extend(&run.opcodes);
        let code = &run.own_code;
        self.count(OWN_CODE, "with other bytes than the loaded ones", (code.written > 0) as u64);
        self.count(OWN_CODE, "executed before the change", (code.changed > 0) as u64);
        self.count(OWN_CODE, "with bytes on two pages", (code.changed_on_two_pages > 0) as u64);
        self.count(OWN_CODE, "changed by a call", (code.changed_by_a_call > 0) as u64);
    }

    // Returns whether there are many sessions, and none of them has a run of one kind of changed code.
    pub fn lacks_a_kind(&self) -> bool {
        self.sessions >= MANY_SESSIONS && self.counts.iter().any(|((title, _), count)| *title == OWN_CODE && *count == 0)
    }

    // Counts each run but the first, with the lines between it and the run before. A checkpoint of the run before may stand where both
    // go the same way for a spacing, or up to the end of the run before.
    fn add_reruns(&mut self, case: &Case, runs: &[Run]) {
        let pieces: Vec<_> = case.commands.split(|command| matches!(command.line, Line::Run)).collect();
        for (pair, between) in runs.windows(2).zip(&pieces[1..]) {
            let [before, after] = pair else { unreachable!("a window of two has two members") };
            let same = before.trace.iter().zip(&after.trace).take_while(|(before, after)| before == after).count();
            let stands = same > 0 && (same >= case.spacing || same == before.trace.len());
            let answer = if before.report == after.report { "the same report" } else { "another report" };
            self.count("Reruns", "all", 1);
            self.count("Reruns", "that a checkpoint may stand for", stands as u64);
            self.count("Reruns", answer, 1);
            self.count(OWN_CODE, "after a step of a likely checkpoint", (stands && after.own_code.last_changed > same) as u64);
            if let [edit] = between {
                self.count("Reruns after one line", format!("{}: {answer}", edit.verb()), 1);
            }
        }
    }
}

// The word of a cause, without its number.
fn word(cause: &Cause) -> String {
    cause.to_string().split(' ').take(1).collect()
}

impl fmt::Display for Counts {
    fn fmt(&self, out: &mut fmt::Formatter) -> fmt::Result {
        let mut last = "";
        for ((title, what), count) in &self.counts {
            if *title != last {
                writeln!(out, "{title}:")?;
            }
            last = title;
            writeln!(out, "    {what:<34}{count:>12}")?;
        }
        if !self.opcodes.is_empty() {
            writeln!(out, "Opcodes carried out: {} of the 243 beside HLT", self.opcodes.len())?;
        }
        writeln!(out, "{} sessions, {} differ", self.sessions, self.differences)
    }
}
