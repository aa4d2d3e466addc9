//! Timing: one run in a thread of its own, given up at a limit; the best of some rounds through all sizes, both sides by turns.

use std::fmt;
use std::sync::{mpsc, Arc};
use std::thread;
use std::time::Duration;

use crate::asking::{Answer, Lent, Operation, Side, Subject};
use crate::cores::timed;
use crate::files::MIB;

/// The stack of a thread that is timed: ample, and so much more than those of `stacks` that none is used again there.
const STACK: usize = 16 << 20;

/// That the two sides answered differently, or refused what they should accept.
#[derive(Debug)]
pub struct Differs(pub String);

impl fmt::Display for Differs {
    fn fmt(&self, f: &mut fmt::Formatter) -> fmt::Result {
        f.write_str(&self.0)
    }
}

/// The best times of both sides; that of the proved library is missing where it is over the limit.
#[derive(Debug, Clone, Copy)]
pub struct Times {
    /// The proved library's.
    pub proved: Option<Duration>,
    /// The second reader's.
    pub second: Option<Duration>,
}

impl Times {
    /// The better of two times of each side.
    fn best(self, other: Times) -> Times {
        let best = |one: Option<Duration>, two: Option<Duration>| Some(one?.min(two?));
        Times { proved: best(self.proved, other.proved), second: best(self.second, other.second) }
    }

    /// The proved library's time over the second reader's.
    pub fn ratio(&self) -> Option<f64> {
        Some(self.proved?.as_secs_f64() / self.second?.as_secs_f64())
    }
}

/// How to time, and how many runs were given up: their threads go on, so later times are not to be trusted.
pub struct Clock {
    /// How often the sizes are gone through, each time with two runs of both sides.
    pub rounds: u32,
    /// How long a single run may take.
    pub limit: Duration,
    /// How many runs were given up.
    pub given_up: usize,
}

/// What comes back of a run.
struct Run {
    time: Duration,
    answer: Answer,
    lent: Lent,
}

impl Run {
    /// What stands before the first run: a time that every other betters, and what is lent.
    fn before(lent: Lent) -> Run {
        Run { time: Duration::MAX, answer: Answer::default(), lent }
    }
}

impl Clock {
    /// Times an operation twice on both sides, and tells if they do not agree.
    ///
    /// Each side is first once, so that neither always finds the file in the cache. Where `proved` is false, only the second
    /// reader is timed.
    fn compare(
        &mut self,
        name: &str,
        operation: Operation,
        subject: &Arc<Subject>,
        proved: bool,
    ) -> Result<Times, Differs> {
        let mut proved = proved.then(|| Run::before(subject.lent(operation)));
        let mut second = Some(Run::before(subject.lent(operation)));
        proved = self.again(proved, Side::Proved, operation, subject);
        second = self.again(second, Side::Second, operation, subject);
        second = self.again(second, Side::Second, operation, subject);
        proved = self.again(proved, Side::Proved, operation, subject);
        agree(proved.as_ref(), second.as_ref(), operation)
            .map_err(|fault| Differs(format!("{name}, {operation}: {fault}")))?;
        Ok(Times { proved: proved.map(|run| run.time), second: second.map(|run| run.time) })
    }

    /// One more run with what was lent to the last, and the better of the two times; nothing once one was given up.
    fn again(
        &mut self,
        last: Option<Run>,
        side: Side,
        operation: Operation,
        subject: &Arc<Subject>,
    ) -> Option<Run> {
        let Run { time, lent, .. } = last?;
        let run = self.run(side, operation, subject, lent)?;
        Some(Run { time: run.time.min(time), ..run })
    }

    /// Times an operation on each of some subjects, after one run of the proved library on each of the pilots.
    ///
    /// Each has four times the size of the one before. Where those before say that the proved library would take longer than
    /// the limit, it is not asked. Later rounds go through all sizes again, so that a slow spell of the machine falls on all
    /// of them.
    pub fn climb(
        &mut self,
        name: &str,
        operation: Operation,
        pilots: &[Arc<Subject>],
        subjects: &[Arc<Subject>],
    ) -> Result<Vec<Times>, Differs> {
        let mut ladder = Ladder::default();
        for pilot in pilots {
            let due = ladder.within(self.limit).then(|| pilot.lent(operation));
            let run = due.and_then(|lent| self.run(Side::Proved, operation, pilot, lent));
            ladder.took(run.map(|run| run.time));
        }
        let mut climbed = Vec::new();
        for subject in subjects {
            let proved = ladder.within(self.limit);
            let mebibytes = subject.bytes(operation) as f64 / MIB as f64;
            let asked = if proved { "both" } else { "the second reader only" };
            eprintln!("bench: {name}, {operation}, {mebibytes:.1} MiB, {asked}");
            let times = self.compare(name, operation, subject, proved)?;
            ladder.took(times.proved);
            climbed.push(times);
        }
        for _ in 1..self.rounds {
            for (subject, times) in subjects.iter().zip(&mut climbed) {
                if times.proved.is_some() {
                    *times = times.best(self.compare(name, operation, subject, true)?);
                }
            }
        }
        Ok(climbed)
    }

    /// One run in a thread; nothing where it takes longer than the limit.
    fn run(
        &mut self,
        side: Side,
        operation: Operation,
        subject: &Arc<Subject>,
        mut lent: Lent,
    ) -> Option<Run> {
        let (sender, receiver) = mpsc::channel();
        let subject = Arc::clone(subject);
        let work = move || {
            let (answer, time) = timed(|| subject.ask(side, operation, &mut lent));
            // Nobody listens any more where the run was given up.
            let _ = sender.send(Run { time, answer, lent });
        };
        let thread = thread::Builder::new().stack_size(STACK).spawn(work).expect("a thread");
        let run = receiver.recv_timeout(self.limit).ok();
        match run {
            Some(_) => thread.join().expect("a thread that has sent ends"),
            None => self.given_up += 1,
        }
        run
    }
}

/// Whether what was answered is an acceptance, and the same on both sides, with the same left in what was lent.
fn agree(proved: Option<&Run>, second: Option<&Run>, operation: Operation) -> Result<(), String> {
    for Run { answer, .. } in proved.into_iter().chain(second) {
        if !operation.is_done(answer) {
            return Err(format!("answered {answer:?}, which is no acceptance"));
        }
    }
    let (Some(proved), Some(second)) = (proved, second) else { return Ok(()) };
    if proved.answer != second.answer {
        let answers = (proved.answer, second.answer);
        return Err(format!(
            "the proved library answers {:?}, the second reader {:?}",
            answers.0, answers.1
        ));
    }
    if proved.lent != second.lent {
        return Err("the two leave different rows or text".to_string());
    }
    Ok(())
}

/// What sizes up to one took, each four times the one before: whether the next is worth starting.
#[derive(Debug, Default)]
struct Ladder {
    last: Option<Duration>,
    before: Option<Duration>,
    over: bool,
}

impl Ladder {
    /// Takes in what the next size took; nothing means over the limit, and so is everything larger.
    fn took(&mut self, time: Option<Duration>) {
        self.over |= time.is_none();
        self.before = self.last;
        self.last = time;
    }

    /// Whether the next size should take no longer than the limit, if times go on growing as they did.
    ///
    /// After the first size alone they are taken to grow with the square.
    fn within(&self, limit: Duration) -> bool {
        let growth = match (self.before, self.last) {
            (Some(before), Some(last)) => last.as_secs_f64() / before.as_secs_f64().max(1e-9),
            _ => 16.0,
        };
        let last = self.last.map_or(0.0, |last| last.as_secs_f64());
        !self.over && last * growth.max(4.0) <= limit.as_secs_f64()
    }
}

#[cfg(test)]
mod tests {
    use super::*;

    #[test]
    fn what_grows_too_fast_is_not_started() {
        let limit = Duration::from_secs(20);
        let climbed = |times: [u64; 2]| {
            let mut ladder = Ladder::default();
            for time in times {
                ladder.took(Some(Duration::from_millis(time)));
            }
            ladder.within(limit)
        };
        assert!(climbed([100, 1_000]) && climbed([1_250, 5_000]));
        assert!(!climbed([100, 1_500]) && !climbed([5_100, 5_100]));
    }

    #[test]
    fn what_differs_is_told() {
        let run = |answer, mark| {
            let lent = Lent { rows: vec![mark], text: Vec::new() };
            Some(Run { time: Duration::ZERO, answer, lent })
        };
        let agreed = |proved: Option<Run>, second: Option<Run>, operation| {
            agree(proved.as_ref(), second.as_ref(), operation).is_ok()
        };
        let done = [0, 0, 1, 0];
        assert!(agreed(run(done, 5), run(done, 5), Operation::Same));
        assert!(agreed(None, run(done, 5), Operation::Same));
        assert!(!agreed(run(done, 5), run([0, 0, 2, 0], 5), Operation::Read), "another count");
        assert!(!agreed(run(done, 5), run(done, 6), Operation::Read), "other rows");
        assert!(!agreed(None, run([5, 1, 0, 0], 5), Operation::Read), "a refusal");
        assert!(!agreed(None, run([0; 4], 5), Operation::Same), "not the same");
    }

    #[test]
    fn nothing_is_started_past_the_limit() {
        let mut ladder = Ladder::default();
        assert!(ladder.within(Duration::from_secs(1)));
        ladder.took(None);
        ladder.took(Some(Duration::ZERO));
        assert!(!ladder.within(Duration::from_secs(1)));
    }
}
