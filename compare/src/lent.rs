//! Calls that are lent what doesn't fit: refusals 1 and 2.
use crate::library::{empty_record, unwritten, Answer, Library, Ours, RECORD_WORDS};
use crate::steps::{Lent, Step};

/// What a call is lent.
#[derive(Clone, PartialEq, Eq)]
struct Parts {
    record: Vec<u64>,
    words: Vec<u64>,
    out: Vec<u64>,
}

/// What fits but for one part.
fn lend(ours: &Ours, lent: Lent) -> Parts {
    let mut parts = Parts {
        record: ours.record.to_vec(),
        words: ours.words.clone(),
        out: unwritten(2),
    };
    match lent {
        Lent::Words(n) => parts.words.resize(n, 0),
        Lent::Record(n) => parts.record.resize(n, 0),
        Lent::Out(n) => parts.out.truncate(n),
    }
    parts
}

/// The refusal that is due; None where what is lent fits after all, as in a shortened case.
fn due(ours: &Ours, lent: Lent) -> Option<u64> {
    match lent {
        Lent::Record(n) => (n != RECORD_WORDS).then_some(2),
        Lent::Out(n) => (n < 2).then_some(2),
        Lent::Words(n) if n % 2 != 0 || !(16..=8192).contains(&n) => Some(1),
        Lent::Words(n) => (n != ours.words.len()).then_some(2),
    }
}

/// Such a call answers as it should, and nothing else changes than what the refusal says.
pub fn refused(lib: &dyn Library, ours: &Ours, step: Step) -> Result<Answer, String> {
    let (Step::AskLent(lent, _) | Step::RebuildLent(lent) | Step::SetUp(lent) | Step::Sound(lent)) =
        step
    else {
        return Ok(Answer::granted(0));
    };
    let Some(number) = due(ours, lent) else {
        return Ok(Answer::granted(0));
    };
    // set-up and rebuild have no record to be another's, and the check writes no answer
    match (step, lent) {
        (Step::SetUp(_) | Step::RebuildLent(_), Lent::Words(_)) if number == 2 => {
            return Ok(Answer::granted(0))
        }
        (Step::Sound(_), Lent::Out(_)) => return Ok(Answer::granted(0)),
        _ => {}
    }
    let mut parts = lend(ours, lent);
    let mut expected = parts.clone();
    if matches!(lent, Lent::Words(_)) {
        match step {
            Step::Sound(_) => {}
            _ => expected.out = vec![number, 0],
        }
        if let Step::SetUp(_) | Step::RebuildLent(_) = step {
            expected.record = empty_record().to_vec();
        }
    }
    let Parts { record, words, out } = &mut parts;
    let returned = match step {
        Step::AskLent(_, ask) => lib.ask(ask, record, words, out),
        Step::RebuildLent(_) => lib.rebuild(record, words, out, 0),
        Step::SetUp(_) => lib.setup(record, words, out),
        _ => lib.sound(record, words),
    };
    if returned != number {
        return Err(format!("{step}: {returned}, not {number}"));
    }
    if parts != expected {
        return Err(format!(
            "{step}: {returned}, but not what is to be written then"
        ));
    }
    Ok(Answer::refused(number))
}
