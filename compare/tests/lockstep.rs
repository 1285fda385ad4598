//! The lockstep comparison finds nothing in the linked library, and finds what is wrong in others and shortens it.
#![cfg(all(crate_there, library_there))]
use compare::library::{Library, Linked};
use compare::lockstep::compare;
use compare::steps::Ask;

const CALLS: u64 = 200_000;
const NONE: u64 = u64::MAX;

#[test]
fn the_library_differs_nowhere() {
    let figures = compare(&Linked, CALLS, 11).unwrap();
    assert!(figures.calls() >= CALLS);
}

/// What a wrong library leaves to the linked one.
macro_rules! as_linked {
    (setup) => {
        fn setup(&self, rec: &mut [u64], words: &mut [u64], out: &mut [u64]) -> u64 {
            Linked.setup(rec, words, out)
        }
    };
    (ask) => {
        fn ask(&self, ask: Ask, rec: &mut [u64], words: &mut [u64], out: &mut [u64]) -> u64 {
            Linked.ask(ask, rec, words, out)
        }
    };
    (rebuild) => {
        fn rebuild(&self, rec: &mut [u64], words: &mut [u64], out: &mut [u64], start: u64) -> u64 {
            Linked.rebuild(rec, words, out, start)
        }
    };
    (batch) => {
        fn batch(
            &self,
            rec: &mut [u64],
            words: &mut [u64],
            out: &mut [u64],
            calls: &[u64],
            answers: &mut [u64],
        ) -> u64 {
            Linked.batch(rec, words, out, calls, answers)
        }
    };
    (sound) => {
        fn sound(&self, rec: &[u64], words: &[u64]) -> u64 {
            Linked.sound(rec, words)
        }
    };
    ($($name:ident),+) => {
        $(as_linked!($name);)+
    };
}

type After = fn(Ask, &mut [u64], &mut [u64], &mut [u64]);

/// The linked library with something changed behind its back after each call.
struct Wrong {
    after: After,
}

impl Library for Wrong {
    as_linked!(setup, rebuild, batch, sound);

    fn ask(&self, ask: Ask, rec: &mut [u64], words: &mut [u64], out: &mut [u64]) -> u64 {
        let returned = Linked.ask(ask, rec, words, out);
        // these tell of what is lent, and of no heap
        if returned == 1 || returned == 2 {
            return returned;
        }
        (self.after)(ask, rec, words, out);
        out[0]
    }
}

/// The report's steps and changes, once it was seen that there is one and that it says so much.
fn found(lib: &dyn Library, says: &str) -> usize {
    let report = compare(lib, CALLS, 1).unwrap_err();
    println!("{report}");
    assert!(report.starts_with("DIFFERENCE") && report.contains(says));
    // a head line, the arena, the steps, what differs
    report.lines().count() - 3
}

#[test]
fn a_wrong_offset() {
    let after: After = |ask, _, _, out| {
        if let (Ask::Malloc(100..200), 0) = (ask, out[0]) {
            out[1] += 16;
        }
    };
    assert_eq!(found(&Wrong { after }, "the crate"), 1);
}

#[test]
fn a_wrong_refusal() {
    let after: After = |ask, _, _, out| {
        if let (Ask::Memalign(_, 65_537..), 3) = (ask, out[0]) {
            out[0] = 4;
        }
    };
    assert_eq!(found(&Wrong { after }, "document 01 refusal 3"), 1);
}

#[test]
fn a_refusal_that_writes() {
    let after: After = |_, _, words, out| {
        if out[0] == 5 && words.len() > 16 {
            // behind the top's head, where no rule looks
            words[words.len() - 1] += 1;
        }
    };
    assert_eq!(found(&Wrong { after }, "changed"), 1);
}

#[test]
fn a_lost_word_in_a_move() {
    let after: After = |ask, _, words, out| {
        if let (Ask::Realloc(off, _), 0) = (ask, out[0]) {
            if out[1] != off {
                words[out[1] as usize / 8 + 2] = 77;
            }
        }
    };
    // two blocks, so that the first can't grow in its place, and the move
    let steps = found(&Wrong { after }, "ours 77");
    assert!(steps <= 4);
}

#[test]
fn a_wrong_child() {
    let after: After = |_, rec, words, _| {
        for root in rec[40..].iter().filter(|r| **r != NONE) {
            let at = *root as usize / 8;
            words.swap(at + 4, at + 5);
        }
    };
    let steps = found(&Wrong { after }, "word");
    assert!(steps <= 12);
}

#[test]
fn a_wrong_head() {
    let after: After = |ask, rec, words, out| {
        if let (Ask::Free(_), 0, 64..) = (ask, out[0], rec[5]) {
            words[rec[4] as usize / 8 + 1] ^= 1;
        }
    };
    let steps = found(&Wrong { after }, "word");
    assert!(steps <= 3);
}

/// A check that overlooks something.
struct Blind;

impl Library for Blind {
    as_linked!(setup, ask, rebuild, batch);

    fn sound(&self, rec: &[u64], words: &[u64]) -> u64 {
        // the spare chunk's size is taken to be true
        let mut rec = rec.to_vec();
        if rec
            .get(2)
            .is_some_and(|dv| *dv != NONE && dv / 8 + 1 < words.len() as u64)
        {
            rec[3] = words[rec[2] as usize / 8 + 1] & !7;
        }
        Linked.sound(&rec, words)
    }
}

#[test]
fn a_blind_check() {
    let lines = found(&Blind, "the check says 0, the reading 2");
    assert!(lines <= 8);
}

type Rebuilt = fn(&mut [u64], &mut [u64], &mut [u64]);

/// The linked library with something changed behind its back after each rebuild.
struct WrongRebuild {
    after: Rebuilt,
}

impl Library for WrongRebuild {
    as_linked!(setup, ask, batch, sound);

    fn rebuild(&self, rec: &mut [u64], words: &mut [u64], out: &mut [u64], start: u64) -> u64 {
        let returned = Linked.rebuild(rec, words, out, start);
        if rec.len() == 72 && out.len() == 2 {
            (self.after)(rec, words, out);
            return out[0];
        }
        returned
    }
}

#[test]
fn a_rebuild_that_makes_a_spare_chunk() {
    // the only chunk of a small bin
    let after: Rebuilt = |rec, words, out| {
        let lone =
            |bin: &usize| rec[8 + bin] != NONE && words[rec[8 + bin] as usize / 8 + 2] == NONE;
        if let (0, Some(bin)) = (out[0], (0..32).find(lone)) {
            (rec[2], rec[3]) = (rec[8 + bin], 8 * bin as u64);
            rec[8 + bin] = NONE;
            rec[0] ^= 1 << bin;
        }
    };
    let steps = found(&WrongRebuild { after }, "after the rebuild, the record's");
    assert!(steps <= 4);
}

#[test]
fn a_rebuild_in_another_order() {
    // two chunks of a small bin change places
    let after: Rebuilt = |rec, words, out| {
        let at = |chunk: u64, k: usize| chunk as usize / 8 + k;
        let two = |bin: &usize| {
            let newest = rec[8 + bin];
            newest != NONE && words[at(newest, 2)] != NONE && {
                words[at(words[at(newest, 2)], 2)] == NONE
            }
        };
        if let (0, Some(bin)) = (out[0], (0..32).find(two)) {
            let (new, old) = (rec[8 + bin], words[at(rec[8 + bin], 2)]);
            rec[8 + bin] = old;
            (words[at(old, 2)], words[at(old, 3)]) = (new, NONE);
            (words[at(new, 2)], words[at(new, 3)]) = (NONE, old);
        }
    };
    let steps = found(&WrongRebuild { after }, "after the rebuild, the record's");
    assert!(steps <= 9);
}

#[test]
fn a_refused_rebuild_that_writes() {
    let after: Rebuilt = |_, words, out| {
        if out[0] == 2 {
            words[0] ^= 1;
        }
    };
    found(&WrongRebuild { after }, "but not the empty record alone");
}

type AfterBatch = fn(&[u64], &mut [u64], &mut [u64]);

/// The linked library whose batch is wrong: the calls, `out` and the answers, changed after each batch.
struct WrongBatch {
    after: AfterBatch,
}

impl Library for WrongBatch {
    as_linked!(setup, ask, rebuild, sound);

    fn batch(
        &self,
        rec: &mut [u64],
        words: &mut [u64],
        out: &mut [u64],
        calls: &[u64],
        answers: &mut [u64],
    ) -> u64 {
        Linked.batch(rec, words, out, calls, answers);
        (self.after)(calls, out, answers);
        out[0]
    }
}

#[test]
fn a_batch_that_stops_at_9() {
    let after: AfterBatch = |_, out, answers| {
        let lines = answers.chunks_exact(2).take(out[1] as usize);
        let nine = lines.clone().position(|line| line[0] == 9);
        out[1] = nine.map_or(out[1], |i| i as u64 + 1);
    };
    // which calls a 9 stands between is drawn anew for a shorter batch, so it may stay long
    found(&WrongBatch { after }, "a batch");
}

#[test]
fn a_batch_that_writes_behind_its_answers() {
    let after: AfterBatch = |_, out, answers| {
        if let (0, Some(word)) = (out[0], answers.get_mut(2 * out[1] as usize)) {
            *word = 0;
        }
    };
    found(&WrongBatch { after }, "past the last");
}

#[test]
fn a_batch_that_leaves_a_moved_block_live() {
    let after: AfterBatch = |calls, _, answers| {
        let calls: Vec<&[u64]> = calls.chunks_exact(3).collect();
        for (i, call) in calls.iter().enumerate().filter(|(_, call)| call[0] == 1) {
            let moved = |j: usize| calls[j][..2] == [2, call[1]] && answers[2 * j] == 0;
            if answers.get(2 * i) == Some(&5) && (0..i).any(moved) {
                answers[2 * i] = 0;
            }
        }
    };
    assert!(found(&WrongBatch { after }, "made alone [5, 0]") <= 8);
}

#[test]
fn a_batch_that_asks_for_its_lists_first() {
    let after: AfterBatch = |calls, out, _| {
        if out[0] == 2 && calls.len() % 3 != 0 {
            out[0] = 8;
        }
    };
    // how a batch is refused is drawn anew for a shorter one
    found(&WrongBatch { after }, "refused with 2");
}
