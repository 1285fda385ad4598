//! The rebuild after a lost record: ours beside the crate, which is brought to the same state on a fresh region.
use crate::library::{empty_record, Answer, Library, Ours};
use crate::look;
use crate::oracle::{Chunk, Oracle};
use crate::reading;

/// Makes our record anew. Granted exactly where the independent reading finds a tiling and the start is 0, and then gives
/// the crate in the rebuilt state, every word compared; refused, only the empty record is written, and what was is put back.
pub fn rebuild(
    lib: &dyn Library,
    ours: &mut Ours,
    start: u64,
) -> Result<(Answer, Option<Oracle>), String> {
    let before = ours.clone();
    let told = reading::tiling(&ours.words);
    let expected = match told {
        _ if start != 0 => 1,
        None => 2,
        Some(_) => 0,
    };
    let answer = ours.rebuild(lib, start)?;
    if answer.number != expected {
        return Err(format!("rebuild, start {start}: {answer}, not {expected}"));
    }
    let chunks = match told {
        Some(told) if start == 0 => told.chunks,
        _ => {
            if ours.words != before.words || ours.record != empty_record() {
                return Err(format!("rebuild: {answer}, but not the empty record alone"));
            }
            *ours = before;
            return Ok((answer, None));
        }
    };
    let heap = Oracle::in_order(&before.words, &chunks);
    look::differs(&heap, ours, &live(&before.words, &chunks))
        .map_err(|what| format!("after the rebuild, {what}"))?;
    if lib.sound(&ours.record, &ours.words) != 0 || !reading::sound(&ours.record, &ours.words) {
        return Err("rebuilt, but not sound".to_string());
    }
    Ok((answer, Some(heap)))
}

/// By offset / 16: where a block in use starts.
fn live(words: &[u64], chunks: &[Chunk]) -> Vec<bool> {
    let mut live = vec![false; words.len() / 2 + 1];
    for chunk in chunks.iter().filter(|c| c.used) {
        live[chunk.offset as usize / 16 + 1] = true;
    }
    live
}
