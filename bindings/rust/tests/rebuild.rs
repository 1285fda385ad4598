//! The rebuild after a lost record.
use nukasobe::{Arena, Refusal};

const NONE: u64 = u64::MAX;

/// Document 01's state D, its blocks filled.
fn d() -> Arena {
    let mut a = Arena::new(128).unwrap();
    for bytes in [24, 25, 232, 233] {
        a.malloc(bytes).unwrap();
    }
    a.free(96).unwrap();
    assert_eq!(a.malloc(24), Ok(96));
    for block in [16, 48, 96, 336] {
        a.words_mut(block).unwrap().fill(block);
    }
    a
}

#[test]
fn state_d() {
    let (record, words) = d().into_parts();
    assert_eq!(record[2..4], [112, 208]);
    let mut a = Arena::rebuild(words, 0).unwrap();
    assert!(a.is_sound());
    // the spare chunk stands in small bin 26 now
    assert_eq!(a.record()[2..4], [NONE, 0]);
    assert_eq!(a.record()[8 + 26], 112);
    for block in [16, 48, 96, 336] {
        assert!(a.words(block).unwrap().iter().all(|w| *w == block));
    }
    assert_eq!(a.malloc(200), Ok(128));
    for block in [16, 48, 96, 336, 128] {
        a.free(block).unwrap();
    }
    assert_eq!(a.record(), Arena::new(128).unwrap().record());
}

#[test]
fn refused() {
    let (_, words) = d().into_parts();
    let back = |words: &Vec<u64>, start| Arena::rebuild(words.clone(), start).unwrap_err();
    for start in [1, 8, 16, 4096, NONE] {
        assert_eq!(back(&words, start), (Refusal::WordCount, words.clone()));
    }
    let odd = words[..127].to_vec();
    assert_eq!(back(&odd, 0), (Refusal::WordCount, odd));
    // a head's flag, a free chunk's foot, the foot word
    for (k, bit) in [(1, 4), (40, 16), (119, 1)] {
        let mut other = words.clone();
        other[k] ^= bit;
        assert_eq!(back(&other, 0), (Refusal::NotSound, other.clone()));
    }
}
