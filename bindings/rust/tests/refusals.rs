//! Misuse gets a refusal with its reason and changes nothing.
use nukasobe::{Arena, Refusal, RECORD_WORDS};

fn some() -> Arena {
    let mut a = Arena::new(128).unwrap();
    assert_eq!(a.malloc(24), Ok(16));
    assert_eq!(a.malloc(100), Ok(48));
    a
}

/// Asks and sees that the arena stays as it was.
fn refused<T: std::fmt::Debug + PartialEq>(
    a: &mut Arena,
    why: Refusal,
    ask: impl Fn(&mut Arena) -> Result<T, Refusal>,
) {
    let before = a.clone();
    assert_eq!(ask(a), Err(why));
    assert!(*a == before);
}

#[test]
fn word_counts() {
    for words in [0, 1, 14, 15, 17, 8191, 8194, usize::MAX] {
        assert_eq!(Arena::new(words), Err(Refusal::WordCount));
    }
    for words in [16, 18, 8190, 8192] {
        assert!(Arena::new(words).is_ok_and(|a| a.is_sound()));
    }
    let mut odd = Arena::from_parts(*some().record(), vec![0; 17]);
    refused(&mut odd, Refusal::WordCount, |a| a.malloc(1));
    assert!(!odd.is_sound());
}

#[test]
fn unsound() {
    let (record, words) = some().into_parts();
    let places = (0..RECORD_WORDS).map(|i| {
        let mut record = record;
        record[i] ^= 32;
        Arena::from_parts(record, words.clone())
    });
    for mut a in places {
        let why = Refusal::NotSound;
        assert!(!a.is_sound());
        refused(&mut a, why, |a| a.malloc(u64::MAX));
        refused(&mut a, why, |a| a.free(1));
        refused(&mut a, why, |a| a.realloc(16, 40));
        refused(&mut a, why, |a| a.memalign(3, 40));
        refused(&mut a, why, |a| a.usable(16));
        refused(&mut a, why, |a| a.words(16).map(|w| w.len()));
        refused(&mut a, why, |a| a.words_mut(16).map(|w| w.len()));
    }
}

#[test]
fn alignments_and_bytes() {
    let mut a = some();
    for alignment in [0, 1, 16, 33, 48, 8192, 1 << 32, u64::MAX] {
        refused(&mut a, Refusal::Alignment, |a| {
            a.memalign(alignment, u64::MAX)
        });
    }
    for bytes in [1025, u64::MAX] {
        refused(&mut a, Refusal::TooManyBytes, |a| a.malloc(bytes));
        refused(&mut a, Refusal::TooManyBytes, |a| a.realloc(16, bytes));
        refused(&mut a, Refusal::TooManyBytes, |a| a.realloc(17, bytes));
        refused(&mut a, Refusal::TooManyBytes, |a| a.memalign(32, bytes));
    }
    refused(&mut a, Refusal::NoRoom, |a| a.malloc(1024));
    refused(&mut a, Refusal::NoRoom, |a| a.realloc(16, 1024));
    refused(&mut a, Refusal::NoRoom, |a| a.memalign(4096, 0));
}

#[test]
fn offsets() {
    let mut a = some();
    // what looks like a head in a block makes no block
    a.words_mut(48).unwrap()[1] = 48 + 3;
    for offset in [
        0,
        8,
        15,
        17,
        24,
        64,
        160,
        176,
        1024,
        1 << 40,
        u64::MAX - 15,
        u64::MAX,
    ] {
        let why = Refusal::NotLive(offset);
        refused(&mut a, why, |a| a.free(offset));
        refused(&mut a, why, |a| a.realloc(offset, 0));
        refused(&mut a, why, |a| a.usable(offset));
        refused(&mut a, why, |a| a.words(offset).map(|w| w.len()));
        refused(&mut a, why, |a| a.words_mut(offset).map(|w| w.len()));
    }
}

#[test]
fn double_free() {
    let mut a = some();
    a.free(16).unwrap();
    refused(&mut a, Refusal::NotLive(16), |a| a.free(16));
    // live again when a new block starts there
    assert_eq!(a.malloc(24), Ok(16));
    assert_eq!(a.free(16), Ok(()));
}

#[test]
fn lent_words() {
    let mut a = some();
    assert_eq!((a.usable(16), a.usable(48)), (Ok(24), Ok(104)));
    a.words_mut(16).unwrap().fill(u64::MAX);
    a.words_mut(48).unwrap().fill(u64::MAX);
    assert!(a.is_sound());
    assert_eq!(a.words(16).unwrap(), [u64::MAX; 3]);
    assert_eq!(a.words(48).unwrap(), [u64::MAX; 13]);
    assert_eq!(a.malloc(24), Ok(160));
    a.words_mut(160).unwrap().fill(5);
    assert_eq!(a.words(48).unwrap(), [u64::MAX; 13]);
}

#[test]
fn said_in_words() {
    let all = [
        Refusal::WordCount,
        Refusal::NotSound,
        Refusal::Alignment,
        Refusal::TooManyBytes,
        Refusal::NotLive(40),
        Refusal::NoRoom,
    ];
    assert_eq!(all.map(Refusal::number), [1, 2, 3, 4, 5, 6]);
    assert_eq!(all[4].to_string(), "no live block starts at offset 40");
    assert!(all.iter().all(|r| !r.to_string().is_empty()));
}
