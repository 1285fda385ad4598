//! A batch is its calls one at a time; the whole is refused, and nothing changes, where it can't begin.
use nukasobe::{Arena, Batch, Refusal};

#[test]
fn one_at_a_time() {
    let mut batch = Batch::new();
    batch
        .malloc(24)
        .malloc(232)
        .memalign(64, 24)
        .realloc(16, 100);
    batch
        .free(16)
        .free(48)
        .malloc(2000)
        .memalign(48, 1)
        .malloc(900);
    let mut whole = Arena::new(128).unwrap();
    let mut single = whole.clone();
    let told = whole.run(&batch).unwrap();
    let one = [
        single.malloc(24),
        single.malloc(232),
        single.memalign(64, 24),
        single.realloc(16, 100),
        single.free(16).map(|()| 0),
        single.free(48).map(|()| 0),
        single.malloc(2000),
        single.memalign(48, 1),
        single.malloc(900),
    ];
    assert_eq!(told, one);
    assert_eq!(told[3], Ok(416));
    assert_eq!(told[4], Err(Refusal::NotLive(16)));
    assert!(whole == single);
}

#[test]
fn an_empty_batch() {
    let mut a = Arena::new(128).unwrap();
    let before = a.clone();
    assert!(Batch::new().is_empty());
    assert_eq!(a.run(&Batch::new()), Ok(Vec::new()));
    assert!(a == before);
}

#[test]
fn unknown_kinds_and_words_behind() {
    let mut a = Arena::new(128).unwrap();
    let mut answers = [77; 7];
    let calls = [0, 24, 5, 4, 1, 2, u64::MAX, 0, 0];
    assert_eq!(a.run_words(&calls, &mut answers), Ok(3));
    assert_eq!(answers, [0, 16, 9, 0, 9, 0, 77]);
}

#[test]
fn refused_whole() {
    let mut a = Arena::new(128).unwrap();
    let before = a.clone();
    let mut answers = [77; 2];
    assert_eq!(a.run_words(&[0, 24], &mut answers), Err(Refusal::Lists));
    assert_eq!(a.run_words(&[0; 6], &mut answers), Err(Refusal::Lists));
    assert!(a == before);
    let mut odd = Arena::from_parts(*a.record(), vec![0; 17]);
    assert_eq!(odd.run_words(&[0], &mut answers), Err(Refusal::WordCount));
    let mut other = Arena::from_parts([0; 72], vec![0; 128]);
    assert_eq!(other.run_words(&[0], &mut answers), Err(Refusal::NotSound));
    assert_eq!(answers, [77; 2]);
}
