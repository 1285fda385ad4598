//! Document 01's "A morning on 128 words".
use nukasobe::{Arena, Refusal};

const DV: usize = 2;
const DVSIZE: usize = 3;
const TOP: usize = 4;
const TOPSIZE: usize = 5;
const NONE: u64 = u64::MAX;

fn fresh() -> Arena {
    Arena::new(128).unwrap()
}

/// State M.
fn m() -> Arena {
    let mut a = fresh();
    let blocks = [24, 25, 232, 233].map(|n| a.malloc(n).unwrap());
    assert_eq!(blocks, [16, 48, 96, 336]);
    assert_eq!(pair(&a, TOP, TOPSIZE), (576, 368));
    a
}

/// State D.
fn d() -> Arena {
    let mut a = m();
    a.free(96).unwrap();
    assert_eq!(a.malloc(24), Ok(96));
    assert_eq!(pair(&a, DV, DVSIZE), (112, 208));
    a
}

fn pair(a: &Arena, place: usize, size: usize) -> (u64, u64) {
    (a.record()[place], a.record()[size])
}

#[test]
fn set_up() {
    let a = fresh();
    assert_eq!(pair(&a, TOP, TOPSIZE), (0, 944));
    assert_eq!((a.all_words()[1], a.all_words()[119]), (945, 80));
    assert_eq!(a.all_words().iter().filter(|w| **w != 0).count(), 2);
    assert!(a.is_sound());
}

#[test]
fn small_bins_and_the_spare_chunk() {
    let mut a = m();
    a.free(16).unwrap();
    assert_eq!(a.malloc(1), Ok(16));
    let mut a = d();
    assert_eq!(a.malloc(100), Ok(128));
    assert_eq!(a.malloc(88), Ok(240));
    assert_eq!(pair(&a, DV, DVSIZE), (NONE, 0));
}

#[test]
fn resizes() {
    let mut a = d();
    assert_eq!(a.realloc(96, 232), Ok(96));
    assert_eq!(pair(&a, DV, DVSIZE), (NONE, 0));
    let mut a = d();
    a.words_mut(96).unwrap().copy_from_slice(&[7, 8, 9]);
    assert_eq!(a.realloc(96, 233), Ok(592));
    assert_eq!(a.words(592).unwrap()[..3], [7, 8, 9]);
    assert_eq!(pair(&a, DV, DVSIZE), (80, 240));
    assert_eq!(a.record()[TOPSIZE], 112);
}

#[test]
fn the_top() {
    let mut a = fresh();
    assert_eq!(a.malloc(920), Ok(16));
    assert_eq!(a.record()[TOPSIZE], 16);
    assert_eq!(fresh().malloc(921), Err(Refusal::NoRoom));
    let mut a = fresh();
    assert_eq!(a.malloc(24), Ok(16));
    assert_eq!(a.realloc(16, 920), Ok(16));
    assert_eq!(a.realloc(16, 921), Err(Refusal::NoRoom));
}

#[test]
fn aligned() {
    let mut a = fresh();
    assert_eq!(a.memalign(64, 24), Ok(64));
    assert_eq!(pair(&a, TOP, TOPSIZE), (80, 864));
    let mut a = fresh();
    assert_eq!(a.memalign(32, 24), Ok(64));
    assert_eq!(a.usable(64), Ok(40));
    assert_eq!(a.record()[TOP], 96);
    let mut a = fresh();
    assert_eq!(a.malloc(72), Ok(16));
    assert_eq!(a.memalign(64, 24), Ok(192));
    assert_eq!(a.record()[TOP], 208);
}

#[test]
fn the_record_is_fresh_again() {
    let mut a = m();
    for block in [336, 16, 96, 48] {
        a.free(block).unwrap();
    }
    assert_eq!(a.record(), fresh().record());
}

#[test]
fn the_smallest_arena() {
    let mut a = Arena::new(16).unwrap();
    assert_eq!(a.malloc(24), Ok(16));
    assert_eq!(a.malloc(0), Err(Refusal::NoRoom));
    assert_eq!(Arena::new(16).unwrap().malloc(25), Err(Refusal::NoRoom));
}
