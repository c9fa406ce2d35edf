//! The plain calendar (`paper::calendar`), with which the suites compare, by hand: document 02,
//! point 5, sentence by sentence.

use rust_tests::paper::calendar::*;

/// "Run r of flag k is word 8r + k, its tick 64r + i the bit worth 2^i."
#[test]
fn places() {
    for (tick, flag, word, value) in [
        (0, 0, 0, 1),
        (0, 7, 7, 1),
        (63, 0, 0, 1 << 63),
        (64, 0, 8, 1),
        (133, 3, 19, 32),
        (191, 7, 23, 1 << 63),
    ] {
        let mut due = [0; 24];
        due[word] = value;
        let mut words = [0; 24];
        mark(&mut words, tick, 1 << flag);
        assert_eq!(words, due, "tick {tick}, flag {flag}");
        for other in (0..192).filter(|&other| other != tick) {
            assert!(!is_up(&words, flag, other), "tick {tick}, flag {flag}, seen at {other}");
        }
        assert!(is_up(&words, flag, tick), "tick {tick}, flag {flag}");
    }
}

/// "A last group under eight keeps its content", and "ticks past the lent words are not kept".
#[test]
fn last_group() {
    let mut words = [u64::MAX; 23];
    assert_eq!(kept_ticks(&words), 128);
    clear(&mut words);
    assert_eq!((words[..16].to_vec(), words[16..].to_vec()), (vec![0; 16], vec![u64::MAX; 7]));
    let before = words;
    for tick in [128, 129, 1 << 63, u64::MAX] {
        fill(&mut words, tick, &[255; 3]);
        assert_eq!(words, before, "tick {tick}");
    }
    fill(&mut words, 126, &[1, 128, 255]);
    assert_eq!((words[8], words[15]), (1 << 62, 1 << 63));
    assert_eq!(words[16..], before[16..]);
    assert_eq!(kept_ticks(&words[..7]), 0);
}

/// A mark adds ups and takes none away.
#[test]
fn marks_stay() {
    let mut words = [0; 8];
    mark(&mut words, 5, 0b01);
    mark(&mut words, 5, 0b10);
    assert_eq!(words[..3], [32, 32, 0]);
}

/// Flag 0 is up at ticks 3, 64 and 70, of 128 that are kept.
fn some_words() -> Vec<u64> {
    let mut words = vec![0; 20];
    words[16..].fill(u64::MAX);
    for tick in [3, 64, 70] {
        mark(&mut words, tick, 1);
    }
    words
}

/// "A range has both its ends in it and is empty if the first is the larger. A range past the
/// last kept tick is cut there."
#[test]
fn ranges() {
    let words = some_words();
    for (first, last, due) in [
        (0, u64::MAX, (3, Some(3), Some(70))),
        (3, 70, (3, Some(3), Some(70))),
        (4, 70, (2, Some(64), Some(70))),
        (3, 69, (2, Some(3), Some(64))),
        (64, 64, (1, Some(64), Some(64))),
        (4, 63, (0, None, None)),
        (70, 3, (0, None, None)),
        (71, u64::MAX, (0, None, None)),
        (128, u64::MAX, (0, None, None)),
        (u64::MAX, u64::MAX, (0, None, None)),
    ] {
        let count = ups(&words, 0, first, last).unwrap();
        let ends = [first_up, last_up].map(|ask| ask(&words, 0, first, last).unwrap());
        assert_eq!((count, ends[0], ends[1]), due, "{first}..{last}");
    }
    assert_eq!(ups(&words, 1, 0, u64::MAX), Ok(0));
}

/// "The up nearest to a tick, the earlier of two equally near", "among all kept ticks".
#[test]
fn nearest() {
    let words = some_words();
    for (tick, due) in
        [(0, 3), (3, 3), (33, 3), (34, 64), (67, 64), (68, 70), (127, 70), (u64::MAX, 70)]
    {
        assert_eq!(nearest_up(&words, 0, tick), Ok(Some(due)), "tick {tick}");
    }
    // 65 is in the middle of 60 and 70.
    let mut words = vec![0; 16];
    fill(&mut words, 60, &[4, 0, 0, 0, 0, 0, 0, 0, 0, 0, 4]);
    assert_eq!(
        [64, 65, 66].map(|tick| nearest_up(&words, 2, tick)),
        [60, 60, 70].map(|up| Ok(Some(up)))
    );
    assert_eq!(nearest_up(&words, 3, 65), Ok(None));
    let mut first = vec![0; 8];
    mark(&mut first, 0, 1);
    assert_eq!(nearest_up(&first, 0, u64::MAX), Ok(Some(0)));
}

/// "A flag above 7 gets 7."
#[test]
fn flags() {
    for words in [vec![], some_words()] {
        for flag in [8, 9, 255] {
            assert_eq!(ups(&words, flag, 0, 9), Err(7));
            assert_eq!(first_up(&words, flag, 9, 0), Err(7));
            assert_eq!(last_up(&words, flag, 0, 9), Err(7));
            assert_eq!(nearest_up(&words, flag, 0), Err(7));
        }
    }
}

/// "The words agree with the stream": for every kept tick and flag.
#[test]
fn agreement() {
    let stream: Vec<u8> = (0..100).map(|tick: u8| tick.wrapping_mul(37)).collect();
    for length in [0, 7, 8, 9, 16, 23, 24] {
        let mut words = vec![0; length];
        fill(&mut words, 0, &stream);
        assert!(agrees(&words, &stream), "{length} words");
        for place in 0..length {
            let mut other = words.clone();
            other[place] ^= 1 << (place % 64);
            assert_eq!(agrees(&other, &stream), place >= length / 8 * 8, "word {place}");
        }
    }
}
