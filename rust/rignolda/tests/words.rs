//! Words of a store, by the public calls.
use rignolda::{word, Frame};

#[test]
fn words_are_those_of_the_format() {
    let frame = Frame { label: 3, item: 7 };
    assert_eq!(word::of_frame(frame), (1 << 48) + (3 << 32) + 7);
    assert_eq!(word::of_label(3), (1 << 16) + 3);
    let last = Frame {
        label: 65535,
        item: u32::MAX,
    };
    assert_eq!(word::of_frame(last), (1 << 49) - 1);
    assert_eq!(word::of_label(65535), (1 << 17) - 1);
}

#[test]
fn each_word_shows_one_message_or_none() {
    for label in 0..=65535 {
        let frame = Frame {
            label,
            item: u32::from(label) * 65521,
        };
        assert_eq!(word::frame(word::of_frame(frame)), Some(frame));
        assert_eq!(word::label(word::of_frame(frame)), None);
        assert_eq!(word::label(word::of_label(label)), Some(label));
        assert_eq!(word::frame(word::of_label(label)), None);
    }
    for word in [0, 1, 65535, 1 << 17, (1 << 48) - 1, 1 << 49, u64::MAX] {
        assert_eq!(
            (word::frame(word), word::label(word)),
            (None, None),
            "{word}"
        );
    }
}
