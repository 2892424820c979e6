//! The numbers, words and sentences of the enums.

use isolated::{Kind, Notion, Refusal, TextRefusal};

/// The numbers and sentences of `docs/refusals.tsv`.
fn listed() -> Vec<(u32, &'static str)> {
    let lines = include_str!("../../docs/refusals.tsv").lines();
    lines
        .map(|line| {
            let fields: Vec<&str> = line.split('\t').collect();
            let [number, sentence, _advice] = fields[..] else { panic!("not three fields: {line}") };
            (number.parse().unwrap(), sentence)
        })
        .collect()
}

/// 41 is told by the program alone.
#[test]
fn every_refusal_has_the_sentence_of_the_list() {
    let told: Vec<(u32, &str)> = Refusal::ALL.iter().map(|refusal| (refusal.number(), refusal.sentence())).collect();
    let expected: Vec<(u32, &str)> = listed().into_iter().filter(|(number, _)| *number != 41).collect();
    assert_eq!(told, expected);
    for refusal in Refusal::ALL {
        assert_eq!(refusal.to_string(), refusal.sentence());
        let refused = TextRefusal { refusal: *refusal, line: 7 };
        assert_eq!(refused.to_string(), format!("line 7: {}", refusal.sentence()));
    }
}

#[test]
fn every_number_has_its_refusal() {
    let named: Vec<u32> = (0..100).filter(|&number| Refusal::of_number(number).is_some()).collect();
    let expected: Vec<u32> = (1..=11).chain(21..=23).chain(31..=40).chain(42..=45).collect();
    assert_eq!(named, expected);
    assert!(named.iter().all(|&number| Refusal::of_number(number).unwrap().number() == number));
}

#[test]
fn notions_and_kinds_by_word_and_number() {
    for notion in Notion::ALL {
        assert_eq!(notion.to_string().parse(), Ok(notion));
        assert_eq!(notion.number().to_string().parse(), Ok(notion));
        assert_eq!(Notion::try_from(notion.number()), Ok(notion));
    }
    for kind in Kind::ALL {
        assert_eq!(kind.to_string().parse(), Ok(kind));
        assert_eq!(kind.number().to_string().parse(), Ok(kind));
        assert_eq!(Kind::try_from(kind.number()), Ok(kind));
    }
    for number in [3, 4, u32::MAX] {
        assert_eq!(Notion::try_from(number), Err(Refusal::Notion));
    }
    for number in [2, 3, u32::MAX] {
        assert_eq!(Kind::try_from(number), Err(Refusal::Kind));
    }
}

#[test]
fn other_words_are_no_notion_and_no_kind() {
    for word in ["", "3", "00", "+1", " 1", "Min", "max "] {
        let error = word.parse::<Notion>().unwrap_err();
        assert_eq!(error.to_string(), "a notion is min or 0, avg or 1, max or 2", "{word:?}");
    }
    for word in ["", "2", "01", "maximal", "Maximal isolated", "isolated  maximal"] {
        let error = word.parse::<Kind>().unwrap_err();
        assert_eq!(error.to_string(), "a kind is 'maximal isolated' or 0, 'isolated maximal' or 1", "{word:?}");
    }
}
