//! The refusals in words: the list of `docs/refusals.tsv`.

use isolated::Refusal;

/// A refusal's number, its sentence and what to do about it, as one line. `place` says which word or line, if any.
pub fn refused(refusal: Refusal, place: &str) -> String {
    let number = refusal.number().to_string();
    let fields = include_str!("../../../docs/refusals.tsv").lines().find_map(|line| {
        let (its, rest) = line.split_once('\t')?;
        (its == number).then(|| rest.split_once('\t'))?
    });
    match fields {
        Some((sentence, advice)) => format!("refused {number}{place}: {sentence}. What to do: {advice}."),
        None => format!("refused {number}{place}: {refusal}."),
    }
}

#[cfg(test)]
mod tests {
    use super::*;

    #[test]
    fn every_refusal_has_its_sentence_and_advice() {
        for &refusal in Refusal::ALL {
            let line = refused(refusal, " in line 7");
            let beginning = format!("refused {} in line 7: {}. What to do: ", refusal.number(), refusal.sentence());
            assert!(line.starts_with(&beginning) && line.len() > beginning.len() + 9, "{line}");
        }
    }
}
