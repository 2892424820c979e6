//! The words of a call: NOTION KIND C V..

use crate::refusals::refused;
use isolated::{Kind, Notion, Refusal, Settings, FACTOR};

pub const USAGE: &str = "usage: tools/why NOTION KIND C V.. < FILE";

/// The settings, and the vertices as they are numbered in the file, from 1 on.
pub fn settings_and_vertices(words: &[String]) -> Result<(Settings, Vec<usize>), String> {
    let [notion, kind, c, vertices @ ..] = words else {
        return Err(refused(Refusal::Form, " by the number of words"));
    };
    let formed = |number: Option<u32>, name: &str| number.ok_or_else(|| refused(Refusal::Form, &format!(" at {name}")));
    let by_word = |refusal: Refusal, name: &str| refused(refusal, &format!(" at {name}"));
    // The form of all three comes before any bound, as in the program.
    let notion = formed(notion.parse().map(Notion::number).ok().or_else(|| number(notion)), "NOTION")?;
    let kind = formed(kind.parse().map(Kind::number).ok().or_else(|| number(kind)), "KIND")?;
    let c = formed(number(c), "C")?;
    let notion = Notion::try_from(notion).map_err(|refusal| by_word(refusal, "NOTION"))?;
    let kind = Kind::try_from(kind).map_err(|refusal| by_word(refusal, "KIND"))?;
    if !(1..=FACTOR).contains(&c) {
        return Err(by_word(Refusal::Factor, "C"));
    }
    let vertex = |word: &String| number(word).ok_or_else(|| format!("'{word}' is no number of a vertex."));
    let vertices = vertices.iter().map(|word| Ok(vertex(word)? as usize)).collect::<Result<Vec<usize>, String>>()?;
    Ok((Settings::new(notion, kind, c), vertices))
}

/// A number as the files and the program have it: 1 to 6 digits, without leading zero except 0 itself.
fn number(word: &str) -> Option<u32> {
    let digits = word.bytes().all(|byte| byte.is_ascii_digit());
    let sound = digits && (1..=6).contains(&word.len()) && (word == "0" || !word.starts_with('0'));
    sound.then(|| word.parse().ok())?
}

#[cfg(test)]
mod tests {
    use super::*;

    fn read(words: &str) -> Result<(Settings, Vec<usize>), String> {
        settings_and_vertices(&words.split(' ').map(str::to_owned).collect::<Vec<String>>())
    }

    #[test]
    fn sound_words() {
        let max = Settings::new(Notion::Max, Kind::MaximalIsolated, 2);
        assert_eq!(read("2 0 2 1 999999 0"), Ok((max, vec![1, 999_999, 0])));
        assert_eq!(read("max 0 2"), Ok((max, vec![])));
        let min = Settings::new(Notion::Min, Kind::IsolatedMaximal, 1024);
        assert_eq!(read("min 1 1024 3"), Ok((min, vec![3])));
    }

    #[test]
    fn refused_words() {
        let cases = [
            ("2 0", "refused 32 by the number of words: "),
            ("2x 0 2", "refused 32 at NOTION: "),
            ("9 0 x", "refused 32 at C: "),
            ("2 00 2", "refused 32 at KIND: "),
            ("2 0 0000002", "refused 32 at C: "),
            ("2 0 -2", "refused 32 at C: "),
            ("3 2 0", "refused 6 at NOTION: the notion is over 2. What to do: use 0 for min"),
            ("2 2 0", "refused 7 at KIND: "),
            ("2 0 0", "refused 8 at C: "),
            ("2 0 1025", "refused 8 at C: "),
            ("2 0 2 x", "'x' is no number of a vertex."),
            ("2 0 2 1 01", "'01' is no number of a vertex."),
            ("2 0 2 1 ", "'' is no number of a vertex."),
        ];
        for (words, beginning) in cases {
            let message = read(words).unwrap_err();
            assert!(message.starts_with(beginning), "{words}: {message}");
        }
    }
}
