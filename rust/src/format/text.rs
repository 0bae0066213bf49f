//! A record's numbers as a text, as hosts/record.c prints and reads it.

use super::block::{parts, Block, Vector};
use super::encoding::{Contents, Opening};

/// What a text says: numbers, decimal, between blanks and line ends; `#` starts a comment, to the end of its line. The opening stands
/// before them, as the word `opening` and its number; where there is none, it is 1.
pub fn contents_of(text: &str) -> Result<Contents, String> {
    let words: Vec<&str> = text.lines().flat_map(|line| line.split('#').take(1)).flat_map(str::split_whitespace).collect();
    let (opening, words) = match words[..] {
        ["opening"] => return Err("opening: its number is missing".to_string()),
        ["opening", number, ref others @ ..] => (opening_of(number)?, others),
        ref others => (Opening::One, others),
    };
    let number = |word: &&str| word.parse().map_err(|error| format!("{word}: {error}"));
    Ok(Contents { opening, numbers: words.iter().map(number).collect::<Result<_, _>>()? })
}

fn opening_of(word: &str) -> Result<Opening, String> {
    let number = word.parse().map_err(|error| format!("opening {word}: {error}"))?;
    Opening::told(number).ok_or_else(|| format!("opening {word}: there is none"))
}

/// The text that `record -n` (hosts/record.c) prints of a record's numbers.
pub fn text_of(contents: &Contents) -> String {
    let sizes = &contents.numbers[..contents.opening.sizes().len()];
    let mut lines = match contents.opening {
        Opening::One => vec![line(sizes, "M Q N C D")],
        Opening::Two | Opening::Three => {
            vec![format!("opening {}", contents.opening.number()), line(sizes, "M Q N C W D")]
        }
    };
    let Block { owners, vectors, .. } = Block::of(contents);
    for ((vector, &owner), index) in vectors.iter().zip(&owners).zip(1..) {
        lines.push(format!("# vector {index}"));
        lines.extend(contents.opening.has_owners().then(|| line(&[owner as i64], "owner")));
        lines.extend(vector_lines(vector));
    }
    lines.join("\n") + "\n"
}

/// A line for each row of R, one for y and one for each stream's priors.
fn vector_lines(vector: &Vector) -> Vec<String> {
    let bits = vector.priors.len() / vector.matrix.len();
    let rows = vector.rows().zip(1..).map(|(numbers, row)| line(&numbers, &format!("R, row {row}")));
    let received = line(&parts(&vector.received), "y");
    let priors = vector.priors.chunks(bits).zip(1..).map(|(priors, stream)| line(priors, &format!("priors, stream {stream}")));
    rows.chain([received]).chain(priors).collect()
}

fn line(numbers: &[i64], what: &str) -> String {
    let words: Vec<String> = numbers.iter().map(i64::to_string).collect();
    format!("{}   # {what}", words.join(" "))
}

#[cfg(test)]
mod tests {
    use super::*;
    use crate::inputs::samples::all;

    const VECTOR: [i64; 12] = [11, 12, 13, 14, 15, 16, 17, 18, 19, 20, 21, -22];

    const VECTOR_LINES: &str = "\
11 12 13   # R, row 1
14   # R, row 2
15 16 17 18   # y
19 20   # priors, stream 1
21 -22   # priors, stream 2
";

    fn numbers_of(text: &str) -> Result<(u32, Vec<i64>), String> {
        contents_of(text).map(|contents| (contents.opening.number(), contents.numbers))
    }

    #[test]
    fn the_text_of_one_vector() {
        let contents = Contents { opening: Opening::One, numbers: [[2, 2, 1, 10, 3].as_slice(), &VECTOR].concat() };
        assert_eq!(text_of(&contents), format!("2 2 1 10 3   # M Q N C D\n# vector 1\n{VECTOR_LINES}"));
    }

    #[test]
    fn the_text_of_one_vector_with_w() {
        let contents = Contents { opening: Opening::Two, numbers: [[2, 2, 1, 10, 7, 3].as_slice(), &VECTOR].concat() };
        assert_eq!(text_of(&contents), format!("opening 2\n2 2 1 10 7 3   # M Q N C W D\n# vector 1\n{VECTOR_LINES}"));
    }

    #[test]
    fn the_text_of_two_vectors_with_owners() {
        let numbers = [[2, 2, 2, 10, 7, 3, 4].as_slice(), &VECTOR, &[1], &VECTOR].concat();
        let first = format!("# vector 1\n4   # owner\n{VECTOR_LINES}");
        let second = format!("# vector 2\n1   # owner\n{VECTOR_LINES}");
        let text = format!("opening 3\n2 2 2 10 7 3   # M Q N C W D\n{first}{second}");
        assert_eq!(text_of(&Contents { opening: Opening::Three, numbers }), text);
    }

    #[test]
    fn a_text_gives_its_numbers_back() {
        for (name, contents) in all() {
            assert_eq!(contents_of(&text_of(&contents)), Ok(contents), "{name}");
        }
    }

    #[test]
    fn a_text_has_words_and_comments() {
        assert_eq!(numbers_of("1 -2\t+3#4 5\r\n\n # 6\n7"), Ok((1, vec![1, -2, 3, 7])));
        assert_eq!(numbers_of("# none"), Ok((1, vec![])));
        assert!(numbers_of("1 2x").is_err());
    }

    #[test]
    fn a_text_may_say_the_opening() {
        assert_eq!(numbers_of("opening 2\n1 -2"), Ok((2, vec![1, -2])));
        assert_eq!(numbers_of(" # W\n opening # which?\n\t2 1"), Ok((2, vec![1])));
        assert_eq!(numbers_of("opening 1 2"), Ok((1, vec![2])));
        assert_eq!(numbers_of("opening 2"), Ok((2, vec![])));
        assert_eq!(numbers_of("opening 3\n1 -2"), Ok((3, vec![1, -2])));
        for text in ["opening", "opening # 2", "opening 0", "opening 4 1", "opening -2", "opening x", "1 opening 2", "opening3 1"]
        {
            assert!(numbers_of(text).is_err(), "{text}");
        }
    }
}
