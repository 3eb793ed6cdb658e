//! Dictionaries in braces, and the header of a file, which is one.

use super::tokens::{Spot, Token, Tokens};
use crate::mistake::{quoted, Mistake};

/// The entries of a dictionary that have words: key, line and words. Inner dictionaries are passed over.
#[derive(Debug, Default)]
pub struct Dictionary<'a> {
    entries: Vec<(&'a str, usize, Vec<&'a str>)>,
}

impl<'a> Dictionary<'a> {
    /// Reads up to the brace that ends it; the one that begins it is read already.
    pub fn read(tokens: &mut Tokens<'a>) -> Result<Self, Mistake> {
        let mut dictionary = Self::default();
        loop {
            let spot = tokens.need("an entry or `}`")?;
            match spot.token {
                Token::Mark('}') => return Ok(dictionary),
                Token::Word(key) | Token::Text(key) => {
                    let words = entry(tokens, key, spot.line)?;
                    dictionary.entries.push((key, spot.line, words));
                }
                Token::Mark(_) => return Err(spot.unlike("an entry or `}`")),
            }
        }
    }

    /// The single word of an entry, with its line, where the entry is there.
    pub fn get(&self, key: &str) -> Result<Option<(usize, &'a str)>, Mistake> {
        let found = self.entries.iter().rev().find(|(name, _, _)| *name == key);
        match found {
            None => Ok(None),
            Some((_, line, words)) => match words[..] {
                [word] => Ok(Some((*line, word))),
                _ => Err(Mistake::new(
                    *line,
                    format!("expected one word after `{key}`"),
                )),
            },
        }
    }
}

/// What stands after a key, up to `;`, or nothing of a dictionary in braces.
fn entry<'a>(tokens: &mut Tokens<'a>, key: &str, line: usize) -> Result<Vec<&'a str>, Mistake> {
    let mut words = Vec::new();
    let mut depth = 0_usize;
    let mut is_dictionary = false;
    loop {
        let endless = || Mistake::new(line, format!("the entry {} has no end `;`", quoted(key)));
        let spot = tokens.next()?.ok_or_else(endless)?;
        match spot.token {
            Token::Word(word) | Token::Text(word) => words.push(word),
            Token::Mark(';') if depth == 0 => return Ok(words),
            Token::Mark(';') => {}
            Token::Mark(mark @ ('(' | '{')) => {
                is_dictionary |= depth == 0 && mark == '{' && words.is_empty();
                depth += 1;
            }
            Token::Mark(_) => depth = lower(&spot, depth)?,
        }
        if depth == 0 && is_dictionary {
            return Ok(Vec::new());
        }
    }
}

fn lower(spot: &Spot<'_>, depth: usize) -> Result<usize, Mistake> {
    depth.checked_sub(1).ok_or_else(|| spot.unlike("`;`"))
}

/// Reads the header `FoamFile { ... }`, where there is one, and sees that the file is text.
pub fn header(tokens: &mut Tokens<'_>) -> Result<(), Mistake> {
    match tokens.peek()?.map(|spot| spot.token) {
        Some(Token::Word("FoamFile")) => {}
        _ => return Ok(()),
    }
    tokens.next()?;
    tokens.mark('{', "`{` after `FoamFile`")?;
    let dictionary = Dictionary::read(tokens)?;
    if let Some((line, format)) = dictionary.get("format")? {
        if format != "ascii" {
            let reason = format!(
                "the format is {}, and only `ascii` is read: write the mesh anew with `writeFormat ascii`, as by foamFormatConvert",
                quoted(format)
            );
            return Err(Mistake::new(line, reason));
        }
    }
    if let Some((line, class @ "faceCompactList")) = dictionary.get("class")? {
        let reason = format!("the class is `{class}`, and only `faceList` is read");
        return Err(Mistake::new(line, reason));
    }
    Ok(())
}
