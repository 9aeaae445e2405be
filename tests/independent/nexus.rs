//! A NEXUS file: the plain texts of its trees, or 15 or 16. By entries 2026-01 and 2026-02 of document 02.

use crate::labels::{first_outside, label};
use crate::text::{is_blank, is_label_byte};
use std::collections::BTreeSet;

pub const MOST_KEYS: usize = 64;

/// "15 block malformed, 16 key listed twice; in that order"; the file is "judged whole first".
pub fn plain_texts(file: &[u8]) -> Result<Vec<Vec<u8>>, u32> {
    let bytes = without_comments(file).ok_or(15u32)?;
    let block = Reader { rest: &bytes }.file().ok_or(15u32)?;
    let keys: BTreeSet<&[u8]> = block.pairs.iter().map(|(key, _)| *key).collect();
    if keys.len() < block.pairs.len() {
        return Err(16);
    }
    Ok(block.texts.iter().map(|text| block.plain(text)).collect())
}

/// A comment "ends at the first `]` and reads as a blank"; "quotes hide brackets", and an apostrophe in a comment means
/// nothing. None if a comment or quotes do not end.
fn without_comments(file: &[u8]) -> Option<Vec<u8>> {
    let mut out = Vec::new();
    let mut rest = file;
    while let Some(at) = rest.iter().position(|b| matches!(b, b'[' | b'\'')) {
        let comment = rest[at] == b'[';
        let (closing, plain) = if comment { (b']', at) } else { (b'\'', at + 1) };
        let end = at + 2 + rest[at + 1..].iter().position(|b| *b == closing)?;
        out.extend(&rest[..plain]);
        out.extend(if comment { b" " } else { &rest[plain..end] });
        rest = &rest[end..];
    }
    out.extend(rest);
    Some(out)
}

/// How many bytes of quotes come next, doubled ones among them; they end in a file without comments.
fn quotes_long(bytes: &[u8]) -> usize {
    let mut long = 0;
    while bytes[long..].first() == Some(&b'\'') {
        let inside = bytes[long + 1..].iter().take_while(|b| **b != b'\'').count();
        long = (long + inside + 2).min(bytes.len());
    }
    long
}

/// The TREES block.
#[derive(Default)]
struct Block<'a> {
    /// Keys and names.
    pairs: Vec<(&'a [u8], &'a [u8])>,
    texts: Vec<&'a [u8]>,
}

impl Block<'_> {
    /// "Keys replaced by names", each "as it stands there, quotes and all". No key has quotes.
    fn plain(&self, text: &[u8]) -> Vec<u8> {
        with_labels(text, |_, part| {
            let pair = self.pairs.iter().find(|(key, _)| *key == part);
            pair.map_or(part, |(_, name)| name).to_vec()
        })
    }
}

/// A text with each token, and what stands in quotes with them, changed "except after `)` or `:`", blanks between them
/// or not; the change is told where it stands.
pub fn with_labels(text: &[u8], mut change: impl FnMut(usize, &[u8]) -> Vec<u8>) -> Vec<u8> {
    let mut out = Vec::new();
    let mut last_sign = b' ';
    let mut rest = text;
    while let Some(first) = rest.first() {
        let long = rest.iter().take_while(|b| is_label_byte(**b)).count().max(quotes_long(rest));
        let (part, behind) = rest.split_at(long.max(1));
        if long == 0 || matches!(last_sign, b')' | b':') {
            out.extend(part);
        } else {
            out.extend(change(text.len() - rest.len(), part));
        }
        if !is_blank(*first) {
            last_sign = part[part.len() - 1];
        }
        rest = behind;
    }
    out
}

/// What is left of a file without comments. Each part of it is read or is none, which makes the file malformed.
struct Reader<'a> {
    rest: &'a [u8],
}

impl<'a> Reader<'a> {
    /// "`#NEXUS` and its one TREES block", other blocks before and behind it.
    fn file(&mut self) -> Option<Block<'a>> {
        self.keyword(b"#NEXUS")?;
        let mut found = None;
        while self.next_byte().is_some() {
            self.keyword(b"BEGIN")?;
            let name = self.token()?;
            self.sign(b';')?;
            if !is_word(name, b"TREES") {
                self.other_block()?;
            } else if found.replace(self.trees_block()?).is_some() {
                return None;
            }
        }
        found
    }

    /// "Another block runs to its first `END;`" outside quotes.
    fn other_block(&mut self) -> Option<()> {
        while self.next_byte().is_some() {
            match self.token() {
                Some(token) if is_word(token, b"END") && self.sign(b';').is_some() => return Some(()),
                Some(_) => (),
                None => self.rest = &self.rest[quotes_long(self.rest).max(1)..],
            }
        }
        None
    }

    /// "An optional TRANSLATE list of keys and names, `TREE name = text;` lines, `END;`."
    fn trees_block(&mut self) -> Option<Block<'a>> {
        let mut block = Block::default();
        let mut word = self.token()?;
        if is_word(word, b"TRANSLATE") {
            block.pairs = self.pairs()?;
            word = self.token()?;
        }
        while is_word(word, b"TREE") {
            block.texts.push(self.tree()?);
            word = self.token()?;
        }
        self.sign(b';').filter(|()| is_word(word, b"END"))?;
        Some(block)
    }

    /// One pair or more with commas between, and a semicolon; "a 65th key is malformed".
    fn pairs(&mut self) -> Option<Vec<(&'a [u8], &'a [u8])>> {
        let mut pairs = vec![(self.token()?, self.name()?)];
        while self.sign(b',').is_some() {
            pairs.push((self.token()?, self.name()?));
        }
        self.sign(b';').filter(|()| pairs.len() <= MOST_KEYS)?;
        Some(pairs)
    }

    /// "Name a token without `=`"; the text is all between the first `=` and the first semicolon outside quotes.
    fn tree(&mut self) -> Option<&'a [u8]> {
        self.next_byte();
        self.run(|b| is_label_byte(b) && b != b'=')?;
        self.sign(b'=')?;
        let (text, behind) = self.rest.split_at(first_outside(false, self.rest, b';')?);
        self.rest = &behind[1..];
        Some(text)
    }

    // Bytes, signs and tokens

    /// The first byte behind the blanks, which are dropped.
    fn next_byte(&mut self) -> Option<u8> {
        let blanks = self.rest.iter().take_while(|b| is_blank(**b)).count();
        self.rest = &self.rest[blanks..];
        self.rest.first().copied()
    }

    /// The longest run of such bytes that comes next; none if it is empty.
    fn run(&mut self, of: impl Fn(u8) -> bool) -> Option<&'a [u8]> {
        let long = self.rest.iter().take_while(|b| of(**b)).count();
        let (run, behind) = self.rest.split_at(long);
        self.rest = behind;
        (long > 0).then_some(run)
    }

    fn token(&mut self) -> Option<&'a [u8]> {
        self.next_byte();
        self.run(is_label_byte)
    }

    /// A token, or a label in quotes with them.
    fn name(&mut self) -> Option<&'a [u8]> {
        if self.next_byte() != Some(b'\'') {
            return self.token();
        }
        let (name, behind) = self.rest.split_at(quotes_long(self.rest));
        self.rest = behind;
        label(name).is_some().then_some(name)
    }

    /// Takes the sign if it comes next, and nothing but blanks if not.
    fn sign(&mut self, sign: u8) -> Option<()> {
        self.next_byte().filter(|b| *b == sign)?;
        self.rest = &self.rest[1..];
        Some(())
    }

    fn keyword(&mut self, word: &[u8]) -> Option<()> {
        self.token().filter(|token| is_word(token, word)).map(|_| ())
    }
}

/// "Keywords ignore case."
fn is_word(token: &[u8], word: &[u8]) -> bool {
    token.eq_ignore_ascii_case(word)
}
