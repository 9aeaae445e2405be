//! Text that is a tree: bytes to nodes, or a fault of form (7).

use crate::labels::{quoted_label, unquoted_label};

pub struct Node {
    pub kind: Kind,
    /// The token behind its colon, if there is one.
    pub length: Option<Vec<u8>>,
}

pub enum Kind {
    /// What its label reads as.
    Leaf(Vec<u8>),
    Inner(Vec<Node>),
}

/// A fault of form.
#[derive(Debug)]
pub struct Fault;

const MOST_OPEN_BRACKETS: usize = 63;

/// "33 to 126, without `( ) [ ] ' : ; ,`."
pub fn is_label_byte(b: u8) -> bool {
    (33..=126).contains(&b) && !b"()[]':;,".contains(&b)
}

/// "Space, tab, CR and LF."
pub fn is_blank(b: u8) -> bool {
    matches!(b, b' ' | b'\t' | b'\r' | b'\n')
}

/// "A text is one node."
pub fn read_text(text: &[u8]) -> Result<Node, Fault> {
    let mut reader = Reader { rest: text };
    let node = reader.node(0)?;
    match reader.next_byte() {
        None => Ok(node),
        Some(_) => Err(Fault),
    }
}

struct Reader<'a> {
    rest: &'a [u8],
}

impl Reader<'_> {
    /// The first byte of the next token or sign; the blanks before it are dropped.
    fn next_byte(&mut self) -> Option<u8> {
        while let Some((b, rest)) = self.rest.split_first() {
            if !is_blank(*b) {
                return Some(*b);
            }
            self.rest = rest;
        }
        None
    }

    /// Takes the sign if it comes next.
    fn take(&mut self, sign: u8) -> bool {
        let comes = self.next_byte() == Some(sign);
        if comes {
            self.rest = &self.rest[1..];
        }
        comes
    }

    /// Takes the token that comes next, "a longest run of label bytes"; empty if none comes.
    fn token(&mut self) -> Vec<u8> {
        self.next_byte();
        let token: Vec<u8> = self.rest.iter().copied().take_while(|b| is_label_byte(*b)).collect();
        self.rest = &self.rest[token.len()..];
        token
    }

    /// Takes the label that comes next, in quotes or a token, and answers what it reads as; none if none comes.
    fn label(&mut self) -> Result<Option<Vec<u8>>, Fault> {
        if self.next_byte() == Some(b'\'') {
            let (label, behind) = quoted_label(self.rest).ok_or(Fault)?;
            self.rest = behind;
            return Ok(Some(label));
        }
        let token = self.token();
        Ok((!token.is_empty()).then(|| unquoted_label(&token)))
    }

    /// A node inside as many brackets as are open.
    fn node(&mut self, open: usize) -> Result<Node, Fault> {
        let kind = if self.take(b'(') {
            if open == MOST_OPEN_BRACKETS {
                return Err(Fault);
            }
            let children = self.children(open + 1)?;
            self.label()?;
            Kind::Inner(children)
        } else {
            Kind::Leaf(self.label()?.ok_or(Fault)?)
        };
        Ok(Node { kind, length: self.length()? })
    }

    /// "Two or more nodes with commas between, a closing bracket."
    fn children(&mut self, open: usize) -> Result<Vec<Node>, Fault> {
        let mut children = vec![self.node(open)?];
        while self.take(b',') {
            children.push(self.node(open)?);
        }
        if self.take(b')') && children.len() >= 2 {
            Ok(children)
        } else {
            Err(Fault)
        }
    }

    /// A colon wants a length, which is a token; without a colon there is none.
    fn length(&mut self) -> Result<Option<Vec<u8>>, Fault> {
        if !self.take(b':') {
            return Ok(None);
        }
        Some(self.token()).filter(|token| is_length(token)).map(Some).ok_or(Fault)
    }
}

/// "Optional sign, digits with at most one point among or beside them, at least one digit, and
/// optionally e or E, optional sign, one or more digits."
pub fn is_length(token: &[u8]) -> bool {
    match token.iter().position(|b| matches!(b, b'e' | b'E')) {
        None => is_decimal(token),
        Some(at) => is_decimal(&token[..at]) && is_exponent(&token[at + 1..]),
    }
}

fn is_decimal(part: &[u8]) -> bool {
    let part = without_sign(part);
    let digits = part.iter().filter(|b| b.is_ascii_digit()).count();
    let points = part.iter().filter(|b| **b == b'.').count();
    digits + points == part.len() && digits >= 1 && points <= 1
}

fn is_exponent(part: &[u8]) -> bool {
    let part = without_sign(part);
    !part.is_empty() && part.iter().all(u8::is_ascii_digit)
}

fn without_sign(part: &[u8]) -> &[u8] {
    match part.first() {
        Some(b'+' | b'-') => &part[1..],
        _ => part,
    }
}
