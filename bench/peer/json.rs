//! A small exact reader of JSON (RFC 8259) onto a tape, which serves one line after the other.
use crate::cursor::Cursor;

/// The most arrays and objects within each other.
const DEEPEST: usize = 127;

/// A value, or the name of a member, which its value follows.
enum Node {
    /// Null, true, false, or a number that isn't a whole number of 64 bits.
    Other,
    Whole(u64),
    /// From where to where it stands in the line.
    Text(usize, usize),
    /// From where to where it stands in what was decoded: it had escapes.
    Decoded(usize, usize),
    /// Where the tape goes on after its items, or its members.
    List(usize),
    Object(usize),
}

#[derive(Default)]
pub struct Tape {
    nodes: Vec<Node>,
    decoded: String,
}

#[derive(Clone, Copy)]
pub enum Value<'a> {
    Other,
    Whole(u64),
    Text(&'a str),
    List(Part<'a>),
    Object(Part<'a>),
}

/// The items of a list, or the members of an object.
#[derive(Clone, Copy)]
pub struct Part<'a> {
    tape: &'a Tape,
    line: &'a str,
    first: usize,
    end: usize,
}

impl<'a> Part<'a> {
    /// The last value of a name.
    pub fn get(&self, name: &str) -> Option<Value<'a>> {
        let (mut at, mut found) = (self.first, None);
        while at < self.end {
            if matches!(self.value(at), Value::Text(text) if text == name) {
                found = Some(at + 1);
            }
            at = self.after(at + 1);
        }
        found.map(|at| self.value(at))
    }

    pub fn items(self) -> impl Iterator<Item = Value<'a>> {
        let mut at = self.first;
        std::iter::from_fn(move || {
            let item = (at < self.end).then(|| self.value(at));
            at = self.after(at);
            item
        })
    }

    fn value(&self, at: usize) -> Value<'a> {
        let part = |end| Part {
            first: at + 1,
            end,
            ..*self
        };
        match self.tape.nodes[at] {
            Node::Other => Value::Other,
            Node::Whole(number) => Value::Whole(number),
            Node::Text(start, end) => Value::Text(&self.line[start..end]),
            Node::Decoded(start, end) => Value::Text(&self.tape.decoded[start..end]),
            Node::List(end) => Value::List(part(end)),
            Node::Object(end) => Value::Object(part(end)),
        }
    }

    /// Where the value after this one stands.
    fn after(&self, at: usize) -> usize {
        match self.tape.nodes.get(at) {
            Some(Node::List(end) | Node::Object(end)) => *end,
            _ => at + 1,
        }
    }
}

impl Tape {
    /// What a line spells, or None where it is no JSON.
    pub fn read<'a>(&'a mut self, line: &'a [u8]) -> Option<Value<'a>> {
        self.nodes.clear();
        self.decoded.clear();
        let mut reader = Reader {
            cursor: Cursor::new(line)?,
            tape: self,
        };
        reader.value(0)?;
        reader.cursor.end()?;
        let line = reader.cursor.line;
        let all = Part {
            tape: self,
            line,
            first: 0,
            end: self.nodes.len(),
        };
        Some(all.value(0))
    }
}

struct Reader<'a, 't> {
    cursor: Cursor<'a>,
    tape: &'t mut Tape,
}

impl Reader<'_, '_> {
    fn word(&mut self, word: &[u8]) -> Option<()> {
        let is_next = self.cursor.line.as_bytes()[self.cursor.at..].starts_with(word);
        self.cursor.at += word.len();
        is_next.then_some(())
    }

    /// Takes the next byte if it is one of these.
    fn skip(&mut self, bytes: &[u8]) -> bool {
        let is_next = self.cursor.peek().is_some_and(|byte| bytes.contains(&byte));
        self.cursor.at += usize::from(is_next);
        is_next
    }

    fn value(&mut self, depth: usize) -> Option<()> {
        self.cursor.space();
        let node = match self.cursor.peek()? {
            b'{' => return self.object(depth + 1),
            b'[' => return self.list(depth + 1),
            b'"' => return self.string(),
            b't' => self.word(b"true").map(|()| Node::Other)?,
            b'f' => self.word(b"false").map(|()| Node::Other)?,
            b'n' => self.word(b"null").map(|()| Node::Other)?,
            _ => self.number()?,
        };
        self.tape.nodes.push(node);
        Some(())
    }

    fn object(&mut self, depth: usize) -> Option<()> {
        let start = self.begin(depth)?;
        if !self.cursor.takes(b'}') {
            loop {
                self.string()?;
                self.cursor.expect(b':')?;
                self.value(depth)?;
                if self.cursor.takes(b'}') {
                    break;
                }
                self.cursor.expect(b',')?;
            }
        }
        self.tape.nodes[start] = Node::Object(self.tape.nodes.len());
        Some(())
    }

    fn list(&mut self, depth: usize) -> Option<()> {
        let start = self.begin(depth)?;
        if !self.cursor.takes(b']') {
            loop {
                self.value(depth)?;
                if self.cursor.takes(b']') {
                    break;
                }
                self.cursor.expect(b',')?;
            }
        }
        self.tape.nodes[start] = Node::List(self.tape.nodes.len());
        Some(())
    }

    /// Takes the bracket, and makes a node, which is set when its end is known.
    fn begin(&mut self, depth: usize) -> Option<usize> {
        if depth > DEEPEST {
            return None;
        }
        self.cursor.at += 1;
        self.tape.nodes.push(Node::Other);
        Some(self.tape.nodes.len() - 1)
    }

    fn string(&mut self) -> Option<()> {
        self.cursor.expect(b'"')?;
        let start = self.cursor.at;
        let end = self.plain()?;
        if end == b'"' {
            self.tape.nodes.push(Node::Text(start, self.cursor.at - 1));
            return Some(());
        }
        self.decoded(start, end)
    }

    /// Goes over plain bytes, and takes the one that ends them: a quote, a backslash or a control character.
    fn plain(&mut self) -> Option<u8> {
        let rest = &self.cursor.line.as_bytes()[self.cursor.at..];
        let length = rest
            .iter()
            .position(|byte| matches!(byte, b'"' | b'\\' | 0..=31))?;
        self.cursor.at += length + 1;
        Some(rest[length])
    }

    /// The rest of a text with escapes, of which the first stands behind the plain bytes from `start` on.
    fn decoded(&mut self, start: usize, end: u8) -> Option<()> {
        let (mut start, mut end, first) = (start, end, self.tape.decoded.len());
        loop {
            let text = &self.cursor.line[start..self.cursor.at - 1];
            self.tape.decoded.push_str(text);
            match end {
                b'"' => break,
                b'\\' => {
                    let character = self.escape()?;
                    self.tape.decoded.push(character);
                }
                _ => return None,
            }
            start = self.cursor.at;
            end = self.plain()?;
        }
        self.tape
            .nodes
            .push(Node::Decoded(first, self.tape.decoded.len()));
        Some(())
    }

    fn escape(&mut self) -> Option<char> {
        let byte = self.cursor.peek()?;
        self.cursor.at += 1;
        Some(match byte {
            b'"' | b'\\' | b'/' => byte as char,
            b'b' => '\x08',
            b'f' => '\x0c',
            b'n' => '\n',
            b'r' => '\r',
            b't' => '\t',
            b'u' => return self.unicode(),
            _ => return None,
        })
    }

    /// The character of an escape, which may be a pair of surrogates.
    fn unicode(&mut self) -> Option<char> {
        let first = self.four_digits()?;
        if !(0xd800..0xdc00).contains(&first) {
            return char::from_u32(first);
        }
        self.word(b"\\u")?;
        let second = self.four_digits()?;
        if !(0xdc00..0xe000).contains(&second) {
            return None;
        }
        char::from_u32(0x10000 + ((first - 0xd800) << 10) + (second - 0xdc00))
    }

    fn four_digits(&mut self) -> Option<u32> {
        let mut number = 0;
        for _ in 0..4 {
            number = number * 16 + (self.cursor.peek()? as char).to_digit(16)?;
            self.cursor.at += 1;
        }
        Some(number)
    }

    fn number(&mut self) -> Option<Node> {
        let start = self.cursor.at;
        self.skip(b"-");
        if !self.skip(b"0") {
            self.cursor.digits()?;
        }
        if self.skip(b".") {
            self.cursor.digits()?;
        }
        if self.skip(b"eE") {
            self.skip(b"+-");
            self.cursor.digits()?;
        }
        let text = &self.cursor.line[start..self.cursor.at];
        match text.parse() {
            Ok(whole) => Some(Node::Whole(whole)),
            // a number beyond those of floating point is none
            Err(_) => text.parse::<f64>().ok()?.is_finite().then_some(Node::Other),
        }
    }
}
