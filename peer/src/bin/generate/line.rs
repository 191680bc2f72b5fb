//! Lines as they will be written.

use peer::Ending;

/// A line; a good one has 50 bytes and the file's own end.
#[derive(Clone)]
pub struct Line {
    pub body: Vec<u8>,
    pub end: End,
}

#[derive(Clone)]
pub enum End {
    /// As the file's lines end.
    Own,
    /// As the file's lines don't end.
    Other,
    /// As the file's lines end, cut short by the 10.
    WithoutTen,
    Bytes(Vec<u8>),
}

impl End {
    fn bytes(&self, ending: Ending) -> &[u8] {
        let (own, other): (&[u8], &[u8]) = match ending {
            Ending::Ten => (b"\n", b"\r\n"),
            _ => (b"\r\n", b"\n"),
        };
        match self {
            End::Own => own,
            End::Other => other,
            End::WithoutTen => &own[..own.len() - 1],
            End::Bytes(bytes) => bytes,
        }
    }
}

impl Line {
    pub fn new(text: impl AsRef<[u8]>) -> Self {
        let mut body = text.as_ref().to_vec();
        body.resize(50, b' ');
        Line { body, end: End::Own }
    }

    /// These bytes and nothing more.
    pub fn bare(body: Vec<u8>) -> Self {
        Line { body, end: End::Bytes(vec![]) }
    }

    pub fn is(&self, code: &str) -> bool {
        self.body.starts_with(code.as_bytes())
    }

    /// The field from this column (counted from 1) with this width.
    pub fn field(&mut self, column: usize, width: usize) -> &mut [u8] {
        &mut self.body[column - 1..column - 1 + width]
    }

    /// What stands in that field as text.
    pub fn text(&self, column: usize, width: usize) -> String {
        String::from_utf8_lossy(&self.body[column - 1..column - 1 + width]).into_owned()
    }

    /// What stands in that field as a number, 0 if it is none.
    pub fn number(&self, column: usize, width: usize) -> u64 {
        self.text(column, width).parse().unwrap_or(0)
    }

    pub fn set(&mut self, column: usize, content: impl AsRef<[u8]>) {
        let content = content.as_ref();
        self.field(column, content.len()).copy_from_slice(content);
    }
}

/// The bytes of a file whose lines end so.
pub fn join(lines: &[Line], ending: Ending) -> Vec<u8> {
    let mut bytes = Vec::with_capacity(lines.len() * 52);
    for line in lines {
        bytes.extend_from_slice(&line.body);
        bytes.extend_from_slice(line.end.bytes(ending));
    }
    bytes
}

/// The numbers of the lines with this code.
pub fn lines_with(lines: &[Line], code: &str) -> Vec<usize> {
    (0..lines.len()).filter(|&number| lines[number].is(code)).collect()
}
