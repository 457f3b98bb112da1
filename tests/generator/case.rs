// A stream with the sizes, the kind table and the tier that it is to be answered
// under.

use crate::write::Doc;
use std::io::{self, Write};

/// The built-in kind table: texts and dots on the screen, blocks not drawn, the rest geographic.
pub const BUILT_IN: [u8; 11] = [0, 0, 0, 0, 0, 0, 0, 1, 1, 0, 2];

#[derive(Clone)]
pub struct Case {
    pub name: String,
    /// Most bytes of stream that are taken, 0 for any number.
    pub limit: usize,
    pub work: usize,
    pub positions: usize,
    pub features: usize,
    pub warnings: usize,
    /// The kind table, fit or not.
    pub kinds: Vec<u8>,
    pub tier: u32,
    /// Where to start from in place of the tier's allowance: the module has no such thing.
    pub allowance: Option<usize>,
    pub bytes: Vec<u8>,
}

impl Case {
    /// Under the sizes of the program `place`, the kind table that it lends, and the larger tier,
    /// which it names.
    pub fn place(name: impl Into<String>, bytes: Vec<u8>) -> Case {
        Case {
            name: name.into(),
            limit: 32_768,
            work: 2_048,
            positions: 2_048,
            features: 512,
            warnings: 512,
            kinds: BUILT_IN.to_vec(),
            tier: 1,
            allowance: None,
            bytes,
        }
    }

    pub fn doc(name: impl Into<String>, doc: &Doc) -> Case {
        Case::place(name, doc.stream())
    }

    pub fn with(mut self, change: impl FnOnce(&mut Case)) -> Case {
        change(&mut self);
        self
    }

    pub fn write(&self, out: &mut impl Write) -> io::Result<()> {
        let Case { name, limit, work, positions, features, warnings, tier, bytes, .. } = self;
        let kinds = self.kinds.iter().map(|entry| format!("{entry:02x}")).collect();
        let kinds = if self.kinds.is_empty() { "-".to_string() } else { kinds };
        let allowance = self.allowance.map_or("-".to_string(), |n| n.to_string());
        let length = bytes.len();
        write!(out, "case {name} {limit} {work} {positions} {features} {warnings}")?;
        writeln!(out, " {kinds} {tier} {allowance} {length}")?;
        out.write_all(bytes)
    }
}
