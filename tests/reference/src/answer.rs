//! The answer of the Shorten operation.

#[derive(Clone, PartialEq, Eq, Debug, Default)]
pub struct Answer {
    pub number: u32,
    pub record: u32,
    pub moved: u32,
    pub grown: u32,
    pub fresh: u32,
    pub rescued: u32,
    /// The bytes written; empty where the file is refused.
    pub output: Vec<u8>,
}

impl Answer {
    pub fn refused(number: u32, record: u32) -> Answer {
        Answer { number, record, ..Answer::default() }
    }

    /// Number, record, moved, grown, fresh, rescued and length.
    pub fn numbers(&self) -> [u32; 7] {
        let length = self.output.len() as u32;
        [self.number, self.record, self.moved, self.grown, self.fresh, self.rescued, length]
    }
}
