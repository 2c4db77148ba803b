//! A file of records in blocks.

/// No record lies in two blocks.
const BLOCK: usize = 65_536;

#[derive(Default)]
pub struct File {
    pub bytes: Vec<u8>,
    pub records: usize,
}

/// A record's kind, its words and its lists, one behind the other.
pub struct Record {
    bytes: Vec<u8>,
}

impl Record {
    pub fn new(kind: u64) -> Self {
        let bytes = [kind, 0].map(u64::to_le_bytes).concat();
        Record { bytes }
    }

    pub fn word(&mut self, word: u64) -> &mut Self {
        self.bytes.extend(word.to_le_bytes());
        self
    }

    /// There is one NaN, and this is how it is written.
    pub fn answer(&mut self, x: f64) -> &mut Self {
        match x.is_nan() {
            true => self.word(0x7FF8_0000_0000_0000),
            false => self.word(x.to_bits()),
        }
    }

    /// Arguments keep their bits, those of a NaN too.
    pub fn doubles(&mut self, doubles: &[f64]) -> &mut Self {
        for x in doubles {
            self.word(x.to_bits());
        }
        self
    }

    pub fn list(&mut self, list: &[u8]) -> &mut Self {
        self.bytes.extend(list);
        self
    }

    pub fn len(&self) -> usize {
        self.bytes.len()
    }
}

impl File {
    /// Puts a record behind the others, in the next block where this one has no room for it.
    pub fn push(&mut self, record: &Record) {
        let mut bytes = record.bytes.clone();
        bytes.resize(bytes.len().next_multiple_of(8), 0);
        let len = bytes.len();
        assert!(len <= BLOCK, "a record has room in a block");
        bytes[8..16].copy_from_slice(&(len as u64).to_le_bytes());
        if self.bytes.len() % BLOCK + len > BLOCK {
            self.bytes
                .resize(self.bytes.len().next_multiple_of(BLOCK), 0);
        }
        self.bytes.extend(bytes);
        self.records += 1;
    }
}
