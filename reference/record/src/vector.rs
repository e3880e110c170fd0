//! One record of the input.

use sheets::request::Request;

pub struct Vector {
    pub sheet: Vec<u8>,
    pub request: Request,
    /// The number that a term is asked for by.
    pub term: u32,
    /// Of the run over ranges.
    pub pairs: Vec<u16>,
}

impl Vector {
    /// The most that a record can hold.
    const MAX_SHEET: usize = 10_914;
    pub const MAX_START: usize = 40;
    const MAX_PAIR_NUMBERS: usize = 2_050;

    /// Whether the record's format has room for it.
    fn is_recordable(&self) -> bool {
        self.sheet.len() <= Self::MAX_SHEET
            && self.request.start.len() <= Self::MAX_START
            && self.pairs.len() <= Self::MAX_PAIR_NUMBERS
    }

    /// A header of 25 bytes, the start numbers, the sheet and the pairs, all
    /// numbers highest byte first.
    pub fn to_bytes(&self) -> Vec<u8> {
        assert!(self.is_recordable(), "a vector too large");
        let request = &self.request;
        let mut bytes = Vec::new();
        bytes.extend((self.sheet.len() as u16).to_be_bytes());
        bytes.push(request.start.len() as u8);
        bytes.extend(request.calls.to_be_bytes());
        bytes.extend(request.open_calls.to_be_bytes());
        bytes.extend((request.cell_bytes as u32).to_be_bytes());
        bytes.extend((request.posts as u16).to_be_bytes());
        bytes.extend((request.frame_numbers as u16).to_be_bytes());
        bytes.extend(self.term.to_be_bytes());
        bytes.extend((self.pairs.len() as u16).to_be_bytes());
        bytes.extend(request.start.iter().flat_map(|number| number.to_be_bytes()));
        bytes.extend(&self.sheet);
        bytes.extend(self.pairs.iter().flat_map(|number| number.to_be_bytes()));
        bytes
    }
}
