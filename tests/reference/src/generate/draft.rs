//! Payload bytes whose length fields are known, so that they can be damaged
//! and their lengths mended or not.

/// A length field: which bytes it counts, whatever is written there.
#[derive(Clone, Copy)]
struct Length {
    place: usize,
    /// The bytes from the field's first that it does not count: none in a
    /// document, the field itself in a string.
    uncounted: usize,
    end: usize,
}

const FIELD: usize = 4;

/// The bytes; the first length field is the outer document's.
#[derive(Clone, Default)]
pub struct Draft {
    pub bytes: Vec<u8>,
    lengths: Vec<Length>,
}

impl Draft {
    pub fn put(&mut self, bytes: &[u8]) {
        self.bytes.extend_from_slice(bytes);
    }

    /// Begins a document or array; answers its length field's number.
    pub fn open_document(&mut self) -> usize {
        self.open(0)
    }

    pub fn open_string(&mut self) -> usize {
        self.open(FIELD)
    }

    fn open(&mut self, uncounted: usize) -> usize {
        let place = self.bytes.len();
        self.put(&[0; FIELD]);
        self.lengths.push(Length {
            place,
            uncounted,
            end: self.bytes.len(),
        });
        self.lengths.len() - 1
    }

    /// Ends here what the length field counts, and writes the length.
    pub fn close(&mut self, number: usize) {
        self.lengths[number].end = self.bytes.len();
        self.mend(number);
    }

    /// Writes the true length plus `more`, which may be negative.
    pub fn falsify(&mut self, number: usize, more: i64) {
        let length = self.length(number) as i64;
        self.write_length(number, (length + more) as u32);
    }

    pub fn write_length(&mut self, number: usize, length: u32) {
        let place = self.lengths[number].place;
        // Damage may have cut the field itself.
        if let Some(field) = self.bytes.get_mut(place..place + FIELD) {
            field.copy_from_slice(&length.to_le_bytes());
        }
    }

    fn length(&self, number: usize) -> usize {
        let field = self.lengths[number];
        field.end.saturating_sub(field.place + field.uncounted)
    }

    fn mend(&mut self, number: usize) {
        let length = self.length(number);
        self.write_length(number, length as u32);
    }

    pub fn mend_outer(&mut self) {
        self.mend(0);
    }

    pub fn mend_all(&mut self) {
        (0..self.lengths.len()).for_each(|number| self.mend(number));
    }

    /// How many length fields there are.
    pub fn fields(&self) -> usize {
        self.lengths.len()
    }

    /// Inserts a byte; what is around it counts it once its length is mended.
    pub fn insert(&mut self, at: usize, byte: u8) {
        self.bytes.insert(at, byte);
        for length in &mut self.lengths {
            length.place += usize::from(length.place >= at);
            length.end += usize::from(length.end > at);
        }
    }

    pub fn remove(&mut self, at: usize) {
        self.bytes.remove(at);
        for length in &mut self.lengths {
            length.place -= usize::from(length.place > at);
            length.end -= usize::from(length.end > at);
        }
    }

    /// Keeps the front only.
    pub fn cut(&mut self, keep: usize) {
        self.bytes.truncate(keep);
        for length in &mut self.lengths {
            length.end = length.end.min(keep);
        }
    }

    /// Adds bytes behind the end; the outer document counts them once mended.
    pub fn extend(&mut self, bytes: &[u8]) {
        self.put(bytes);
        self.lengths[0].end = self.bytes.len();
    }
}
