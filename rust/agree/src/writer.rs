//! Writes images: inputs, instructions, and labels that are placed later.
use model::value::Value;

/// A position that code may name before it is known.
#[derive(Clone, Copy)]
pub struct Label(usize);

pub struct Writer {
    pub slots: u8,
    pub inputs: Vec<Value>,
    code: Vec<u8>,
    /// Where each label is placed.
    places: Vec<Option<u16>>,
    /// Offsets in the code that hold a label's position.
    uses: Vec<(usize, Label)>,
}

impl Writer {
    pub fn new(slots: u8) -> Writer {
        Writer {
            slots,
            inputs: Vec::new(),
            code: Vec::new(),
            places: Vec::new(),
            uses: Vec::new(),
        }
    }

    pub fn length(&self) -> usize {
        self.code.len()
    }

    pub fn label(&mut self) -> Label {
        self.places.push(None);
        Label(self.places.len() - 1)
    }

    /// Places a label here.
    pub fn place(&mut self, label: Label) {
        self.places[label.0] = Some(self.code.len() as u16);
    }

    /// An instruction without targets.
    pub fn plain(&mut self, bytes: &[u8]) {
        self.code.extend(bytes);
    }

    pub fn constant(&mut self, value: Value) {
        append_value(&mut self.code, 0x00, value);
    }

    pub fn spawn(&mut self, target: Label) {
        self.code.push(0x18);
        self.target(target);
    }

    pub fn apply(&mut self, target: Label, slot: u8) {
        self.code.push(0x19);
        self.target(target);
        self.code.push(slot);
    }

    pub fn switch(&mut self, slot: u8, yes: Label, no: Label) {
        self.code.extend([0x17, slot]);
        self.target(yes);
        self.target(no);
    }

    fn target(&mut self, label: Label) {
        self.uses.push((self.code.len(), label));
        self.code.extend([0, 0]);
    }

    /// The image, with position 0 for a label that was never placed.
    pub fn image(mut self) -> Vec<u8> {
        for (offset, label) in &self.uses {
            let place = self.places[label.0].unwrap_or(0);
            self.code[*offset..offset + 2].copy_from_slice(&place.to_le_bytes());
        }
        let mut image = vec![0x80, self.slots];
        for input in &self.inputs {
            append_value(&mut image, 0x80, *input);
        }
        image.push(0x85);
        image.extend(self.code);
        image
    }
}

/// A constant or an input, by its base 00 or 80.
fn append_value(bytes: &mut Vec<u8>, base: u8, value: Value) {
    match value {
        Value::Integer(integer) => {
            bytes.push(base | 1);
            bytes.extend(integer.to_le_bytes());
        }
        Value::Float(float) => {
            bytes.push(base | 2);
            bytes.extend(float.to_le_bytes());
        }
        Value::Boolean(boolean) => bytes.extend([base | 3, boolean.into()]),
        Value::Nil | Value::Location(_) => bytes.push(base | 4),
    }
}
