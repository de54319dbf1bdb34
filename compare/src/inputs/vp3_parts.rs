//! VP3 files put together from their parts by request 1's text, each part as odd as is
//! wanted.

pub const OPENING: &[u8; 6] = b"%vsm%\0";

/// Bytes of a file without texts, blocks and bytes left over.
pub const HEAD: usize = 114;

/// Bytes of a block without texts, stitches and bytes left over.
pub const BLOCK: usize = 49;

/// A file.
#[derive(Clone, Default)]
pub struct Whole {
    /// In the order of their places: of the file, of the file part, two of the design part.
    pub texts: [Vec<u8>; 4],
    pub blocks: Vec<Colour>,
    /// The stored count, if it is not that of the blocks.
    pub count: Option<u16>,
    /// Bytes left over in the design part, the file part and the file.
    pub left_over: [Vec<u8>; 3],
    /// What the fixed fields are filled with that tell nothing.
    pub fill: u8,
}

/// A colour block.
#[derive(Clone, Default)]
pub struct Colour {
    pub thread: [u8; 3],
    pub texts: [Vec<u8>; 3],
    /// The two shift fields, x and y.
    pub shift: (i32, i32),
    pub stitches: Vec<u8>,
    /// Bytes left over in the colour part.
    pub left_over: Vec<u8>,
}

impl Whole {
    /// A file of these blocks.
    pub fn of(blocks: Vec<Colour>) -> Whole {
        Whole {
            blocks,
            ..Whole::default()
        }
    }

    pub fn bytes(&self) -> Vec<u8> {
        let [first, second, third, fourth] = &self.texts;
        let [in_design, in_inner, in_file] = &self.left_over;
        let mut design = vec![self.fill; 8 + 3 + 24];
        put_text(&mut design, third);
        self.fill(&mut design, 2 + 16 + 6);
        put_text(&mut design, fourth);
        let count = self.count.unwrap_or(self.blocks.len() as u16);
        design.extend(count.to_be_bytes());
        for block in &self.blocks {
            self.fill(&mut design, 3);
            put_part(&mut design, &block.bytes(self.fill));
        }
        design.extend(in_design);
        let mut inner = Vec::new();
        put_text(&mut inner, second);
        self.fill(&mut inner, 16 + 4 + 5 + 3);
        put_part(&mut inner, &design);
        inner.extend(in_inner);
        let mut file = OPENING.to_vec();
        put_text(&mut file, first);
        self.fill(&mut file, 3);
        put_part(&mut file, &inner);
        file.extend(in_file);
        file
    }

    fn fill(&self, out: &mut Vec<u8>, count: usize) {
        out.resize(out.len() + count, self.fill);
    }
}

impl Colour {
    /// A block of these stitch bytes that shifts by so much.
    pub fn of(stitches: &[u8], shift: (i32, i32)) -> Colour {
        Colour {
            thread: [0x12, 0x34, 0x56],
            shift,
            stitches: stitches.to_vec(),
            ..Colour::default()
        }
    }

    fn bytes(&self, fill: u8) -> Vec<u8> {
        let mut out = vec![fill; 8 + 2];
        out.extend(self.thread);
        out.extend([fill; 3 + 2]);
        for text in &self.texts {
            put_text(&mut out, text);
        }
        out.extend(self.shift.0.to_be_bytes());
        out.extend(self.shift.1.to_be_bytes());
        out.extend([fill; 3]);
        put_part(&mut out, &[&[fill; 3], &self.stitches[..]].concat());
        out.extend(&self.left_over);
        out
    }
}

/// A text behind its length of two bytes.
fn put_text(out: &mut Vec<u8>, text: &[u8]) {
    let length = u16::try_from(text.len()).expect("a length of two bytes");
    out.extend(length.to_be_bytes());
    out.extend(text);
}

/// A part behind its length of four bytes.
fn put_part(out: &mut Vec<u8>, part: &[u8]) {
    let length = u32::try_from(part.len()).expect("a length of four bytes");
    out.extend(length.to_be_bytes());
    out.extend(part);
}
