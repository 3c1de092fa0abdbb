//! Types as bytes: the reader and the writer (document 01, "Record bytes" and "Thirteen ways of saying no").

use crate::limits::{COPIES, DEPTH, LARGEST, NAME, SIZES, TYPES, UNKNOWN};
use crate::uiua::{Dim, DynShape, Scalar, ScalarBox, Type};

const NONE: u8 = 255;

const SHAPE: [u8; 2] = *b"SH";
const SCALAR: [u8; 2] = *b"SC";
const BOX: [u8; 2] = *b"BX";

/// A refusal: its number and its place.
#[derive(Clone, Copy, Debug, PartialEq)]
pub struct No {
    pub number: u8,
    pub place: usize,
}

pub fn no<T>(number: u8, place: usize) -> Result<T, No> {
    Err(No { number, place })
}

/// A type that is all there is, or refusal 6 at the first byte after it.
pub fn read_lone(bytes: &[u8]) -> Result<Type, No> {
    let mut reader = Reader::new(bytes);
    let ty = reader.outermost()?;
    if reader.at < bytes.len() { no(6, reader.at) } else { Ok(ty) }
}

/// The length of the type that begins the bytes, whatever follows it.
pub fn begun_length(bytes: &[u8]) -> Result<usize, No> {
    let mut reader = Reader::new(bytes);
    reader.outermost()?;
    Ok(reader.at)
}

/// Goes over bytes from left to right. `types` counts the types begun in the outermost one.
pub struct Reader<'a> {
    bytes: &'a [u8],
    pub at: usize,
    types: usize,
}

impl<'a> Reader<'a> {
    pub fn new(bytes: &'a [u8]) -> Self {
        Reader { bytes, at: 0, types: 0 }
    }
    pub fn ended(&self) -> bool {
        self.at == self.bytes.len()
    }
    /// The next byte, or refusal 1 at the record it belongs to.
    pub fn byte(&mut self, record: usize) -> Result<u8, No> {
        let Some(&byte) = self.bytes.get(self.at) else {
            return no(1, record);
        };
        self.at += 1;
        Ok(byte)
    }
    /// Two mark bytes, judged by the caller once both are there.
    pub fn mark(&mut self) -> Result<[u8; 2], No> {
        let record = self.at;
        Ok([self.byte(record)?, self.byte(record)?])
    }
    pub fn outermost(&mut self) -> Result<Type, No> {
        self.types = 0;
        self.ty(1)
    }
    fn ty(&mut self, depth: usize) -> Result<Type, No> {
        if self.types == TYPES || depth > DEPTH {
            return no(5, self.at);
        }
        self.types += 1;
        let shape = self.shape()?;
        let scalar = self.scalar(depth)?;
        Ok(Type { scalar, shape })
    }
    /// The first byte of a record that must begin with this mark.
    fn record(&mut self, mark: [u8; 2]) -> Result<usize, No> {
        let record = self.at;
        if self.mark()? == mark { Ok(record) } else { no(2, record) }
    }
    /// A byte that must be at most `most`, or 255 where that stands for none.
    fn count(&mut self, record: usize, most: usize) -> Result<usize, No> {
        let count = self.byte(record)? as usize;
        if count > most { no(3, record) } else { Ok(count) }
    }
    fn count_or_none(&mut self, record: usize, most: usize) -> Result<Option<usize>, No> {
        if self.bytes.get(self.at) == Some(&NONE) {
            self.at += 1;
            return Ok(None);
        }
        self.count(record, most).map(Some)
    }
    fn shape(&mut self) -> Result<DynShape, No> {
        let record = self.record(SHAPE)?;
        let opening = self.count(record, SIZES)?;
        let closing = self.count_or_none(record, SIZES)?;
        let dims = self.sizes(record, opening)?;
        let suffix = closing.map(|n| self.sizes(record, n)).transpose()?;
        Ok(DynShape { dims, suffix })
    }
    fn sizes(&mut self, record: usize, count: usize) -> Result<Vec<Dim>, No> {
        let mut sizes = Vec::with_capacity(count);
        for _ in 0..count {
            sizes.push(self.size(record)?);
        }
        Ok(sizes)
    }
    fn size(&mut self, record: usize) -> Result<Dim, No> {
        let Some(&size) = self.bytes[self.at..].first_chunk() else {
            return no(1, record);
        };
        self.at += size.len();
        match u64::from_le_bytes(size) {
            UNKNOWN => Ok(Dim::Dyn),
            size if size > LARGEST as u64 => no(4, record),
            size => Ok(Dim::Static(size as usize)),
        }
    }
    fn scalar(&mut self, depth: usize) -> Result<Scalar, No> {
        let record = self.record(SCALAR)?;
        Ok(match self.byte(record)? {
            8 => Scalar::Box(self.boxed(depth)?),
            kind if (kind as usize) < KINDS.len() => TABLE[kind as usize].clone(),
            _ => return no(3, record),
        })
    }
    fn boxed(&mut self, depth: usize) -> Result<ScalarBox, No> {
        let record = self.record(BOX)?;
        Ok(match self.byte(record)? {
            0 => ScalarBox::Any,
            1 => ScalarBox::All(Box::new(self.ty(depth + 1)?)),
            2 => {
                let name = self.name(record)?;
                let count = self.count(record, COPIES)?;
                let mut fields = Vec::with_capacity(count);
                for _ in 0..count {
                    fields.push(self.ty(depth + 1)?);
                }
                ScalarBox::Def(name, fields)
            }
            _ => return no(3, record),
        })
    }
    fn name(&mut self, record: usize) -> Result<Option<String>, No> {
        let Some(length) = self.count_or_none(record, NAME)? else {
            return Ok(None);
        };
        let mut name = String::with_capacity(length);
        for _ in 0..length {
            name.push(self.letter(record)?);
        }
        Ok(Some(name))
    }
    /// Judged one by one, unlike a mark's bytes or a size's.
    pub fn letter(&mut self, record: usize) -> Result<char, No> {
        match self.byte(record)? {
            letter @ 32..=126 => Ok(letter as char),
            _ => no(3, record),
        }
    }
}

/// The kinds in order; a box stands for every box.
pub const KINDS: [Scalar; 10] = [
    Scalar::Bool,
    Scalar::Nat,
    Scalar::Int,
    Scalar::Num,
    Scalar::Complex,
    Scalar::Ascii,
    Scalar::Char,
    Scalar::Stream,
    Scalar::Box(ScalarBox::Any),
    Scalar::Any,
];

/// The same once and for all, since a constant is made anew at each use.
static TABLE: [Scalar; 10] = KINDS;

pub fn kind(scalar: &Scalar) -> u8 {
    let same = |kind: &Scalar| std::mem::discriminant(kind) == std::mem::discriminant(scalar);
    TABLE.iter().position(same).expect("a kind of the list") as u8
}

// The writer knows no limits, so that the generator can write what is refused.

pub fn type_bytes(ty: &Type) -> Vec<u8> {
    [shape_bytes(&ty.shape), scalar_bytes(&ty.scalar)].concat()
}

pub fn shape_bytes(shape: &DynShape) -> Vec<u8> {
    let closing = shape.suffix.as_deref();
    let counts = [shape.dims.len() as u8, closing.map_or(NONE, |sizes| sizes.len() as u8)];
    let sizes = shape.dims.iter().chain(closing.unwrap_or(&[]));
    let sizes = sizes.flat_map(|&size| size_number(size).to_le_bytes());
    SHAPE.into_iter().chain(counts).chain(sizes).collect()
}

fn size_number(size: Dim) -> u64 {
    match size {
        Dim::Static(size) => size as u64,
        Dim::Dyn => UNKNOWN,
    }
}

pub fn scalar_bytes(scalar: &Scalar) -> Vec<u8> {
    let mut bytes = SCALAR.to_vec();
    bytes.push(kind(scalar));
    if let Scalar::Box(inside) = scalar {
        bytes.extend(BOX);
        match inside {
            ScalarBox::Any => bytes.push(0),
            ScalarBox::All(ty) => {
                bytes.push(1);
                bytes.extend(type_bytes(ty));
            }
            ScalarBox::Def(name, fields) => {
                bytes.push(2);
                bytes.extend(def_bytes(name.as_deref(), fields));
            }
        }
    }
    bytes
}

/// Name, count and types, as they stand in a Def.
pub fn def_bytes(name: Option<&str>, fields: &[Type]) -> Vec<u8> {
    let mut bytes = vec![name.map_or(NONE, |name| name.len() as u8)];
    bytes.extend(name.unwrap_or("").bytes());
    bytes.push(fields.len() as u8);
    bytes.extend(fields.iter().flat_map(type_bytes));
    bytes
}

/// The types directly inside a box.
fn inside(ty: &Type) -> &[Type] {
    match &ty.scalar {
        Scalar::Box(ScalarBox::All(ty)) => std::slice::from_ref(ty),
        Scalar::Box(ScalarBox::Def(_, fields)) => fields,
        _ => &[],
    }
}

pub fn types(ty: &Type) -> usize {
    1 + inside(ty).iter().map(types).sum::<usize>()
}

pub fn depth(ty: &Type) -> usize {
    1 + inside(ty).iter().map(depth).max().unwrap_or(0)
}
