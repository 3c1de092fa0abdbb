//! Names that a sheet has declared, each for a type (document 02, 2026-06).

use crate::bytes::{No, Reader, no};
use crate::limits::{LETTERS, NAMES};
use crate::uiua::Type;

/// A name's length and its bytes, which are all of the step's record and are judged one by one.
pub fn read(reader: &mut Reader, record: usize) -> Result<String, No> {
    match reader.byte(record)? as usize {
        length @ 1..=LETTERS => (0..length).map(|_| reader.letter(record)).collect(),
        _ => no(3, record),
    }
}

/// The names, by first declaration, with the types in force.
#[derive(Default)]
pub struct Names(Vec<(String, Type)>);

impl Names {
    /// Supersedes an earlier declaration of the same name. A seventeenth name is refusal 16.
    pub fn declare(&mut self, name: String, ty: Type) -> Result<(), No> {
        if let Some((_, in_force)) = self.0.iter_mut().find(|(declared, _)| *declared == name) {
            *in_force = ty;
        } else if self.0.len() == NAMES {
            return no(16, 0);
        } else {
            self.0.push((name, ty));
        }
        Ok(())
    }
    /// The type in force. A name that was never declared is refusal 15.
    pub fn in_force(&self, name: &str) -> Result<Type, No> {
        match self.0.iter().find(|(declared, _)| declared == name) {
            Some((_, ty)) => Ok(ty.clone()),
            None => no(15, 0),
        }
    }
}
