//! Patches applied to a document, one after another.

use crate::arguments::{wrong, Arguments};
use crate::command::Command;
use crate::files::{Name, Text};
use crate::trouble::Trouble;
use json_patch::origins::{self, Listed};
use json_patch::undo::{self, apply_with_undo, UndoWork, Written};
use json_patch::{
    apply, apply_within, elements, merge, Kind, Refusal, Work, MAX_BYTES, MAX_NODES, TOOL_OUTPUT,
};
use std::os::unix::ffi::OsStrExt;

/// A document, and the patches for it.
pub struct Run {
    /// The document.
    pub document: Text,
    /// The patches, at least one.
    pub patches: Vec<Text>,
    /// The region that the patches must keep to, where one is given.
    pub region: Option<Vec<u8>>,
}

/// The patch that was refused, and where.
pub struct Refused {
    /// The refusal.
    pub refusal: Refusal,
    /// The patch that was refused, counted from 0.
    pub index: usize,
    /// The text that the patches before it left.
    pub document: Vec<u8>,
    /// Whether the patch applies and only its undo was refused, with that of the
    /// patches before it.
    pub undo: bool,
}

impl Run {
    /// Reads the document and every patch that a command was given.
    pub fn read(command: &Command, arguments: &Arguments) -> Result<Self, Trouble> {
        let [document, patches @ ..] = &arguments.operands[..] else {
            return Err(wrong(command, "no document and no patch are given"));
        };
        if patches.is_empty() {
            return Err(wrong(command, "no patch is given"));
        }
        if arguments.operands.iter().filter(|name| *name == "-").count() > 1 {
            return Err(wrong(command, "standard input can be read only once"));
        }
        let document = Text::read(document)?;
        let patches = patches.iter().map(|name| Text::read(name)).collect::<Result<_, _>>()?;
        let region = arguments.value("region").map(|region| region.as_bytes().to_vec());
        Ok(Run { document, patches, region })
    }

    /// The text that the last patch leaves, or the first refusal.
    pub fn result(&self) -> Result<Vec<u8>, Refused> {
        let mut text = self.document.bytes.clone();
        for (index, patch) in self.patches.iter().enumerate() {
            let result = match &self.region {
                Some(region) => applied_within(&text, &patch.bytes, region),
                None => applied(&text, &patch.bytes),
            };
            text = match result {
                Ok(next) => next,
                Err(refusal) => {
                    return Err(Refused { refusal, index, document: text, undo: false })
                }
            };
        }
        Ok(text)
    }

    /// The same, with a patch that takes all of them back.
    pub fn result_with_undo(&self) -> Result<(Vec<u8>, Vec<u8>), Refused> {
        let (mut text, mut undo) = (self.document.bytes.clone(), b"[]".to_vec());
        for (index, patch) in self.patches.iter().enumerate() {
            let (refusal, of_undo) = match self.step_with_undo(&text, &patch.bytes) {
                Ok((next, first)) => {
                    undo = joined(&first, &undo);
                    match unreadable(&undo) {
                        None => {
                            text = next;
                            continue;
                        }
                        Some(refusal) => (refusal, true),
                    }
                }
                Err(undo::Refused::Patch(refusal)) => (refusal, false),
                Err(undo::Refused::Undo(refusal)) => (refusal, true),
            };
            return Err(Refused { refusal, index, document: text, undo: of_undo });
        }
        Ok((text, undo))
    }

    /// One patch applied with its undo. Where a region is given, the patch must keep to
    /// it, and is then applied as any patch is.
    fn step_with_undo(
        &self,
        text: &[u8],
        patch: &[u8],
    ) -> Result<(Vec<u8>, Vec<u8>), undo::Refused> {
        if let Some(region) = &self.region {
            applied_within(text, patch, region).map_err(undo::Refused::Patch)?;
        }
        applied_with_undo(text, patch)
    }

    /// The text that the first patch leaves as a merge patch, or its refusal.
    pub fn merged(&self) -> Result<Vec<u8>, Refused> {
        let document = &self.document.bytes;
        let mut output = vec![0; TOOL_OUTPUT];
        match merge(document, &self.patches[0].bytes, &mut output, &mut Work::new()) {
            Ok(length) => {
                output.truncate(length);
                Ok(output)
            }
            Err(refusal) => {
                Err(Refused { refusal, index: 0, document: document.clone(), undo: false })
            }
        }
    }

    /// The text that the first patch leaves, and the origins of its values, or its
    /// refusal.
    pub fn origins(&self, merge: bool) -> Result<(Vec<u8>, Vec<u16>), Refused> {
        let (document, patch) = (&self.document.bytes, &self.patches[0].bytes);
        let (mut output, mut list) = (vec![0; TOOL_OUTPUT], vec![0; MAX_NODES]);
        let mut work = Work::new();
        let result = match &self.region {
            _ if merge => origins::merge(document, patch, &mut output, &mut list, &mut work),
            Some(region) => {
                origins::apply_within(document, patch, region, &mut output, &mut list, &mut work)
            }
            None => origins::apply(document, patch, &mut output, &mut list, &mut work),
        };
        match result {
            Ok(Listed { length, values }) => {
                output.truncate(length);
                list.truncate(values);
                Ok((output, list))
            }
            Err(refusal) => {
                Err(Refused { refusal, index: 0, document: document.clone(), undo: false })
            }
        }
    }

    /// What the patch with this index is applied to, in words.
    pub fn document_at(&self, index: usize) -> String {
        let name = Name(&self.document.name);
        match index {
            0 => name.to_string(),
            1 => format!("{name} after 1 patch"),
            _ => format!("{name} after {index} patches"),
        }
    }
}

/// One patch applied to a text, with as much output as the patch tool lends.
pub fn applied(document: &[u8], patch: &[u8]) -> Result<Vec<u8>, Refusal> {
    let mut output = vec![0; TOOL_OUTPUT];
    let length = apply(document, patch, &mut output, &mut Work::new())?;
    output.truncate(length);
    Ok(output)
}

/// The same within a region.
fn applied_within(document: &[u8], patch: &[u8], region: &[u8]) -> Result<Vec<u8>, Refusal> {
    let mut output = vec![0; TOOL_OUTPUT];
    let length = apply_within(document, patch, region, &mut output, &mut Work::new())?;
    output.truncate(length);
    Ok(output)
}

/// The same with its undo.
fn applied_with_undo(document: &[u8], patch: &[u8]) -> Result<(Vec<u8>, Vec<u8>), undo::Refused> {
    let (mut output, mut undo) = (vec![0; TOOL_OUTPUT], vec![0; MAX_BYTES]);
    let mut work = UndoWork::new();
    let Written { document: length, undo: of_undo } =
        apply_with_undo(document, patch, &mut output, &mut undo, &mut work)?;
    output.truncate(length);
    undo.truncate(of_undo);
    Ok((output, undo))
}

/// Two patches in a row as one.
fn joined(first: &[u8], second: &[u8]) -> Vec<u8> {
    let all: Vec<&[u8]> = elements(first).chain(elements(second)).collect();
    [b"[", &all.join(&b","[..])[..], b"]"].concat()
}

/// Why a patch could not be read, if it could not: the library is asked, with any
/// document.
fn unreadable(patch: &[u8]) -> Option<Refusal> {
    let refusal = applied(b"null", patch).err()?;
    let many = refusal.kind() == Some(Kind::TooManyOperations);
    (many || refusal.text == 2).then_some(Refusal { text: 2, op: 0, place: 0, ..refusal })
}
