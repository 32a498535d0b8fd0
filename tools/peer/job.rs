//! What a job says: its values by key, and the set of sequences of a device.

use crate::json::Value;
use crate::lexer;
use std::collections::HashMap;

/// Why a job is refused: the words of its line.
pub type Refusal = String;

pub fn refused<T>(what: impl Into<String>) -> Result<T, Refusal> {
    Err(what.into())
}

impl Value {
    pub fn items(&self, key: &str) -> Result<&[Value], Refusal> {
        match self.get(key) {
            None => Ok(&[]),
            Some(Value::List(items)) => Ok(items),
            Some(_) => refused(format!("WrongKind {key}")),
        }
    }

    pub fn text(&self, key: &str) -> Result<Option<&str>, Refusal> {
        match self.get(key) {
            None => Ok(None),
            Some(Value::Text(text)) => Ok(Some(text)),
            Some(_) => refused(format!("WrongKind {key}")),
        }
    }

    pub fn flag(&self, key: &str) -> Result<bool, Refusal> {
        match self.get(key) {
            None => Ok(false),
            Some(Value::Bool(flag)) => Ok(*flag),
            Some(_) => refused(format!("WrongKind {key}")),
        }
    }

    pub fn as_number(&self) -> Option<u64> {
        match self {
            Value::Whole(number) => Some(*number),
            Value::Text(text) => lexer::number(text),
            _ => None,
        }
    }

    pub fn number(&self, key: &str) -> Result<Option<u64>, Refusal> {
        match self.get(key) {
            None => Ok(None),
            Some(value) => match value.as_number() {
                None => refused(format!("BadNumber {key}")),
                number => Ok(number),
            },
        }
    }

    /// A number of 32 bits, or the one in its place where the key is absent.
    pub fn word(&self, key: &str, absent: u32) -> Result<u32, Refusal> {
        let number = self.number(key)?.unwrap_or(u64::from(absent));
        u32::try_from(number).map_err(|_| format!("BadNumber {key}"))
    }

    pub fn needed(&self, key: &str) -> Result<&Value, Refusal> {
        self.get(key).ok_or_else(|| format!("Missing {key}"))
    }
}

/// Whose sequences are requested.
#[derive(Default)]
pub struct Selection {
    pub device: String,
    pub variant: Option<String>,
    pub pname: Option<String>,
}

/// A sequence that applies.
pub struct Entry<'v> {
    pub name: &'v str,
    pub level: &'static str,
    pub is_disabled: bool,
    pub steps: &'v [Value],
    depth: usize,
    has_pname: bool,
}

#[derive(Default)]
pub struct Set<'v> {
    pub entries: Vec<Entry<'v>>,
    pub numbers: HashMap<&'v str, usize>,
    pub debugvars: &'v str,
}

type Levels<'v> = Vec<(&'static str, &'v Value)>;

/// The levels that lead to the device of the name.
fn levels_of<'v>(pack: &'v Value, selection: &Selection) -> Result<Levels<'v>, Refusal> {
    let mut found: Vec<Levels> = Vec::new();
    for family in pack.items("families")? {
        for device in family.items("devices")? {
            if device.text("Dname")? == Some(&selection.device) {
                found.push(vec![("family", family), ("device", device)]);
            }
        }
        for sub in family.items("subFamilies")? {
            for device in sub.items("devices")? {
                if device.text("Dname")? == Some(&selection.device) {
                    found.push(vec![("family", family), ("subFamily", sub), ("device", device)]);
                }
            }
        }
    }
    match found.len() {
        0 => refused("NoDevice"),
        1 => Ok(found.remove(0)),
        _ => refused("AmbiguousDevice"),
    }
}

impl<'v> Set<'v> {
    /// The set of a selection: of each name the sequence at the deepest level, and there the one for the processor first.
    pub fn of(pack: &'v Value, selection: &Selection) -> Result<Self, Refusal> {
        let mut levels = levels_of(pack, selection)?;
        if let Some(name) = &selection.variant {
            let variants = levels[levels.len() - 1].1.items("variants")?;
            let variant = variants.iter().find(|it| matches!(it.text("Dvariant"), Ok(Some(it)) if it == name));
            levels.push(("variant", variant.ok_or("NoVariant")?));
        }
        if let Some(defaults) = pack.get("defaults") {
            levels.insert(0, ("defaults", defaults));
        }
        let mut set = Set::default();
        for (depth, (level, value)) in levels.into_iter().enumerate() {
            if let Some(text) = value.text("debugvars")? {
                set.debugvars = text;
            }
            for sequence in value.items("sequences")? {
                set.add(sequence, level, depth, selection)?;
            }
        }
        Ok(set)
    }

    fn add(&mut self, sequence: &'v Value, level: &'static str, depth: usize, selection: &Selection) -> Result<(), Refusal> {
        let name = sequence.text("name")?.ok_or("Missing name")?;
        let pname = sequence.text("Pname")?;
        if pname.is_some() && pname != selection.pname.as_deref() {
            return Ok(());
        }
        sequence.needed("steps")?;
        let is_disabled = sequence.flag("disable")?;
        let steps = if is_disabled { &[] } else { sequence.items("steps")? };
        let entry = Entry { name, level, is_disabled, steps, depth, has_pname: pname.is_some() };
        match self.numbers.get(name) {
            None => {
                self.numbers.insert(name, self.entries.len());
                self.entries.push(entry);
            }
            Some(number) => {
                let old = &mut self.entries[*number];
                if old.depth == depth && old.has_pname == entry.has_pname {
                    return refused(format!("Repeated {name}"));
                }
                if old.depth < depth || entry.has_pname {
                    *old = entry;
                }
            }
        }
        Ok(())
    }
}

/// How many blocks, controls and atomic blocks steps have, at all depths.
pub fn counts(steps: &[Value]) -> Result<[usize; 3], Refusal> {
    let mut sum = [0; 3];
    for step in steps {
        if step.get("block").is_some() {
            sum[0] += 1;
            sum[2] += usize::from(step.flag("atomic")?);
        } else {
            let inside = counts(step.items("control")?)?;
            sum = [sum[0] + inside[0], sum[1] + inside[1] + 1, sum[2] + inside[2]];
        }
    }
    Ok(sum)
}
