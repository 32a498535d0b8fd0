//! The simulated target: a debug port, access ports, memory and lines. Each access is made at once.

use crate::job::{Refusal, refused};
use crate::json::Value;
use std::collections::HashMap;

const STICKY: u32 = 0x20;
const DEBUG_POWER: u32 = 0x1000_0000;
const POWER: u32 = 0x5000_0000;

/// A bus error, or STICKYERR was set before.
pub struct BusError;

#[derive(Default)]
pub struct Port {
    pub csw: u32,
    pub tar: u32,
    pub high: u32,
    pub is_large: bool,
    idr: u32,
    base: u32,
    /// whether CFG was read, which has shown whether the port has large addresses
    is_known: bool,
}

struct Region {
    address: u64,
    words: Vec<u32>,
    is_read_only: bool,
}

/// A word that shows one value after another.
struct Script {
    values: Vec<u32>,
    place: usize,
}

#[derive(Default)]
pub struct Lines {
    pub pins: u8,
    pub bits: u64,
    pub last: u64,
    pub clock: u32,
    pub delay: u64,
}

#[derive(Default)]
pub struct Target {
    pub select: u32,
    pub is_sticky: bool,
    pub reads: u32,
    pub ports: Vec<Option<Port>>,
    pub lines: Lines,
    ctrl: u32,
    power_reads: u32,
    dpidr: u32,
    carries: bool,
    regions: Vec<Region>,
    scripts: HashMap<u64, Script>,
    resets: Vec<(u64, u32)>,
}

impl Target {
    pub fn of(value: &Value) -> Result<Self, Refusal> {
        let is_powered = value.flag("powered")?;
        let power_reads = value.word("power_reads", 0)?;
        let mut target = Target {
            ctrl: if is_powered { POWER } else { 0 },
            reads: if is_powered { power_reads } else { 0 },
            power_reads,
            dpidr: value.word("dpidr", 0x2BA0_1477)?,
            carries: value.text("edge")? == Some("carry"),
            lines: Lines { pins: value.word("pins", 0xA0)? as u8, ..Lines::default() },
            ..Target::default()
        };
        target.ports.resize_with(256, || None);
        for it in value.items("aps")? {
            let number = it.needed("ap").and(it.word("ap", 0))? as usize;
            let port = Port {
                csw: it.word("csw", 0)? & 0xFF00_003F,
                idr: it.word("idr", 0x2477_0011)?,
                base: it.word("base", 0xE00F_F003)?,
                is_large: it.flag("la")?,
                ..Port::default()
            };
            *target.ports.get_mut(number).ok_or("BadNumber ap")? = Some(port);
        }
        target.fill(value)?;
        Ok(target)
    }

    fn fill(&mut self, value: &Value) -> Result<(), Refusal> {
        for it in value.items("memory")? {
            let address = it.number("address")?.ok_or("Missing address")?;
            let length = it.number("length")?.filter(|length| (4..=1 << 22).contains(length)).ok_or("BadNumber length")?;
            let is_read_only = it.text("kind")? == Some("ro");
            self.regions.push(Region { address, words: vec![0; length as usize / 4], is_read_only });
        }
        self.regions.sort_by_key(|region| region.address);
        for it in value.items("words")? {
            let address = it.number("address")?.ok_or("Missing address")?;
            *self.word_at(address).ok_or("BadNumber address")? = it.word("value", 0)?;
        }
        for it in value.items("scripts")? {
            let address = it.number("address")?.ok_or("Missing address")?;
            let values: Option<Vec<u32>> = it.items("values")?.iter().map(|it| it.as_number()?.try_into().ok()).collect();
            let values = values.ok_or("BadNumber values")?;
            if values.is_empty() || self.region_of(address).is_none() {
                return refused("BadNumber scripts");
            }
            self.scripts.insert(address, Script { values, place: 0 });
        }
        for it in value.items("reset")? {
            self.resets.push((it.number("address")?.ok_or("Missing address")?, it.word("value", 0)?));
        }
        Ok(())
    }

    // ---- memory

    fn region_of(&self, address: u64) -> Option<usize> {
        let after = self.regions.partition_point(|region| region.address <= address);
        let at = after.checked_sub(1)?;
        let region = &self.regions[at];
        if (address - region.address) / 4 < region.words.len() as u64 { Some(at) } else { None }
    }

    fn word_at(&mut self, address: u64) -> Option<&mut u32> {
        let at = self.region_of(address)?;
        let region = &mut self.regions[at];
        region.words.get_mut(((address - region.address) / 4) as usize)
    }

    /// The word at an address as the next read shows it, with its place where it shows several.
    pub fn shown(&mut self, address: u64) -> Option<(u32, Option<usize>)> {
        if let Some(script) = self.scripts.get(&address) {
            let place = Some(script.place).filter(|_| script.values.len() > 1);
            return Some((script.values[script.place], place));
        }
        self.word_at(address).map(|word| (*word, None))
    }

    fn read_word(&mut self, address: u64) -> Result<u32, BusError> {
        if !self.scripts.is_empty() {
            if let Some(script) = self.scripts.get_mut(&address) {
                let value = script.values[script.place];
                script.place = (script.place + 1).min(script.values.len() - 1);
                return Ok(value);
            }
        }
        match self.word_at(address) {
            Some(word) => Ok(*word),
            None => self.bus_error(),
        }
    }

    fn write_word(&mut self, address: u64, mask: u32, value: u32) -> Result<(), BusError> {
        let Some(at) = self.region_of(address).filter(|at| !self.regions[*at].is_read_only) else {
            return self.bus_error();
        };
        let region = &mut self.regions[at];
        let word = &mut region.words[((address - region.address) / 4) as usize];
        if !self.scripts.is_empty() {
            if let Some(script) = self.scripts.remove(&address) {
                *word = script.values[script.place];
            }
        }
        *word = *word & !mask | value & mask;
        Ok(())
    }

    // ---- the debug port

    fn bus_error<T>(&mut self) -> Result<T, BusError> {
        self.is_sticky = true;
        Err(BusError)
    }

    fn acknowledges(&self, request: u32) -> bool {
        self.ctrl & request != 0 && self.power_reads <= self.reads
    }

    /// CTRL/STAT as it is read: an acknowledgement is one bit above its request.
    pub fn ctrl_stat(&self) -> u32 {
        let acknowledged = if self.power_reads <= self.reads { (self.ctrl & POWER) << 1 } else { 0 };
        self.ctrl | acknowledged | if self.is_sticky { STICKY } else { 0 }
    }

    fn free(&self, is_free: bool) -> Result<(), BusError> {
        if self.is_sticky && !is_free { Err(BusError) } else { Ok(()) }
    }

    pub fn read_dp(&mut self, address: u64) -> Result<u32, BusError> {
        let is_ctrl_stat = address == 4 && self.select & 0xF == 0;
        self.free(address == 0 || is_ctrl_stat)?;
        if address == 0 {
            return Ok(self.dpidr);
        }
        if !is_ctrl_stat {
            return Ok(0);
        }
        let value = self.ctrl_stat();
        self.reads = self.reads.saturating_add(1);
        Ok(value)
    }

    pub fn write_dp(&mut self, address: u64, value: u32) -> Result<(), BusError> {
        self.free(address == 0)?;
        match address {
            0 => self.is_sticky &= value & 4 == 0,
            4 if self.select & 0xF == 0 => {
                if (self.ctrl ^ value) & POWER != 0 {
                    self.reads = 0;
                }
                self.ctrl = value & (POWER | 0xF00);
            }
            8 => self.select = value & 0xFF00_00FF,
            _ => {}
        }
        Ok(())
    }

    /// Reads CTRL/STAT until the value under the mask is this one, at most so many times.
    pub fn poll(&mut self, mask: u32, value: u32, turns: u64) -> Result<bool, BusError> {
        for _ in 0..turns {
            if self.read_dp(4)? & mask == value {
                return Ok(true);
            }
        }
        Ok(false)
    }

    // ---- access ports

    /// Selects the port and the bank of a register.
    fn select(&mut self, port: u8, register: u32) -> Result<(), BusError> {
        self.write_dp(8, u32::from(port) << 24 | register & 0xF0)
    }

    fn powered(&mut self) -> Result<(), BusError> {
        self.free(false)?;
        if self.acknowledges(DEBUG_POWER) { Ok(()) } else { self.bus_error() }
    }

    pub fn read_ap(&mut self, number: u8, register: u32) -> Result<u32, BusError> {
        self.select(number, register)?;
        self.powered()?;
        let Some(port) = &self.ports[usize::from(number)] else { return Ok(0) };
        match register {
            0x00 => Ok(port.csw | 0x40),
            0x04 => Ok(port.tar),
            0x08 => Ok(port.high),
            0x0C => self.read_drw(number),
            0x10..=0x1C => self.read_word(port.above() + u64::from(port.tar / 16 * 16 + register % 16)),
            0xF4 => Ok(if port.is_large { 2 } else { 0 }),
            0xF8 => Ok(port.base),
            0xFC => Ok(port.idr),
            _ => Ok(0),
        }
    }

    pub fn write_ap(&mut self, number: u8, register: u32, value: u32) -> Result<(), BusError> {
        self.select(number, register)?;
        self.powered()?;
        let Some(port) = &mut self.ports[usize::from(number)] else { return Ok(()) };
        match register {
            0x00 => port.csw = value & 0xFF00_003F,
            0x04 => port.tar = value,
            0x08 if port.is_large => port.high = value,
            0x0C => return self.write_drw(number, value),
            0x10..=0x1C => {
                let address = port.above() + u64::from(port.tar / 16 * 16 + register % 16);
                return self.write_word(address, u32::MAX, value);
            }
            _ => {}
        }
        Ok(())
    }

    /// The word that DRW reaches, and its lanes, unless CSW has a size that is none.
    fn reach(&mut self, number: u8) -> Result<(u64, u32), BusError> {
        let port = self.ports[usize::from(number)].as_ref().expect("the port is there");
        let (size, ones) = match port.csw & 7 {
            0 => (1, 0xFF),
            1 => (2, 0xFFFF),
            2 => (4, u32::MAX),
            _ => return self.bus_error(),
        };
        Ok((port.above() + u64::from(port.tar & !3), ones << (8 * (port.tar / size * size % 4))))
    }

    fn advance(&mut self, number: u8) {
        let carries = self.carries;
        let port = self.ports[usize::from(number)].as_mut().expect("the port is there");
        if port.csw & 0x30 == 0x10 {
            let next = port.tar.wrapping_add(1 << (port.csw & 7));
            port.tar = if carries { next } else { port.tar & !1023 | next & 1023 };
        }
    }

    fn read_drw(&mut self, number: u8) -> Result<u32, BusError> {
        let (address, lanes) = self.reach(number)?;
        let word = self.read_word(address)?;
        self.advance(number);
        Ok(word & lanes)
    }

    fn write_drw(&mut self, number: u8, value: u32) -> Result<(), BusError> {
        let (address, lanes) = self.reach(number)?;
        self.write_word(address, lanes, value)?;
        self.advance(number);
        Ok(())
    }

    /// Whether the port takes this address; its CFG is read where that is not known and the address has more than 32 bits.
    pub fn takes(&mut self, number: u8, address: u64) -> Result<bool, BusError> {
        if address <= u64::from(u32::MAX) || self.ports[usize::from(number)].as_ref().is_some_and(|port| port.is_known) {
            return Ok(true);
        }
        let is_large = self.read_ap(number, 0xF4)? & 2 != 0;
        if let Some(port) = &mut self.ports[usize::from(number)] {
            port.is_known = is_large;
        }
        Ok(is_large)
    }

    /// An access of memory of 1, 2 or 4 bytes, at an address that the port takes: what is read, or 0.
    pub fn memory(&mut self, number: u8, size: u8, written: Option<u32>, address: u64) -> Result<u32, BusError> {
        self.select(number, 0)?;
        self.powered()?;
        let Some(port) = &mut self.ports[usize::from(number)] else { return Ok(0) };
        port.csw = port.csw & 0xFF00_0008 | u32::from(size / 2);
        port.tar = address as u32;
        if port.is_known {
            port.high = (address >> 32) as u32;
        }
        let word = port.above() + u64::from(port.tar & !3);
        let shift = 8 * (port.tar % 4);
        let ones = u32::MAX >> (32 - 8 * u32::from(size));
        match written {
            Some(value) => self.write_word(word, ones << shift, value << shift).map(|()| 0),
            None => Ok(self.read_word(word)? >> shift & ones),
        }
    }

    // ---- lines

    pub fn set_pins(&mut self, output: u8, select: u8) -> u8 {
        let driven = select & 0xA7;
        let before = self.lines.pins;
        self.lines.pins = before & !driven | output & driven;
        if before & 0x80 != 0 && self.lines.pins & 0x80 == 0 {
            for (address, value) in std::mem::take(&mut self.resets) {
                self.scripts.remove(&address);
                if let Some(word) = self.word_at(address) {
                    *word = value;
                }
                self.resets.push((address, value));
            }
        }
        self.lines.pins
    }

    pub fn shift(&mut self, count: u32, bits: u64) {
        self.lines.bits = self.lines.bits.saturating_add(u64::from(count));
        let kept = if count == 64 { 0 } else { self.lines.last >> count };
        self.lines.last = kept | bits << (64 - count);
    }
}

impl Port {
    fn above(&self) -> u64 {
        if self.is_large { u64::from(self.high) << 32 } else { 0 }
    }
}
