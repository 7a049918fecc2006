//! Guest memory in two regions, as the device on the endpoints' bus.

use std::sync::Mutex;

use crate::{
    call::Region,
    device::bus::{BusDevice, Request},
    effects::{Effect, EffectLog},
    filling::Filling,
};

#[derive(Debug)]
struct Memory {
    region: Region,
    bytes: Vec<u8>,
}

impl Memory {
    fn filled(region: Region, filling: Filling) -> Self {
        Self { region, bytes: filling.of_region(region) }
    }

    /// The bytes of a range, if it lies in here.
    fn part(&mut self, address: u64, length: usize) -> Option<&mut [u8]> {
        let offset = usize::try_from(address.checked_sub(self.region.base)?).ok()?;
        self.bytes.get_mut(offset..offset.checked_add(length)?)
    }
}

#[derive(Debug)]
struct Memories {
    low: Memory,
    high: Memory,
}

impl Memories {
    fn filled(low: Region, high: Region, filling: Filling) -> Self {
        Self { low: Memory::filled(low, filling), high: Memory::filled(high, filling) }
    }

    /// The bytes of a range, of whichever region holds all of it.
    fn part(&mut self, address: u64, length: usize) -> Option<&mut [u8]> {
        self.low.part(address, length).or_else(|| self.high.part(address, length))
    }

    fn share_an_address(&self) -> bool {
        self.low.region.shares_an_address(self.high.region)
    }
}

/// Reads are served from the regions. Writes are recorded and reach them by `carry_out` alone.
#[derive(Debug)]
pub struct GuestMemory {
    memories: Mutex<Memories>,
    filling: Filling,
    effects: EffectLog,
}

impl GuestMemory {
    pub fn new(low: Region, high: Region, filling: Filling, effects: EffectLog) -> Self {
        Self { memories: Mutex::new(Memories::filled(low, high, filling)), filling, effects }
    }

    pub fn fill_anew(&self, low: Region, high: Region) {
        *self.memories.lock().unwrap() = Memories::filled(low, high, self.filling);
    }

    pub fn share_an_address(&self) -> bool {
        self.memories.lock().unwrap().share_an_address()
    }

    pub fn contains(&self, address: u64, length: usize) -> bool {
        self.memories.lock().unwrap().part(address, length).is_some()
    }

    /// Lends both regions: base and bytes of the low one, base and bytes of the high one.
    pub fn lend<T>(&self, call: impl FnOnce([(u64, &mut [u8]); 2]) -> T) -> T {
        let mut memories = self.memories.lock().unwrap();
        let Memories { low, high } = &mut *memories;
        call([low, high].map(|memory| (memory.region.base, &mut memory.bytes[..])))
    }

    /// Performs the writes, or none of them if the regions share an address or a write of nonzero length lies outside both. The
    /// number of the question answered with no, or 0.
    pub fn carry_out<'a>(&self, writes: impl Iterator<Item = (u64, &'a [u8])> + Clone) -> u8 {
        let mut memories = self.memories.lock().unwrap();
        let writes = writes.filter(|(_, bytes)| !bytes.is_empty());
        if memories.share_an_address() {
            return 13;
        }
        if !writes.clone().all(|(address, bytes)| memories.part(address, bytes.len()).is_some()) {
            return 11;
        }
        writes.for_each(|(address, bytes)| memories.part(address, bytes.len()).unwrap().copy_from_slice(bytes));
        0
    }
}

impl BusDevice for GuestMemory {
    fn size(&self) -> u64 {
        let memories = self.memories.lock().unwrap();
        memories.low.region.length + memories.high.region.length
    }

    fn read(&self, _req: Request) -> u64 {
        unreachable!("the endpoints read in bulk")
    }

    fn write(&self, _req: Request, _value: u64) {
        unreachable!("the endpoints write in bulk")
    }

    fn read_bulk(&self, address: u64, data: &mut [u8]) {
        if data.is_empty() {
            return;
        }
        let mut memories = self.memories.lock().unwrap();
        let part = memories.part(address, data.len()).expect("question 6 keeps reads in a region");
        data.copy_from_slice(part);
    }

    fn write_bulk(&self, address: u64, data: &[u8]) {
        self.effects.push(Effect::Write { address, bytes: data.to_vec() });
    }
}
