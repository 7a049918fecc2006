//! What the endpoints are connected to, as cheap as can be: a write, an event and a request each store one record of 32
//! bytes, as the product's log does; no lock is taken, no byte of the device's data is moved, nothing is allocated.

use std::{
    cell::UnsafeCell,
    future::{ready, Ready},
    sync::Arc,
};

use lending::LentData;

use crate::device::{
    bus::{BusDevice, Request},
    xhci::{
        hotplug_endpoint_handle::BaseEndpointHandle,
        real_endpoint_handle::{
            ControlRequestProcessingResult, InTrbProcessingResult, InTrbProcessingStatus, RealControlEndpointHandle,
            RealInEndpointHandle,
        },
        usbrequest::UsbRequest,
    },
};

/// The records of one call are at most 1,024.
const PLACES: usize = 2048;

#[derive(Debug)]
struct Log {
    records: [[u64; 4]; PLACES],
    count: usize,
}

#[derive(Debug, Clone)]
pub struct Records(Arc<UnsafeCell<Log>>);

// SAFETY: the bench has one thread.
unsafe impl Send for Records {}
unsafe impl Sync for Records {}

impl Records {
    #[allow(clippy::new_without_default, clippy::arc_with_non_send_sync)]
    pub fn new() -> Self {
        Self(Arc::new(UnsafeCell::new(Log { records: [[0; 4]; PLACES], count: 0 })))
    }

    pub fn push(&self, record: [u64; 4]) {
        // SAFETY: one thread, and no reference outlives a call.
        let log = unsafe { &mut *self.0.get() };
        log.records[log.count % PLACES] = record;
        log.count += 1;
    }

    /// How many records there are; the next call starts anew.
    pub fn take_count(&self) -> u64 {
        // SAFETY: as above.
        let log = unsafe { &mut *self.0.get() };
        std::mem::take(&mut log.count) as u64
    }
}

/// Guest memory: a write becomes a record, as in the product, where carry-out alone moves bytes.
#[derive(Debug)]
pub struct Memory(pub Records);

impl BusDevice for Memory {
    fn size(&self) -> u64 {
        u64::MAX
    }

    fn read(&self, _req: Request) -> u64 {
        unreachable!("the endpoints read in bulk")
    }

    fn write(&self, _req: Request, _value: u64) {
        unreachable!("the endpoints write in bulk")
    }

    fn read_bulk(&self, _address: u64, _data: &mut [u8]) {}

    fn write_bulk(&self, address: u64, data: &[u8]) {
        self.0.push([1, address, data.len() as u64, data.as_ptr() as u64]);
    }
}

/// The device: a request becomes a record; its result is the same each time.
#[derive(Debug)]
pub struct Device {
    pub records: Records,
    pub status: u8,
    pub data: LentData,
}

impl Device {
    fn status(&self) -> InTrbProcessingStatus {
        match self.status {
            0 => InTrbProcessingStatus::Success,
            1 => InTrbProcessingStatus::Stall,
            2 => InTrbProcessingStatus::TransactionError,
            _ => InTrbProcessingStatus::Disconnect,
        }
    }
}

impl BaseEndpointHandle for Device {
    type CompletionFuture<'a> = Ready<anyhow::Result<()>>;

    fn cancel(&mut self) -> Self::CompletionFuture<'_> {
        ready(Ok(()))
    }
}

impl RealInEndpointHandle for Device {
    type TrbCompletionFuture<'a> = Ready<anyhow::Result<InTrbProcessingResult>>;

    fn submit(&mut self, length: usize) -> anyhow::Result<()> {
        self.records.push([3, length as u64, 0, 0]);
        Ok(())
    }

    fn next_completion(&mut self) -> Self::TrbCompletionFuture<'_> {
        ready(Ok(InTrbProcessingResult { status: self.status(), data: self.data.hand_over() }))
    }
}

impl RealControlEndpointHandle for Device {
    type TrbCompletionFuture<'a> = Ready<anyhow::Result<ControlRequestProcessingResult>>;

    fn submit_control_request(&mut self, request: UsbRequest) -> anyhow::Result<()> {
        self.records.push([3, request.address, u64::from(request.length), 0]);
        Ok(())
    }

    fn next_completion(&mut self) -> Self::TrbCompletionFuture<'_> {
        ready(Ok(match self.status() {
            InTrbProcessingStatus::Success => {
                ControlRequestProcessingResult::SuccessfulControlIn(self.data.hand_over())
            }
            InTrbProcessingStatus::Stall => ControlRequestProcessingResult::Stall,
            InTrbProcessingStatus::TransactionError => ControlRequestProcessingResult::TransactionError,
            InTrbProcessingStatus::Disconnect => ControlRequestProcessingResult::Disconnect,
        }))
    }
}
