//! The product's endpoints with the interface of the Rust's `TdBasedInEndpointHandle` and `ControlEndpointHandle`: TRBs come as their 16
//! bytes; requests go to the device, events to the guest, writes to guest memory, in the order of the log.
//!
//! What is other than in the Rust: guest memory lends its regions, in place of a bus; the mode and the guest's release are chosen; a
//! refused call is an error, `refused N: WHY`.

use std::{fmt::Debug, future::Future, pin::Pin, sync::Arc};

use anyhow::anyhow;
use oracle::{
    device::{
        bus::BusDevice,
        xhci::{
            endpoint_handle::{EndpointHandle, TrbProcessingResult},
            hotplug_endpoint_handle::BaseEndpointHandle,
            interrupter::EventSender,
            real_endpoint_handle::{
                ControlRequestProcessingResult, InTrbProcessingStatus, RealControlEndpointHandle, RealInEndpointHandle,
            },
            trb::{CompletionCode, EventTrb, RawTrb},
            usbrequest::UsbRequest,
        },
    },
    guest_memory::GuestMemory,
};
use polvihe_hal::{
    At, ControlEndpoint, DeviceResult, Effect, EndpointId, EventAbout, GuestMemory as Lent, GuestRelease, InEndpoint,
    Mode, Outcome, Records, Refusal, Region, RowTrb, SlotId, TdResult, Trb,
};

/// A request that was logged: the address that names it, its length, and request type, request, value and index.
pub struct Request {
    address: u64,
    length: u32,
    setup: [u8; 6],
}

/// What hal's endpoints have in common. An IN endpoint collects nothing.
pub trait HalEndpoint: Debug + Send + Sized + 'static {
    /// What is chosen at creation: the mode, or the guest's release.
    type Chosen: Copy;
    const LOG_LENGTH: usize;
    const COLLECT_LENGTH: usize;
    /// Whether a cancel empties it; otherwise it changes nothing but at the device.
    const CANCEL_EMPTIES: bool;
    /// Where the state stands in the block (docs/CALLS.md).
    const STATE: usize;

    /// The block, and the endpoint whose block these bytes are.
    fn block(&self) -> &[u8];
    fn of_block(block: &[u8]) -> Self;
    fn create(endpoint: EndpointId, slot: SlotId, chosen: Self::Chosen) -> Result<Self, Refusal>;
    /// How many bytes it wrote of the log.
    fn submit(&mut self, submission: Submission<'_>, to: Buffers<'_, '_>) -> Result<usize, Refusal>;
    fn complete(&mut self, result: Option<DeviceResult>, data: &[u8], log: &mut [u8]) -> Result<Completed, Refusal>;
    fn cancel(&mut self);
}

/// A TRB, decoded with its address and cycle bit, or as its 16 bytes.
#[derive(Clone, Copy)]
pub enum Submission<'a> {
    Decoded(u64, Trb, bool),
    Raw(&'a RawTrb),
}

/// What is lent to a submission.
pub struct Buffers<'a, 'm> {
    memory: &'a Lent<'m>,
    collect: &'a mut [u8],
    log: &'a mut [u8],
}

/// How many bytes a completion wrote of the log, and how it ended.
type Completed = (usize, Outcome);

impl HalEndpoint for InEndpoint {
    type Chosen = Mode;
    const LOG_LENGTH: usize = Self::LOG_LENGTH;
    const COLLECT_LENGTH: usize = 0;
    const CANCEL_EMPTIES: bool = true;
    const STATE: usize = 6;

    fn block(&self) -> &[u8] {
        self.block()
    }

    fn of_block(block: &[u8]) -> Self {
        Self::from_block(block.try_into().expect("a whole block"))
    }

    fn create(endpoint: EndpointId, slot: SlotId, mode: Mode) -> Result<Self, Refusal> {
        Self::create(endpoint, slot, mode)
    }

    fn submit(&mut self, submission: Submission<'_>, to: Buffers<'_, '_>) -> Result<usize, Refusal> {
        let submitted = match submission {
            Submission::Decoded(address, trb, cycle) => self.submit(address, trb, cycle, to.memory, to.log)?,
            Submission::Raw(trb) => self.submit_raw(trb.address, &trb.buffer, to.memory, to.log)?,
        };
        Ok(submitted.log.len())
    }

    fn complete(&mut self, result: Option<DeviceResult>, data: &[u8], log: &mut [u8]) -> Result<Completed, Refusal> {
        self.complete(result, data, log).map(|done| (done.log.len(), done.outcome))
    }

    fn cancel(&mut self) {
        self.cancel();
    }
}

impl HalEndpoint for ControlEndpoint {
    type Chosen = GuestRelease;
    const LOG_LENGTH: usize = Self::LOG_LENGTH;
    const COLLECT_LENGTH: usize = Self::COLLECT_LENGTH;
    const CANCEL_EMPTIES: bool = false;
    const STATE: usize = 5;

    fn block(&self) -> &[u8] {
        self.block()
    }

    fn of_block(block: &[u8]) -> Self {
        Self::from_block(block.try_into().expect("a whole block"))
    }

    fn create(endpoint: EndpointId, slot: SlotId, release: GuestRelease) -> Result<Self, Refusal> {
        Self::create(endpoint, slot, release)
    }

    fn submit(&mut self, submission: Submission<'_>, to: Buffers<'_, '_>) -> Result<usize, Refusal> {
        let Buffers { memory, collect, log } = to;
        let submitted = match submission {
            Submission::Decoded(address, trb, cycle) => self.submit(address, trb, cycle, memory, collect, log)?,
            Submission::Raw(trb) => self.submit_raw(trb.address, &trb.buffer, memory, collect, log)?,
        };
        Ok(submitted.log.len())
    }

    fn complete(&mut self, result: Option<DeviceResult>, data: &[u8], log: &mut [u8]) -> Result<Completed, Refusal> {
        self.complete(result, data, log).map(|done| (done.log.len(), done.outcome))
    }

    fn cancel(&mut self) {
        self.cancel();
    }
}

/// An endpoint of hal with what it is connected to, and with the buffers that it lends.
#[derive(Debug)]
pub struct Handle<E, R> {
    pub endpoint: E,
    real_ep: R,
    memory: Arc<GuestMemory>,
    events: EventSender,
    pub log: Vec<u8>,
    pub collect: Vec<u8>,
    /// The last submission logged a request.
    pub awaits_device: bool,
    /// How many bytes of the log the last accepted call wrote.
    pub logged: usize,
}

/// In the place of `TdBasedInEndpointHandle`.
pub type InHandle<RIEH> = Handle<InEndpoint, RIEH>;

/// In the place of `ControlEndpointHandle`.
pub type ControlHandle<RCEH> = Handle<ControlEndpoint, RCEH>;

impl<E: HalEndpoint, R> Handle<E, R> {
    pub fn new(
        slot: u8,
        endpoint: u8,
        chosen: E::Chosen,
        real_ep: R,
        memory: Arc<GuestMemory>,
        events: EventSender,
    ) -> Result<Self, Refusal> {
        let endpoint = E::create(EndpointId(endpoint), SlotId(slot), chosen)?;
        let (log, collect) = (vec![0; E::LOG_LENGTH], vec![0; E::COLLECT_LENGTH]);
        Ok(Self { endpoint, real_ep, memory, events, log, collect, awaits_device: false, logged: 0 })
    }

    /// The endpoint whose block has this made up.
    pub fn make_up(&mut self, change: impl FnOnce(&mut [u8])) {
        let mut block = self.endpoint.block().to_vec();
        change(&mut block);
        self.endpoint = E::of_block(&block);
        self.awaits_device = block[E::STATE] == 2;
    }

    pub fn complete(&mut self, result: Option<DeviceResult>, data: &[u8]) -> Result<TrbProcessingResult, Failed> {
        let (logged, outcome) = self.endpoint.complete(result, data, &mut self.log)?;
        (self.logged, self.awaits_device) = (logged, false);
        self.perform(data)?;
        Ok(result_of(outcome))
    }

    /// Performs the effects of what was logged: events and writes; a request is handed back.
    fn perform(&self, data: &[u8]) -> anyhow::Result<Option<Request>> {
        let mut asked = None;
        for record in Records::of(&self.log[..self.logged]) {
            match record.effect {
                Effect::Write { address, length, start } => {
                    self.memory.write_bulk(address, &data[start as usize..][..length as usize]);
                }
                Effect::Event { code, about } => {
                    let (pointer, length, is_event_data) = match about {
                        EventAbout::Trb { address, residual } => (address, residual, false),
                        EventAbout::EventData { value, edtla } => (value, edtla, true),
                    };
                    let (endpoint_id, slot_id) = (record.endpoint_id.0, record.slot_id.0);
                    let code = completion_code(code);
                    self.events.send(EventTrb::new_transfer_event_trb(
                        pointer,
                        length,
                        code,
                        is_event_data,
                        endpoint_id,
                        slot_id,
                    ))?;
                }
                Effect::Request { address, length, setup } => asked = Some(Request { address, length, setup }),
                Effect::Unknown { kind } => unreachable!("no call logs a record of kind {kind}"),
            }
        }
        Ok(asked)
    }
}

impl<E: HalEndpoint, R: Device<E>> Handle<E, R> {
    pub fn submit(&mut self, submission: Submission<'_>) -> Result<(), Failed> {
        let Self { endpoint, memory, log, collect, .. } = self;
        self.logged = with_memory(memory, |memory| endpoint.submit(submission, Buffers { memory, collect, log }))?;
        let request = self.perform(&[])?;
        self.awaits_device = request.is_some();
        if let Some(request) = request {
            self.real_ep.ask(request, &self.endpoint, &self.collect)?;
        }
        Ok(())
    }
}

impl<R> InHandle<R> {
    /// A row of TDs in one call, and how many were finished well. Nothing of what it logs is performed.
    pub fn complete_row(
        &mut self,
        row: &[RowTrb],
        results: &[TdResult],
        data: &[u8],
    ) -> Result<(TrbProcessingResult, usize), Refusal> {
        let Self { endpoint, memory, log, .. } = self;
        let completed = with_memory(memory, |memory| endpoint.complete_row(row, results, data, memory, log))?;
        let (outcome, finished) = (completed.outcome, completed.finished);
        self.logged = completed.log.len();
        Ok((result_of(outcome), finished))
    }
}

fn completion_code(number: u8) -> CompletionCode {
    match number {
        1 => CompletionCode::Success,
        4 => CompletionCode::UsbTransactionError,
        5 => CompletionCode::TrbError,
        6 => CompletionCode::StallError,
        13 => CompletionCode::ShortPacket,
        number => unreachable!("no event has code {number}"),
    }
}

fn result_of(outcome: Outcome) -> TrbProcessingResult {
    let place = |at: Option<At>| at.map(|at| (at.address, at.cycle));
    match outcome {
        Outcome::Ok => TrbProcessingResult::Ok,
        Outcome::Stall(at) => TrbProcessingResult::Stall(place(at)),
        Outcome::TransactionError(at) => TrbProcessingResult::TransactionError(place(at)),
        Outcome::Disconnect => TrbProcessingResult::Disconnect,
        Outcome::TrbError => TrbProcessingResult::TrbError,
    }
}

/// Lends guest memory for a call.
pub fn with_memory<T>(memory: &GuestMemory, call: impl FnOnce(&mut Lent<'_>) -> T) -> T {
    memory.lend(|[(low_base, low), (high_base, high)]| {
        call(&mut Lent::two(Region::new(low_base, low), Region::new(high_base, high)))
    })
}

/// A call's refusal, or an error of what its effects went to.
#[derive(Debug)]
pub enum Failed {
    Refused(Refusal),
    Surroundings(anyhow::Error),
}

impl From<Refusal> for Failed {
    fn from(refusal: Refusal) -> Self {
        Self::Refused(refusal)
    }
}

impl From<anyhow::Error> for Failed {
    fn from(error: anyhow::Error) -> Self {
        Self::Surroundings(error)
    }
}

fn reported<T>(made: Result<T, Failed>) -> anyhow::Result<T> {
    made.map_err(|failed| match failed {
        Failed::Refused(refusal) => anyhow!("{refusal}"),
        Failed::Surroundings(error) => error,
    })
}

/// The real endpoint that a request goes to, and its answer.
pub trait Device<E>: BaseEndpointHandle {
    fn ask(&mut self, request: Request, endpoint: &E, collect: &[u8]) -> anyhow::Result<()>;
    fn answer(&mut self) -> impl Future<Output = anyhow::Result<(DeviceResult, Vec<u8>)>> + Send;
}

impl<RIEH: RealInEndpointHandle> Device<InEndpoint> for RIEH {
    fn ask(&mut self, request: Request, _: &InEndpoint, _: &[u8]) -> anyhow::Result<()> {
        self.submit(request.length as usize)
    }

    async fn answer(&mut self) -> anyhow::Result<(DeviceResult, Vec<u8>)> {
        let answer = self.next_completion().await?;
        let result = match answer.status {
            InTrbProcessingStatus::Success => DeviceResult::Success,
            InTrbProcessingStatus::Stall => DeviceResult::Stall,
            InTrbProcessingStatus::TransactionError => DeviceResult::TransactionError,
            InTrbProcessingStatus::Disconnect => DeviceResult::Disconnect,
        };
        Ok((result, answer.data))
    }
}

impl<RCEH: RealControlEndpointHandle> Device<ControlEndpoint> for RCEH {
    fn ask(&mut self, asked: Request, endpoint: &ControlEndpoint, collect: &[u8]) -> anyhow::Result<()> {
        let [request_type, request, value_low, value_high, index_low, index_high] = asked.setup;
        self.submit_control_request(UsbRequest {
            address: asked.address,
            request_type,
            request,
            value: u16::from_le_bytes([value_low, value_high]),
            index: u16::from_le_bytes([index_low, index_high]),
            length: asked.length,
            data_pointer: None,
            data: collect[..endpoint.collected()].to_vec(),
        })
    }

    async fn answer(&mut self) -> anyhow::Result<(DeviceResult, Vec<u8>)> {
        Ok(match self.next_completion().await? {
            ControlRequestProcessingResult::SuccessfulControlIn(data) => (DeviceResult::Success, data),
            ControlRequestProcessingResult::SuccessfulControlOut => (DeviceResult::SuccessOut, vec![]),
            ControlRequestProcessingResult::Stall => (DeviceResult::Stall, vec![]),
            ControlRequestProcessingResult::TransactionError => (DeviceResult::TransactionError, vec![]),
            ControlRequestProcessingResult::Disconnect => (DeviceResult::Disconnect, vec![]),
        })
    }
}

type Completing<'a, T> = Pin<Box<dyn Future<Output = anyhow::Result<T>> + Send + 'a>>;

impl<E: HalEndpoint, R: Device<E>> EndpointHandle for Handle<E, R> {
    type TrbCompletionFuture<'a> = Completing<'a, TrbProcessingResult>;

    fn submit_trb(&mut self, trb: RawTrb) -> anyhow::Result<()> {
        reported(self.submit(Submission::Raw(&trb)))
    }

    fn next_completion(&mut self) -> Self::TrbCompletionFuture<'_> {
        Box::pin(async {
            if !self.awaits_device {
                return reported(self.complete(None, &[]));
            }
            let (result, data) = self.real_ep.answer().await?;
            reported(self.complete(Some(result), &data))
        })
    }
}

impl<E: HalEndpoint, R: Device<E>> BaseEndpointHandle for Handle<E, R> {
    type CompletionFuture<'a> = Completing<'a, ()>;

    fn cancel(&mut self) -> Self::CompletionFuture<'_> {
        Box::pin(async {
            self.endpoint.cancel();
            self.awaits_device &= !E::CANCEL_EMPTIES;
            self.real_ep.cancel().await
        })
    }
}
