//! What the generator must know of an endpoint to make accepted calls alone: whose turn it is, what is held,
//! the control phase, the direction and the bytes collected.

use crate::{
    call::{Call, Kind, Region, Trb, CHAIN, FIRST_REGION, IMMEDIATE_DATA},
    questions::{MAX_COLLECTED, MAX_HELD},
};

#[derive(Debug, Clone, Copy, PartialEq, Eq)]
pub enum Due {
    Submission,
    /// A completion that keeps the TRBs held.
    Collecting,
    /// A completion with a device result.
    Device,
    /// A completion without one, that lets the TRBs held go.
    Local,
    /// The completion of a TRB that does not belong here.
    BadTrb {
        then_setup: bool,
    },
}

#[derive(Debug, Clone, Copy, PartialEq, Eq)]
pub enum Phase {
    Setup,
    MaybeData,
    MoreData,
    Status,
    FinalEventData,
}

pub const PHASES: [Phase; 5] = [Phase::Setup, Phase::MaybeData, Phase::MoreData, Phase::Status, Phase::FinalEventData];

#[derive(Debug, Clone)]
pub struct Model {
    /// None on an IN endpoint.
    pub phase: Option<Phase>,
    pub due: Due,
    /// The lengths of the TRBs held, for those that have one.
    pub held: Vec<Option<u32>>,
    pub is_out: bool,
    pub collected: u32,
}

impl Model {
    pub fn new_in() -> Self {
        Self { phase: None, due: Due::Submission, held: vec![], is_out: false, collected: 0 }
    }

    pub fn new_control() -> Self {
        Self { phase: Some(Phase::Setup), is_out: true, ..Self::new_in() }
    }

    /// Is the TRB one that the endpoint holds in this phase?
    pub fn would_hold(&self, kind: Kind) -> bool {
        match self.phase {
            None => matches!(kind, Kind::Normal | Kind::EventData | Kind::NoOp),
            Some(phase) => matches!(
                (phase, kind),
                (_, Kind::SetupStage)
                    | (Phase::MaybeData, Kind::DataStage | Kind::StatusStage)
                    | (Phase::MoreData, Kind::Normal | Kind::EventData)
                    | (Phase::Status, Kind::StatusStage)
                    | (Phase::FinalEventData, Kind::EventData)
            ),
        }
    }

    /// Can the TRB come without being one too many?
    pub fn has_room(&self, kind: Kind) -> bool {
        let clears = kind == Kind::SetupStage && self.phase != Some(Phase::Setup);
        !self.would_hold(kind) || clears || self.held.len() < MAX_HELD
    }

    /// Can the Rust hold the TRB if it is made up?
    pub fn can_be_made_to_hold(&self, kind: Kind) -> bool {
        let supported = match self.phase {
            None => self.would_hold(kind) && self.due != (Due::BadTrb { then_setup: false }),
            Some(_) => !matches!(kind, Kind::NoOp | Kind::Isoch | Kind::Unrecognized),
        };
        supported && self.held.len() < MAX_HELD
    }

    /// How many more bytes may be collected.
    pub fn collectable(&self) -> u32 {
        MAX_COLLECTED as u32 - self.collected
    }

    pub fn submit(&mut self, trb: &Trb) {
        let held = self.would_hold(trb.kind);
        match self.phase {
            None if held => self.take_in(trb),
            None => {
                self.held.clear();
                self.due = Due::BadTrb { then_setup: false };
            }
            Some(_) if held => self.take_control(trb),
            Some(_) => {
                self.due = Due::BadTrb { then_setup: matches!(trb.kind, Kind::NoOp | Kind::Isoch) };
                if !matches!(trb.kind, Kind::NoOp | Kind::Isoch | Kind::Unrecognized) {
                    self.phase = Some(Phase::Setup);
                }
            }
        }
    }

    fn take_in(&mut self, trb: &Trb) {
        self.hold(trb);
        self.due = match (trb.has(CHAIN), self.holds_normal()) {
            (true, _) => Due::Collecting,
            (false, true) => Due::Device,
            (false, false) => Due::Local,
        };
    }

    fn take_control(&mut self, trb: &Trb) {
        if trb.kind == Kind::SetupStage {
            if self.phase != Some(Phase::Setup) {
                self.held.clear();
            }
            self.is_out = trb.a & 0x80 == 0;
            self.collected = 0;
        } else if self.is_out && trb.kind.has_length() {
            self.collected += if trb.has(IMMEDIATE_DATA) { trb.length.min(8) } else { trb.length };
        }
        self.hold(trb);
        let next = match (self.phase, trb.kind, trb.has(CHAIN)) {
            (_, Kind::SetupStage, _) => Phase::MaybeData,
            (_, Kind::StatusStage, true) => Phase::FinalEventData,
            (_, Kind::StatusStage, false) | (Some(Phase::FinalEventData), _, _) => Phase::Setup,
            (_, _, true) => Phase::MoreData,
            (_, _, false) => Phase::Status,
        };
        self.phase = Some(next);
        self.due = if next == Phase::Setup { Due::Device } else { Due::Collecting };
    }

    pub fn hold(&mut self, trb: &Trb) {
        self.held.push(trb.kind.has_length().then_some(trb.length));
    }

    pub fn holds_normal(&self) -> bool {
        self.held.iter().any(Option::is_some)
    }

    pub fn complete(&mut self) {
        if self.due != Due::Collecting {
            self.held.clear();
        }
        if self.due == (Due::BadTrb { then_setup: true }) {
            self.phase = Some(Phase::Setup);
        }
        self.due = Due::Submission;
    }

    pub fn cancel(&mut self) {
        if self.phase.is_none() {
            self.held.clear();
            self.due = Due::Submission;
        }
    }
}

/// A script as it is written, with what is known of the endpoint after its last line.
pub struct Script {
    pub text: String,
    /// Calls that print an answer.
    pub answered: usize,
    pub model: Option<Model>,
    pub low: Region,
    pub high: Region,
    pub collect: u64,
}

impl Default for Script {
    fn default() -> Self {
        Self { text: String::new(), answered: 0, model: None, low: FIRST_REGION, high: Region::NONE, collect: 0xffff }
    }
}

impl Script {
    pub fn call(&mut self, call: Call) {
        self.text.push_str(&format!("{call}\n"));
        self.answered += usize::from(call.is_answered());
        match call {
            Call::Window { low, high } => (self.low, self.high) = (low, high.unwrap_or(Region::NONE)),
            Call::Buffers { collect, .. } => self.collect = collect,
            Call::CreateIn { .. } => self.model = Some(Model::new_in()),
            Call::CreateControl { .. } => self.model = Some(Model::new_control()),
            Call::AppendTrb(_) | Call::AppendResult { .. } | Call::CompleteRow { .. } => {}
            Call::Time { .. } | Call::Captured(_) => {}
            _ => self.on_endpoint(call),
        }
    }

    fn on_endpoint(&mut self, call: Call) {
        let model = self.model.as_mut().expect("an endpoint is created first");
        match call {
            Call::Submit(trb) => model.submit(&trb),
            Call::Hold(trb) => model.hold(&trb),
            Call::Cancel => model.cancel(),
            Call::MakeUpIn { state } => {
                model.due = [Due::Submission, Due::Collecting, Due::Device, Due::Local][usize::from(state)];
            }
            Call::MakeUpControl { phase, state, direction, .. } => {
                model.phase = Some(PHASES[usize::from(phase)]);
                model.due = [Due::Submission, Due::Collecting, Due::Device][usize::from(state)];
                model.is_out = !direction;
            }
            _ => model.complete(),
        }
    }
}
