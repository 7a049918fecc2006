//! The real endpoints: requests go into the log of effects, results come from the script.

use std::{
    future::{ready, Ready},
    sync::{Arc, Mutex},
};

use crate::{
    device::xhci::{
        hotplug_endpoint_handle::BaseEndpointHandle,
        real_endpoint_handle::{
            ControlRequestProcessingResult, InTrbProcessingResult, RealControlEndpointHandle, RealInEndpointHandle,
        },
        usbrequest::UsbRequest,
    },
    effects::{Effect, EffectLog},
};

#[derive(Debug)]
pub enum DeviceResult {
    In(InTrbProcessingResult),
    Control(ControlRequestProcessingResult),
}

#[derive(Debug, Clone, Default)]
pub struct ScriptedDevice {
    effects: EffectLog,
    next_result: Arc<Mutex<Option<DeviceResult>>>,
}

impl ScriptedDevice {
    pub fn new(effects: EffectLog) -> Self {
        Self { effects, next_result: Arc::default() }
    }

    /// What the next completion gives.
    pub fn script(&self, result: DeviceResult) {
        *self.next_result.lock().unwrap() = Some(result);
    }

    fn take_result(&self) -> DeviceResult {
        let scripted = self.next_result.lock().unwrap().take();
        scripted.expect("question 8 gives a result exactly when one is awaited")
    }
}

impl BaseEndpointHandle for ScriptedDevice {
    type CompletionFuture<'a> = Ready<anyhow::Result<()>>;

    fn cancel(&mut self) -> Self::CompletionFuture<'_> {
        ready(Ok(()))
    }
}

impl RealInEndpointHandle for ScriptedDevice {
    type TrbCompletionFuture<'a> = Ready<anyhow::Result<InTrbProcessingResult>>;

    fn submit(&mut self, length: usize) -> anyhow::Result<()> {
        self.effects.push(Effect::InRequest { length });
        Ok(())
    }

    fn next_completion(&mut self) -> Self::TrbCompletionFuture<'_> {
        match self.take_result() {
            DeviceResult::In(result) => ready(Ok(result)),
            DeviceResult::Control(_) => unreachable!("an IN endpoint is given IN results"),
        }
    }
}

impl RealControlEndpointHandle for ScriptedDevice {
    type TrbCompletionFuture<'a> = Ready<anyhow::Result<ControlRequestProcessingResult>>;

    fn submit_control_request(&mut self, request: UsbRequest) -> anyhow::Result<()> {
        self.effects.push(Effect::ControlRequest(request));
        Ok(())
    }

    fn next_completion(&mut self) -> Self::TrbCompletionFuture<'_> {
        match self.take_result() {
            DeviceResult::Control(result) => ready(Ok(result)),
            DeviceResult::In(_) => unreachable!("a control endpoint is given control results"),
        }
    }
}
