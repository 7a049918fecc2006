//! Stands in for the Rust's `hotplug_endpoint_handle`, of which the endpoints need this trait alone.

use std::{fmt::Debug, future::Future};

pub trait BaseEndpointHandle: Debug + Send + 'static {
    type CompletionFuture<'a>: Future<Output = anyhow::Result<()>> + Send + 'a;

    fn cancel(&mut self) -> Self::CompletionFuture<'_>;
}
