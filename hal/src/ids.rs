//! Endpoint and slot ids, as types of their own: one cannot stand for the other.

/// An xHCI endpoint id. A call asks that it is 1 to 31 (question 12).
///
/// ```compile_fail
/// use polvihe_hal::{EndpointId, SlotId};
///
/// let endpoint: EndpointId = SlotId(3);
/// ```
#[derive(Clone, Copy, Debug, PartialEq, Eq, Hash, PartialOrd, Ord)]
pub struct EndpointId(pub u8);

/// An xHCI slot id. A call asks that it is 1 to 255 (question 12).
#[derive(Clone, Copy, Debug, PartialEq, Eq, Hash, PartialOrd, Ord)]
pub struct SlotId(pub u8);
