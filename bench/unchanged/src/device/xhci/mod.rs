#[rustfmt::skip]
#[path = "../../../usbvfiod/src/device/xhci/endpoint_handle.rs"]
pub mod endpoint_handle;
#[path = "../../../../../oracle/src/device/xhci/hotplug_endpoint_handle.rs"]
pub mod hotplug_endpoint_handle;
pub mod interrupter;
#[rustfmt::skip]
#[path = "../../../usbvfiod/src/device/xhci/real_endpoint_handle.rs"]
pub mod real_endpoint_handle;
#[rustfmt::skip]
#[path = "../../../usbvfiod/src/device/xhci/trb.rs"]
pub mod trb;
#[rustfmt::skip]
#[path = "../../../usbvfiod/src/device/xhci/usbrequest.rs"]
pub mod usbrequest;
