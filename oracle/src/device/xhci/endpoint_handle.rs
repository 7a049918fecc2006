// The unchanged file, with a child module beside its items, so that the private state can be read and made up.
include!("../../../usbvfiod/src/device/xhci/endpoint_handle.rs");

pub mod peek;
