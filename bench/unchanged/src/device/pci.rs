#[rustfmt::skip]
#[path = "../../usbvfiod/src/device/pci/constants.rs"]
pub mod constants;
