//! Raw TRBs: a script's decoded TRB as the 16 bytes that the Rust parses, and what the Rust's own parser makes of 16 bytes.

use crate::{
    call::{Kind, Trb, CHAIN, CYCLE, DIRECTION, IMMEDIATE_DATA, INTERRUPT_ON_COMPLETION, INTERRUPT_ON_SHORT},
    device::xhci::trb::{zeroed_trb_buffer, RawTrb, RawTrbBuffer, TransferTrbVariant},
    random::Random,
};

/// The TRB type's number. For Unrecognized, one of those that the Rust knows no transfer TRB for, taken by the address.
fn type_number(trb: &Trb) -> u8 {
    if trb.kind != Kind::Unrecognized {
        return trb.kind.number();
    }
    let candidate = (trb.address / 16 % 64) as u8;
    let is_known = Kind::ALL.iter().any(|kind| kind.number() == candidate);
    if is_known {
        Kind::Unrecognized.number()
    } else {
        candidate
    }
}

/// See xHCI 1.2, 6.4.1 and 6.4.4.2. The length's field has 17 bits; the caller keeps longer ones away.
pub fn encode(trb: &Trb) -> RawTrb {
    let bit = |flag, place: u8| if trb.has(flag) { place } else { 0 };
    let mut buffer = zeroed_trb_buffer();
    buffer[0..8].copy_from_slice(&trb.a.to_le_bytes());
    buffer[8..11].copy_from_slice(&trb.length.to_le_bytes()[0..3]);
    buffer[12] = bit(CYCLE, 0x01)
        | bit(INTERRUPT_ON_SHORT, 0x04)
        | bit(CHAIN, 0x10)
        | bit(INTERRUPT_ON_COMPLETION, 0x20)
        | bit(IMMEDIATE_DATA, 0x40);
    buffer[13] = type_number(trb) << 2;
    buffer[14] = bit(DIRECTION, 0x01);
    RawTrb { address: trb.address, buffer }
}

/// What the Rust's parser says, as a script's TRB.
pub fn parsed(raw: &RawTrb) -> Trb {
    let flag = |is_set: bool, flag: u8| if is_set { flag } else { 0 };
    let cycle = flag(raw.buffer[12] & 1 != 0, CYCLE);
    let trb = |kind, flags: u8, a, length| Trb { kind, address: raw.address, flags: cycle | flags, a, length };
    match TransferTrbVariant::parse(raw.buffer) {
        TransferTrbVariant::Normal(t) => trb(
            Kind::Normal,
            flag(t.chain, CHAIN)
                | flag(t.interrupt_on_completion, INTERRUPT_ON_COMPLETION)
                | flag(t.interrupt_on_short, INTERRUPT_ON_SHORT)
                | flag(t.immediate_data, IMMEDIATE_DATA),
            t.data_pointer,
            t.transfer_length,
        ),
        TransferTrbVariant::SetupStage(t) => trb(
            Kind::SetupStage,
            flag(t.interrupt_on_completion, INTERRUPT_ON_COMPLETION),
            u64::from(t.request_type)
                | u64::from(t.request) << 8
                | u64::from(t.value) << 16
                | u64::from(t.index) << 32
                | u64::from(t.length) << 48,
            0,
        ),
        TransferTrbVariant::DataStage(t) => trb(
            Kind::DataStage,
            flag(t.chain, CHAIN)
                | flag(t.interrupt_on_completion, INTERRUPT_ON_COMPLETION)
                | flag(t.interrupt_on_short, INTERRUPT_ON_SHORT)
                | flag(t.immediate_data, IMMEDIATE_DATA)
                | flag(t.direction, DIRECTION),
            t.data_pointer,
            t.transfer_length,
        ),
        TransferTrbVariant::StatusStage(t) => trb(
            Kind::StatusStage,
            flag(t.chain, CHAIN)
                | flag(t.interrupt_on_completion, INTERRUPT_ON_COMPLETION)
                | flag(t.direction, DIRECTION),
            0,
            0,
        ),
        TransferTrbVariant::Isoch => trb(Kind::Isoch, 0, 0, 0),
        TransferTrbVariant::EventData(t) => trb(
            Kind::EventData,
            flag(t.chain, CHAIN) | flag(t.interrupt_on_completion, INTERRUPT_ON_COMPLETION),
            t.event_data,
            0,
        ),
        TransferTrbVariant::NoOp(t) => {
            trb(Kind::NoOp, flag(t.chain, CHAIN) | flag(t.interrupt_on_completion, INTERRUPT_ON_COMPLETION), 0, 0)
        }
        TransferTrbVariant::Unrecognized(..) => trb(Kind::Unrecognized, 0, 0, 0),
    }
}

const fn bits(high: u32, low: u32) -> u32 {
    (u32::MAX >> (31 - high)) & (u32::MAX << low)
}

/// The reserved bits (RsvdZ) of a type by dword: xHCI 1.2, 6.4.1 and 6.4.4.2. Isoch and unknown types have none that are asked.
pub const fn reserved(kind: Kind) -> [u32; 4] {
    match kind {
        Kind::Normal => [0, 0, 0, bits(8, 7) | bits(31, 16)],
        Kind::SetupStage => [0, 0, bits(21, 17), bits(4, 1) | bits(9, 7) | bits(31, 18)],
        Kind::DataStage => [0, 0, 0, bits(9, 7) | bits(31, 17)],
        Kind::StatusStage => [bits(31, 0), bits(31, 0), bits(21, 0), bits(3, 2) | bits(9, 6) | bits(31, 17)],
        Kind::EventData => [0, 0, bits(21, 0), bits(3, 2) | bits(8, 6) | bits(31, 16)],
        Kind::NoOp => [bits(31, 0), bits(31, 0), bits(21, 0), bits(3, 2) | bits(9, 6) | bits(31, 16)],
        Kind::Isoch | Kind::Unrecognized => [0; 4],
    }
}

/// The kind whose number stands in bits 15:10 of dword 3.
pub fn kind_of(bytes: &RawTrbBuffer) -> Kind {
    let number = bytes[13] >> 2;
    Kind::ALL.into_iter().find(|kind| kind.number() == number).unwrap_or(Kind::Unrecognized)
}

fn dwords(bytes: &RawTrbBuffer) -> [u32; 4] {
    std::array::from_fn(|k| u32::from_le_bytes([bytes[4 * k], bytes[4 * k + 1], bytes[4 * k + 2], bytes[4 * k + 3]]))
}

/// Is a reserved bit of the TRB's type set? The Rust does not ask; the standard decides over it.
pub fn has_reserved_bit(bytes: &RawTrbBuffer) -> bool {
    let masks = reserved(kind_of(bytes));
    dwords(bytes).iter().zip(masks).any(|(dword, mask)| dword & mask != 0)
}

/// The bytes with the type's reserved bits cleared.
pub fn without_reserved(bytes: &RawTrbBuffer) -> RawTrbBuffer {
    let masks = reserved(kind_of(bytes));
    let mut cleared = *bytes;
    for (k, (dword, mask)) in dwords(bytes).into_iter().zip(masks).enumerate() {
        cleared[4 * k..4 * k + 4].copy_from_slice(&(dword & !mask).to_le_bytes());
    }
    cleared
}

/// The fields that the decoded form does not hold, by dword: TD Size, Interrupter Target, ENT, NS, BEI, TRT; a Setup's length and IDT.
const fn unheld(kind: Kind) -> [u32; 4] {
    match kind {
        Kind::Normal => [0, 0, bits(31, 17), bits(1, 1) | bits(3, 3) | bits(9, 9)],
        Kind::SetupStage => [0, 0, bits(16, 0) | bits(31, 22), bits(6, 6) | bits(17, 16)],
        Kind::DataStage => [0, 0, bits(31, 17), bits(1, 1) | bits(3, 3)],
        Kind::StatusStage | Kind::NoOp => [0, 0, bits(31, 22), bits(1, 1)],
        Kind::EventData => [0, 0, bits(31, 22), bits(1, 1) | bits(9, 9)],
        Kind::Isoch => [u32::MAX, u32::MAX, u32::MAX, bits(9, 1) | bits(31, 16)],
        Kind::Unrecognized => [u32::MAX, u32::MAX, u32::MAX, bits(9, 1) | bits(31, 16)],
    }
}

/// The same TRB with anything in the fields that the decoded form does not hold.
pub fn with_unheld(bytes: &RawTrbBuffer, random: &mut Random) -> RawTrbBuffer {
    let masks = unheld(kind_of(bytes));
    let mut filled = *bytes;
    for (k, (dword, mask)) in dwords(bytes).into_iter().zip(masks).enumerate() {
        let any = dword & !mask | random.number() as u32 & mask;
        filled[4 * k..4 * k + 4].copy_from_slice(&any.to_le_bytes());
    }
    filled
}
