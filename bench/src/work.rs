//! What is timed: TDs of several sizes with several ends, a control transfer, and the carry-out of a frame.

/// The essence frame of document 00 is twenty Normals of this length.
pub const TRANSFER_LENGTH: u32 = 65536;
pub const FRAME_TRBS: u32 = 20;
/// The TRBs that an endpoint can hold.
pub const MAX_HELD: u32 = 512;
pub const SIZES: [u32; 5] = [1, 3, FRAME_TRBS, 64, MAX_HELD];
pub const CONTROL_TRBS: u32 = 3;
pub const CONTROL_LENGTH: u32 = 18;
/// Two records of 32 bytes for each of them, and in a row a request for each TD.
pub const LOG_BYTES: usize = 3 * 32 * MAX_HELD as usize;
pub const MEMORY_BYTES: usize = TRANSFER_LENGTH as usize * MAX_HELD as usize;
/// Frames that a row has.
pub const ROWS: [u32; 3] = [1, 5, 25];
pub const COLLECT_BYTES: usize = 65535;

#[derive(Clone, Copy, PartialEq)]
pub enum End {
    Full,
    Short,
    Stalled,
}

impl End {
    pub const ALL: [End; 3] = [End::Full, End::Short, End::Stalled];

    pub fn name(self) -> &'static str {
        match self {
            End::Full => "full",
            End::Short => "short at the middle",
            End::Stalled => "stalled at the middle",
        }
    }
}

/// TDs of Normals on the IN endpoint.
pub struct InWork {
    pub trbs: u32,
    pub end: End,
    pub transfer_length: u32,
    /// 0 Success, 1 Stall.
    pub status: u8,
    pub window: &'static [u8],
    pub data: &'static [u8],
}

impl InWork {
    pub fn all(bytes: &'static [u8]) -> Vec<InWork> {
        let of_end = |end| SIZES.map(|trbs| InWork::new(bytes, trbs, end));
        End::ALL.into_iter().flat_map(of_end).collect()
    }

    /// Short and stalled TDs lack the second half of the Normal in the middle and all that follows it.
    pub fn new(bytes: &'static [u8], trbs: u32, end: End) -> InWork {
        let half_trbs = match end {
            End::Full => 2 * trbs,
            End::Short | End::Stalled => 2 * (trbs / 2) + 1,
        };
        InWork {
            trbs,
            end,
            transfer_length: TRANSFER_LENGTH,
            status: if end == End::Stalled { 1 } else { 0 },
            window: bytes,
            data: &bytes[..(half_trbs * TRANSFER_LENGTH / 2) as usize],
        }
    }

    pub fn name(&self) -> String {
        format!("{} {}", self.trbs, self.end.name())
    }
}

/// A row of TDs of the frame's Normals, of which the last may end otherwise than those before it.
pub struct RowWork {
    pub others: InWork,
    pub last: InWork,
    pub tds: u32,
}

impl RowWork {
    pub fn all(bytes: &'static [u8]) -> Vec<RowWork> {
        // The TDs before one that stalls are full.
        let ends = [(End::Full, End::Full), (End::Short, End::Short), (End::Full, End::Stalled)];
        let td = |end| InWork::new(bytes, FRAME_TRBS, end);
        let of_ends = |(others, last)| ROWS.map(|tds| RowWork { others: td(others), last: td(last), tds });
        ends.into_iter().flat_map(of_ends).collect()
    }

    pub fn trbs(&self) -> u32 {
        self.tds * FRAME_TRBS
    }

    pub fn name(&self) -> String {
        let end = match self.last.end {
            End::Stalled => "stalled in the middle of the last",
            end => end.name(),
        };
        format!("{} {end}", self.tds)
    }
}

/// Guest memory, and the device's data: as much as the largest TD asks for.
pub fn bytes() -> &'static [u8] {
    Vec::leak((0..MEMORY_BYTES as u32).map(|k| (k * 11 + 5) as u8).collect())
}
