//! Random call scripts of accepted calls.

use crate::{
    call::{
        parse, Call, Captured, Kind, Region, Status, Trb, CHAIN, CYCLE, DIRECTION, IMMEDIATE_DATA,
        INTERRUPT_ON_COMPLETION, INTERRUPT_ON_SHORT, MAX_COLLECT, MAX_DATA, MAX_WINDOW,
    },
    model::{Due, Model, Phase, Script, PHASES},
    questions::{MAX_ENDPOINT, MAX_HELD, MAX_ROW, MAX_TRB_LENGTH, MIN_COLLECT, MIN_LOG},
    random::Random,
    raw_trb::{encode, with_unheld},
};

const LENGTHS: [u32; 18] = [0, 1, 2, 3, 7, 8, 9, 16, 64, 511, 512, 513, 4096, 65_535, 65_536, 131_070, 131_071, 100];
const BASES: [u64; 10] = [
    0,
    1,
    0x8000,
    0x1000_0000,
    0xffff_ff00,
    1 << 63,
    u64::MAX - 0x3_ffff,
    u64::MAX - 0x1_ffff,
    u64::MAX - 0xff,
    u64::MAX,
];
/// Of a region; two of them are not more than both may have.
const REGION_LENGTHS: [u64; 8] = [0, 1, 8, 512, 0x1_0000, 0x2_0000, MAX_WINDOW / 2 - 1, MAX_WINDOW / 2];
const REQUEST_LENGTHS: [u32; 8] = [0, 1, 18, 1 << 31, u32::MAX, u32::MAX - 7, u32::MAX - 511, u32::MAX - 131_071];
const GET_DESCRIPTOR: u64 = 0x0040_0000_0100_0680;

/// How a stretch of calls leans, in percent unless it says otherwise.
struct Style {
    is_control: bool,
    /// TRBs that belong to the phase, or on IN to the endpoint.
    fitting: u64,
    /// Of the TRBs that belong, where Normal and EventData both do.
    event_data: u64,
    /// Chain bits that do not follow the length aimed at.
    stray_chain: u64,
    interrupt_on_completion: u64,
    interrupt_on_short: u64,
    immediate: u64,
    direction_in: u64,
    /// No TRB is longer than this.
    longest: u32,
    at_longest: u64,
    /// Per thousand calls, how many something else goes before: a cancel, another endpoint, guest memory or block.
    disturbed: u64,
    calls: u64,
}

impl Style {
    fn any(random: &mut Random) -> Self {
        Self {
            is_control: random.percent(55),
            fitting: random.pick(&[60, 90, 100, 100]),
            event_data: random.pick(&[3, 25]),
            stray_chain: random.pick(&[0, 0, 5]),
            interrupt_on_completion: random.pick(&[0, 20, 50, 100]),
            interrupt_on_short: random.pick(&[0, 50, 100]),
            immediate: random.pick(&[0, 10, 60]),
            direction_in: random.pick(&[0, 50, 100]),
            longest: random.pick(&[9, 600, 600, MAX_TRB_LENGTH]),
            at_longest: random.pick(&[0, 0, 0, 90]),
            disturbed: random.pick(&[0, 5, 60, 150]),
            calls: random.pick(&[10, 10, 40, 40, 150, 150, 300, 300, 3 * MAX_HELD as u64]),
        }
    }
}

struct Generator {
    random: Random,
    script: Script,
    style: Style,
    /// How many TRBs the TD under way, or on control the data stage, tries to reach.
    target: usize,
    next_address: u64,
}

/// A script of `count` calls that print an answer.
pub fn script(seed: u64, count: usize) -> String {
    let mut random = Random::new(seed);
    let style = Style::any(&mut random);
    let mut generator = Generator { random, script: Script::default(), style, target: 1, next_address: 0x1000 };
    while generator.script.answered < count {
        generator.stretch(count);
    }
    generator.script.text
}

impl Generator {
    fn model(&self) -> &Model {
        self.script.model.as_ref().expect("a stretch starts with a creation")
    }

    /// An endpoint and some calls on it in one style.
    fn stretch(&mut self, count: usize) {
        self.style = Style::any(&mut self.random);
        self.create();
        for _ in 0..self.style.calls {
            if self.script.answered < count && self.random.below(1000) < self.style.disturbed {
                self.disturb();
            }
            if self.script.answered < count {
                self.next_call();
            }
        }
    }

    fn create(&mut self) {
        let any_endpoint = 1 + self.random.below(MAX_ENDPOINT.into()) as u8;
        let endpoint = self.random.pick(&[1, 3, MAX_ENDPOINT, any_endpoint]);
        let any_slot = 1 + self.random.below(255) as u8;
        let slot = self.random.pick(&[1, 2, 255, any_slot]);
        self.script.call(if self.style.is_control {
            Call::CreateControl { endpoint, slot, release: None }
        } else {
            Call::CreateIn { endpoint, slot, mode: None }
        });
    }

    fn disturb(&mut self) {
        match self.random.below(10) {
            0 => self.create(),
            1 | 2 => self.change_window(),
            3 => self.change_buffers(),
            4..=6 => self.script.call(Call::Cancel),
            _ => self.make_up_block(),
        }
    }

    fn any_region(&mut self) -> Region {
        let any_base = self.random.number();
        let base = self.random.pick(&BASES);
        let length = self.random.pick(&REGION_LENGTHS);
        Region {
            base: self.random.pick(&[base, base, 0x8000, any_base]),
            length: self.random.pick(&[length, 0x4_0000, 0x4_0000]),
        }
    }

    /// A region that starts where the other one ends, or ends where it starts.
    fn touching(&mut self, region: Region) -> Region {
        let length = self.random.pick(&REGION_LENGTHS);
        let before = region.base.wrapping_sub(length);
        let behind = region.base.wrapping_add(region.length);
        Region { base: self.random.pick(&[before, behind]), length }
    }

    /// One region, or two that share no address.
    fn change_window(&mut self) {
        let low = self.any_region();
        let apart = self.any_region();
        let touching = self.touching(low);
        let high = self.random.pick(&[apart, touching, touching]);
        let two = self.random.percent(70) && !low.shares_an_address(high);
        self.script.call(Call::Window { low, high: two.then_some(high) });
    }

    /// One of the regions, and not an empty one if there is another.
    fn region(&mut self) -> Region {
        let Script { low, high, .. } = self.script;
        match (low.length, high.length) {
            (_, 0) => low,
            (0, _) => high,
            _ => self.random.pick(&[low, high]),
        }
    }

    /// Buffers that are too short for submission and completion, but not for cancel, or a collect buffer of any length.
    fn change_buffers(&mut self) {
        let any_collect = self.random.below(MAX_COLLECT + 1);
        let collect = self.random.pick(&[0, MIN_COLLECT, MAX_COLLECT, any_collect]);
        if self.random.percent(30) {
            let log = self.random.below(MIN_LOG);
            self.script.call(Call::Buffers { log, collect });
            self.script.call(Call::Cancel);
        }
        self.script.call(Call::Buffers { log: MIN_LOG, collect });
    }

    fn make_up_block(&mut self) {
        if self.random.percent(50) {
            self.create();
        }
        let wanted = self.random.pick(&[0, 1, 2, 3, 5, 10, MAX_HELD]);
        for _ in 0..wanted {
            let kind = self.random.pick(&Kind::ALL);
            if self.model().can_be_made_to_hold(kind) {
                let trb = self.made_up_trb(kind);
                self.script.call(Call::Hold(trb));
            }
        }
        let call = match self.model().phase {
            None => {
                let awaits_device_or_not = if self.model().holds_normal() { 2 } else { 3 };
                Call::MakeUpIn { state: self.random.pick(&[0, 1, awaits_device_or_not, awaits_device_or_not, 3]) }
            }
            Some(_) => {
                let any_length = self.random.number() as u32;
                let length = self.random.pick(&REQUEST_LENGTHS);
                Call::MakeUpControl {
                    phase: self.random.below(PHASES.len() as u64) as u8,
                    state: self.random.pick(&[0, 0, 1, 2, 2]),
                    direction: self.random.percent(self.style.direction_in),
                    length: self.random.pick(&[length, length, any_length]),
                }
            }
        };
        self.script.call(call);
    }

    fn next_call(&mut self) {
        match self.model().due {
            Due::Submission => self.submit(),
            Due::Device => {
                let status = self.status();
                let length = self.data_length();
                self.script.call(Call::CompleteWithResult { status, length });
            }
            Due::Collecting | Due::Local | Due::BadTrb { .. } => {
                let length = if self.random.percent(90) { 0 } else { self.random.pick(&LENGTHS).into() };
                self.script.call(Call::CompleteWithout { length });
            }
        }
    }

    /// Mostly what goes with the direction, sometimes the other direction's success.
    fn status(&mut self) -> Status {
        let (usual, crossed) = match self.model() {
            Model { phase: None, .. } => (Status::Success, Status::Success),
            Model { is_out: true, .. } => (Status::SuccessfulControlOut, Status::Success),
            Model { is_out: false, .. } => (Status::Success, Status::SuccessfulControlOut),
        };
        let error = self.random.pick(&[Status::Stall, Status::TransactionError, Status::Disconnect]);
        self.random.pick(&[usual, usual, usual, crossed, error, error])
    }

    /// Around the end of some TRB held, around all, or anything.
    fn data_length(&mut self) -> u64 {
        let mut sum = 0;
        let ends: Vec<u64> = std::iter::once(0)
            .chain(self.model().held.iter().flatten().map(|length| {
                sum += u64::from(*length);
                sum
            }))
            .collect();
        let near = self.random.pick(&ends);
        let near = self.random.pick(&[near, near, sum]);
        let anything = self.random.below(sum + 20);
        let length = self.random.pick(&[near, near + 1, near.saturating_sub(1), near, anything, 0]);
        length.min(MAX_DATA)
    }

    fn submit(&mut self) {
        let kind = self.kind();
        if !self.model().has_room(kind) {
            return self.let_go();
        }
        if self.model().phase.is_some() && self.script.collect < MIN_COLLECT {
            let collect = self.random.pick(&[MIN_COLLECT, MAX_COLLECT]);
            self.script.call(Call::Buffers { log: MIN_LOG, collect });
        }
        if self.model().held.len() <= 1 {
            self.target =
                self.random.pick(&[1, 1, 2, 3, 4, 6, 20, 64, MAX_HELD - 1, MAX_HELD - 1, MAX_HELD, MAX_HELD + 1]);
        }
        let trb = self.submitted_trb(kind);
        self.script.call(Call::Submit(trb));
    }

    /// No place is left: a TRB that is not held, or on IN a cancel.
    fn let_go(&mut self) {
        if self.model().phase.is_none() && self.random.percent(30) {
            return self.script.call(Call::Cancel);
        }
        let kind = self.random.pick(&[Kind::Unrecognized, Kind::Isoch]);
        let trb = self.submitted_trb(kind);
        self.script.call(Call::Submit(trb));
    }

    fn kind(&mut self) -> Kind {
        if !self.random.percent(self.style.fitting) {
            return self.random.pick(&Kind::ALL);
        }
        let event_data = self.random.percent(self.style.event_data);
        let fitting: &[Kind] = match self.model().phase {
            None | Some(Phase::MoreData) if event_data => &[Kind::EventData],
            None => &[Kind::Normal, Kind::Normal, Kind::Normal, Kind::Normal, Kind::Normal, Kind::NoOp],
            Some(Phase::Setup) => &[Kind::SetupStage],
            Some(Phase::MaybeData) => &[Kind::DataStage, Kind::DataStage, Kind::DataStage, Kind::StatusStage],
            Some(Phase::MoreData) => &[Kind::Normal],
            Some(Phase::Status) => &[Kind::StatusStage],
            Some(Phase::FinalEventData) => &[Kind::EventData],
        };
        self.random.pick(fitting)
    }

    fn address(&mut self) -> u64 {
        self.next_address += 16;
        let any = self.random.number();
        let odd = self.random.pick(&[0, u64::MAX, 0x1010, any]);
        if self.random.percent(4) {
            odd
        } else {
            self.next_address
        }
    }

    fn flags(&mut self, kind: Kind) -> u8 {
        let goes_on = self.model().held.len() + 1 < self.target;
        let chained = if kind == Kind::StatusStage || self.random.percent(self.style.stray_chain) {
            self.random.percent(25)
        } else {
            goes_on
        };
        let chances = [
            (CYCLE, 50),
            (CHAIN, if chained { 100 } else { 0 }),
            (INTERRUPT_ON_COMPLETION, self.style.interrupt_on_completion),
            (INTERRUPT_ON_SHORT, self.style.interrupt_on_short),
            (IMMEDIATE_DATA, self.style.immediate),
            (DIRECTION, 50),
        ];
        let mut flags = 0;
        for (flag, chance) in chances {
            if self.random.percent(chance) {
                flags |= flag & kind.flags();
            }
        }
        flags
    }

    fn length(&mut self) -> u32 {
        if self.random.percent(self.style.at_longest) {
            return self.style.longest;
        }
        let any = self.random.below(u64::from(self.style.longest) + 1) as u32;
        let listed = self.random.pick(&LENGTHS);
        self.random.pick(&[listed, listed, any]).min(self.style.longest)
    }

    fn setup_bytes(&mut self) -> u64 {
        let any = self.random.number();
        let bytes = self.random.pick(&[any, GET_DESCRIPTOR]) & !0x80;
        bytes | if self.random.percent(self.style.direction_in) { 0x80 } else { 0 }
    }

    /// A TRB with any pointer and any length.
    fn trb(&mut self, kind: Kind) -> Trb {
        let a = match kind {
            Kind::SetupStage => self.setup_bytes(),
            _ if kind.has_a() => self.any_pointer(),
            _ => 0,
        };
        Trb {
            kind,
            address: self.address(),
            flags: self.flags(kind),
            a,
            length: if kind.has_length() { self.length() } else { 0 },
        }
    }

    fn any_pointer(&mut self) -> u64 {
        let any = self.random.number();
        let Region { base, length } = self.region();
        let end = base.wrapping_add(length);
        self.random.pick(&[any, 0, u64::MAX, base, base.wrapping_sub(1), end, end.wrapping_sub(8)])
    }

    /// A range of one region, shorter than `length` if that does not fit in.
    fn place(&mut self, length: u32) -> (u64, u32) {
        let region = self.region();
        let length = u64::from(length).min(region.length);
        let last = (region.length - length).min(u64::MAX - region.base);
        let any = self.random.below(last + 1);
        let close = 64 * self.random.below(1 + last.min(2048) / 64);
        let offset = self.random.pick(&[close, close, close, any, 0, last]);
        (region.base + offset, length as u32)
    }

    /// A TRB that the questions let in.
    fn submitted_trb(&mut self, kind: Kind) -> Trb {
        let mut trb = self.trb(kind);
        if !kind.has_length() || !self.model().would_hold(kind) {
            return trb;
        }
        let is_out = self.model().is_out;
        if !is_out {
            trb.flags &= !IMMEDIATE_DATA;
        }
        if is_out {
            let fills = self.random.percent(3) && self.style.longest > 600;
            let collectable = self.model().collectable();
            trb.length = if fills { collectable } else { trb.length };
            let free_of_limit = trb.has(IMMEDIATE_DATA) && collectable >= 8;
            trb.length = if free_of_limit { trb.length } else { trb.length.min(collectable) };
        }
        let is_asked_for_place = trb.length != 0 && !(is_out && trb.has(IMMEDIATE_DATA));
        if is_asked_for_place {
            (trb.a, trb.length) = self.place(trb.length);
        }
        trb
    }

    /// A made-up TRB may point outside guest memory.
    fn made_up_trb(&mut self, kind: Kind) -> Trb {
        let mut trb = self.trb(kind);
        if kind.has_length() && self.random.percent(70) {
            (trb.a, trb.length) = self.place(trb.length);
        }
        trb
    }
}

/// Rows of TDs on IN endpoints, `count` of them, with cancels, other endpoints and other guest memory between.
pub fn row_script(seed: u64, count: usize) -> String {
    let mut random = Random::new(seed ^ 0x726f_7773);
    let style = Style { is_control: false, ..Style::any(&mut random) };
    let mut generator = Generator { random, script: Script::default(), style, target: 1, next_address: 0x1000 };
    while generator.script.answered < count {
        generator.style = Style { is_control: false, ..Style::any(&mut generator.random) };
        generator.create();
        for _ in 0..generator.style.calls.min(20) {
            if generator.random.percent(10) {
                generator.change_window();
            }
            if generator.random.percent(5) {
                generator.script.call(Call::Cancel);
            }
            generator.row();
        }
    }
    generator.script.text
}

impl Generator {
    /// A row of whole TDs, with what each is given.
    fn row(&mut self) {
        let longest = self.random.pick(&[0, 1, 3, 20, 60, MAX_ROW]);
        let mut room = MAX_DATA;
        let mut count = 0;
        while count < longest {
            let wanted = self.random.pick(&[1, 1, 2, 3, 20, MAX_ROW]);
            let size = wanted.min(longest - count);
            room -= self.row_td(size, room);
            count += size;
            if self.random.percent(10) {
                break;
            }
        }
        self.script.call(Call::CompleteRow { length: MAX_DATA - room });
    }

    /// A TD of so many TRBs, given no more than there is room for; how much it is given.
    fn row_td(&mut self, size: usize, room: u64) -> u64 {
        let (mut asked, mut normal) = (0, false);
        for i in 0..size {
            let event_data = self.random.percent(self.style.event_data);
            let fitting = self.random.pick(&[Kind::Normal, Kind::Normal, Kind::Normal, Kind::NoOp]);
            let kind = if event_data { Kind::EventData } else { fitting };
            let mut trb = self.submitted_trb(kind);
            trb.flags = trb.flags & !CHAIN | if i + 1 < size { CHAIN } else { 0 };
            asked += u64::from(trb.length);
            normal |= kind == Kind::Normal;
            self.script.call(Call::AppendTrb(trb));
        }
        let anything = self.random.below(asked + 20);
        let length =
            self.random.pick(&[asked, asked, asked, asked + 1, asked.saturating_sub(1), anything, 0]).min(room);
        let error = self.random.pick(&[Status::Stall, Status::TransactionError, Status::Disconnect]);
        let status = if self.random.percent(93) { Status::Success } else { error };
        let (status, length) = if normal { (status, length) } else { (Status::Success, 0) };
        self.script.call(Call::AppendResult { status, length: length as u32 });
        length
    }
}

/// The same script with each submission raw, and anything in the fields that the decoded form does not hold.
pub fn raw_script(seed: u64, count: usize) -> String {
    let mut random = Random::new(!seed);
    let mut raw = |line: &str| match parse(line) {
        Some(Call::Submit(trb)) => {
            let bytes = with_unheld(&encode(&trb).buffer, &mut random);
            format!("{}\n", Call::SubmitRaw { address: trb.address, bytes })
        }
        _ => format!("{line}\n"),
    };
    script(seed, count).lines().map(&mut raw).collect()
}

const MICROSECONDS: [u32; 5] = [0, 1, 500_000, 999_998, 999_999];

/// The same script, or a script of rows, with times and with what captures say of the endpoint, before any of its lines.
pub fn captured_script(seed: u64, count: usize) -> String {
    let mut random = Random::new(seed ^ 0x0063_6170);
    let any_script = if random.percent(25) { row_script(seed, count.div_ceil(8)) } else { script(seed, count) };
    let mut text = String::new();
    for line in any_script.lines() {
        if random.percent(10) {
            let microseconds = random.pick(&MICROSECONDS);
            let seconds = random.number() as u32;
            text.push_str(&format!("{}\n", Call::Time { seconds, microseconds }));
        }
        if random.percent(3) {
            let any = random.number();
            let bus = random.pick(&[0, 1, 255, 256, u16::MAX, any as u16]);
            let device = random.pick(&[0, 1, 127, 255, (any >> 16) as u8]);
            let captured = Captured { bus, device, is_interrupt: random.percent(50) };
            text.push_str(&format!("{}\n", Call::Captured(captured)));
        }
        text.push_str(line);
        text.push('\n');
    }
    text
}
