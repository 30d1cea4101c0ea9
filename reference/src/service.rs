//! The service's three calls: message, timer and "command done".

use std::ops::Range;

use crate::fault::{kind_from_last_byte, Fault};
use crate::fence::fence_fits;
use crate::items::{judge, read, result, Reading, Standing, DO_JUMP};
use crate::layout::{Address, Item, Message, READ_IDS, TEXT_BYTES};
use crate::limits::*;
use crate::search::{next_command, Command};
use crate::state::{Plan, State, Upload};
use crate::store::Shelf;

/// Outcomes of a call.
pub mod outcome {
    pub const REPLY: u8 = 0;
    pub const NO_REPLY: u8 = 1;
    pub const SHORT_BUFFER: u8 = 10;
    pub const EMPTY_PAYLOAD: u8 = 11;
    pub const NOT_READ: u8 = 12;
    pub const NOT_FOR_US: u8 = 13;
    pub const SHORT_STORE: u8 = 14;
    pub const OUT_OF_RANGE: u8 = 15;
}

const NO_SUCH_ITEM: &[u8] = b"no such mission item";
const SEVERITY_WARNING: u8 = 4;

/// What a message call is handed beside state, store and buffer.
#[derive(Clone, Copy, Debug)]
pub struct MessageCall<'a> {
    pub own: Address,
    pub sender: Address,
    pub id: u32,
    pub payload: &'a [u8],
    pub clock: u32,
}

/// What a message or timer call returns.
#[derive(Clone, Copy, Debug, Default, PartialEq, Eq)]
pub struct Returned {
    pub outcome: u8,
    pub id: u32,
    pub len: usize,
}

fn without_reply(outcome: u8) -> Returned {
    Returned { outcome, id: 0, len: 0 }
}

/// An ACK that is not for an accepted upload.
pub(crate) fn ack(to: Address, result: u8, kind: u8) -> Message {
    Message::Ack { to, result, kind, number: 0 }
}

/// The service: its state, and a planted fault if any.
#[derive(Clone, Debug)]
pub struct Service {
    pub state: State,
    pub fault: Fault,
}

impl Service {
    /// A fresh start, with or without home in item 0.
    pub fn fresh(home: bool, fault: Fault) -> Service {
        let home = match fault {
            Fault::Home0Always => true,
            Fault::Home0Never => false,
            _ => home,
        };
        Service { state: State::fresh(home), fault }
    }

    pub fn message(&mut self, call: &MessageCall, store: &mut [u32], reply: &mut [u8]) -> Returned {
        if let Err(refusal) = self.refuse(store.len(), reply.len()) {
            return without_reply(refusal);
        }
        if call.payload.is_empty() {
            return without_reply(outcome::EMPTY_PAYLOAD);
        }
        let Some(message) = self.read(call.id, call.payload) else {
            return without_reply(outcome::NOT_READ);
        };
        if !self.for_us(call.own, message.to()) {
            return without_reply(outcome::NOT_FOR_US);
        }
        let answer = self.answer(call, &message, store);
        self.write(answer, reply)
    }

    pub fn timer(&mut self, kind: u8, clock: u32, store: &[u32], reply: &mut [u8]) -> Returned {
        if let Err(refusal) = self.refuse(store.len(), reply.len()) {
            return without_reply(refusal);
        }
        if usize::from(kind) >= KINDS {
            return without_reply(outcome::NOT_READ);
        }
        let answer = self.expiry(kind, clock);
        self.write(answer, reply)
    }

    pub fn done(&mut self, store: &[u32]) -> (u8, Command) {
        match self.refuse(store.len(), REPLY_BYTES) {
            Err(refusal) => (refusal, Command::Stuck),
            Ok(()) => (outcome::NO_REPLY, next_command(&mut self.state, store, self.fault)),
        }
    }

    /// The refusals 14, 15 and 10, in this order.
    fn refuse(&self, store_len: usize, reply_len: usize) -> Result<(), u8> {
        let short_buffer = reply_len < REPLY_BYTES;
        if store_len < self.least_store() {
            Err(outcome::SHORT_STORE)
        } else if short_buffer && self.fault.is(Fault::BufferBeforeRange) {
            Err(outcome::SHORT_BUFFER)
        } else if !self.state.in_range(self.fault) {
            Err(outcome::OUT_OF_RANGE)
        } else if short_buffer {
            Err(outcome::SHORT_BUFFER)
        } else {
            Ok(())
        }
    }

    /// The fewest words of store that are not too short.
    fn least_store(&self) -> usize {
        match self.fault {
            Fault::ShortAt5632 => STORE_WORDS + 1,
            Fault::LongAt5631 => STORE_WORDS - 1,
            _ => STORE_WORDS,
        }
    }

    fn read(&self, id: u32, payload: &[u8]) -> Option<Message> {
        let id = if self.fault.is(Fault::IdLowByte) { id & 0xFF } else { id };
        if !READ_IDS.contains(&id) {
            return None;
        }
        if self.fault.is(Fault::ShortKindLastByte) {
            return Message::read(id, &kind_from_last_byte(id, payload));
        }
        Message::read(id, payload)
    }

    fn for_us(&self, own: Address, to: Address) -> bool {
        let system = to.system == own.system || to.system == 0;
        let component = to.component == own.component || to.component == 0;
        system && (component || self.fault.is(Fault::ComponentIgnored))
    }

    /// Writes the answer, if any, into the front of the reply buffer.
    fn write(&self, answer: Option<Message>, reply: &mut [u8]) -> Returned {
        let Some(message) = answer else {
            return without_reply(outcome::NO_REPLY);
        };
        let payload = message.write();
        let untrimmed = self.fault.is(Fault::NotTrimmed);
        let bytes = if untrimmed { payload.full() } else { payload.trimmed() };
        reply[..bytes.len()].copy_from_slice(bytes);
        Returned { outcome: outcome::REPLY, id: message.id(), len: bytes.len() }
    }

    /// What each message does. Kind comes first, except in SET_CURRENT, which
    /// has none, and ACK, which never gets a reply.
    fn answer(
        &mut self,
        call: &MessageCall,
        message: &Message,
        store: &mut [u32],
    ) -> Option<Message> {
        let sender = call.sender;
        match *message {
            Message::SetCurrent { seq, .. } => Some(self.set_current(seq)),
            Message::Ack { result, kind, .. } => self.acknowledged(sender, result, kind),
            Message::ClearAll { kind: ALL_KINDS, .. } => {
                Some(self.clear(sender, 0..KINDS, ALL_KINDS))
            }
            Message::ClearAll { kind, .. }
            | Message::RequestList { kind, .. }
            | Message::RequestInt { kind, .. }
            | Message::Count { kind, .. }
            | Message::WritePartialList { kind, .. }
            | Message::ItemInt(Item { kind, .. })
                if usize::from(kind) >= KINDS =>
            {
                Some(ack(sender, result::UNSUPPORTED, kind))
            }
            Message::ClearAll { kind, .. } => {
                let covered = usize::from(kind);
                Some(self.clear(sender, covered..covered + 1, kind))
            }
            Message::RequestList { kind, .. } => Some(self.request_list(sender, kind)),
            Message::RequestInt { seq, kind, .. } => {
                Some(self.request_int(sender, seq, kind, store))
            }
            Message::Count { count, kind, .. } => Some(self.count(sender, count, kind, call.clock)),
            Message::WritePartialList { start, end, kind, .. } => {
                Some(self.write_partial_list(sender, (start, end), kind, call.clock))
            }
            Message::ItemInt(item) => Some(self.item_int(sender, item, call.clock, store)),
            Message::Current { .. } | Message::StatusText { .. } => None,
        }
    }

    pub(crate) fn plan(&mut self, kind: u8) -> &mut Plan {
        &mut self.state.plans[usize::from(kind)]
    }

    pub fn plan_shelf(&self, kind: usize) -> Shelf {
        self.state.plan_shelf(kind).with(self.fault)
    }

    pub fn upload_shelf(&self, kind: usize) -> Shelf {
        self.state.upload_shelf(kind).with(self.fault)
    }

    fn count(&mut self, sender: Address, count: u16, kind: u8, clock: u32) -> Message {
        let fault = self.fault;
        let above = count > PLAN_SIZE[usize::from(kind)];
        let plan = self.plan(kind);
        if plan.another_uploads(sender) {
            let misread = above && fault.is(Fault::CountForeignSpace);
            let result = if misread { result::NO_SPACE } else { result::DENIED };
            return ack(sender, result, kind);
        }
        if above && fault.is(Fault::CountKeepsUpload) {
            return ack(sender, result::NO_SPACE, kind);
        }
        plan.upload = None;
        if above {
            return ack(sender, result::NO_SPACE, kind);
        }
        if count == 0 {
            self.empty(usize::from(kind));
            if usize::from(kind) == FLIGHT {
                self.lose_home(Fault::Home0LostAtCount0);
            }
            return ack(sender, result::ACCEPTED, kind);
        }
        plan.upload = Some(Upload::whole(sender, count, clock));
        if fault.is(Fault::ClearAtCount) {
            self.empty(usize::from(kind));
        }
        Message::RequestInt { seq: 0, to: sender, kind }
    }

    fn item_int(&mut self, sender: Address, item: Item, clock: u32, store: &mut [u32]) -> Message {
        let kind = item.kind;
        let Some(upload) = self.plan(kind).upload else {
            return ack(sender, result::INVALID_SEQUENCE, kind);
        };
        if upload.station != sender {
            return ack(sender, result::DENIED, kind);
        }
        let verdict = self.judge_upload_item(&item, &upload, store);
        let judged_first = self.fault.is(Fault::JudgedBeforeNumber) && verdict.is_err();
        if item.seq != upload.next && !judged_first {
            return self.unexpected_item(&item, &upload, clock);
        }
        if let Err(reason) = verdict {
            self.plan(kind).upload = None;
            self.use_free_words(usize::from(kind), upload.next..upload.next + 1, store);
            return ack(sender, reason, kind);
        }
        self.take(item, upload, clock, store)
    }

    /// The places of items that were not taken into a plan are free.
    fn use_free_words(&self, kind: usize, places: Range<u16>, store: &mut [u32]) {
        if self.fault.is(Fault::FreeWords) {
            let shelf = self.upload_shelf(kind);
            places.for_each(|index| shelf.put_words(store, index, [0x5A5A_5A5A; ITEM_WORDS]));
        }
    }

    /// The verdict on an item as the upload's next one. In a partial upload the
    /// room for jumps is judged at the last item, over the whole.
    fn judge_upload_item(&self, item: &Item, upload: &Upload, store: &[u32]) -> Result<(), u8> {
        let kind = usize::from(item.kind);
        let jumps_before = match item.command {
            DO_JUMP if upload.partial => self.jumps_beside(upload, store),
            DO_JUMP => {
                let first = self.first_counted(Fault::Home0TakesNoRoom);
                self.upload_shelf(kind).jumps(store, first..upload.next.max(first))
            }
            _ => 0,
        };
        let to_end = upload.partial && self.fault.is(Fault::PartialTargetsToEnd);
        let count = if to_end { upload.last + 1 } else { upload.count };
        let home = self.state.home;
        let standing = Standing { kind, number: item.seq, count, jumps_before, home };
        let judging = match self.fault {
            Fault::Home0PartialFree if upload.partial => Fault::Home0AnyCommand,
            Fault::Home0JumpPartial if upload.partial => Fault::Home0JumpTaken,
            fault => fault,
        };
        judge(item, &standing, judging)
    }

    /// Drops an item and requests the expected one again.
    fn unexpected_item(&mut self, item: &Item, upload: &Upload, clock: u32) -> Message {
        let fault = self.fault;
        let plan = self.plan(item.kind);
        if fault.is(Fault::RepeatEnds) && item.seq < upload.next {
            plan.upload = None;
            return ack(upload.station, result::INVALID_SEQUENCE, item.kind);
        }
        if fault.is(Fault::WrongItemRestarts) {
            plan.upload = Some(Upload { start: clock, ..*upload });
        }
        Message::RequestInt { seq: upload.next, to: upload.station, kind: item.kind }
    }

    /// Stores the expected, valid item and requests the next one, if it is not
    /// the last.
    fn take(&mut self, item: Item, upload: Upload, clock: u32, store: &mut [u32]) -> Message {
        let kind = usize::from(item.kind);
        let early = upload.partial && self.fault.is(Fault::PartialPlaceEarly);
        let place = upload.next.saturating_sub(u16::from(early));
        self.upload_shelf(kind).put(store, place, &self.stored(item));
        if upload.partial && self.fault.is(Fault::PartialItemByItem) {
            self.plan_shelf(kind).put(store, place, &self.stored(item));
        }
        if upload.next == upload.last {
            return self.finish(kind, upload, store);
        }
        let next = upload.next + 1;
        let repeats = if self.fault.is(Fault::RepeatsKept) { upload.repeats } else { 0 };
        let taken = Upload { next, start: clock, repeats, ..upload };
        self.plan(item.kind).upload = Some(taken);
        Message::RequestInt { seq: next, to: upload.station, kind: item.kind }
    }

    /// After the last item, replaces the plan, unless the whole breaks a rule.
    fn finish(&mut self, kind: usize, upload: Upload, store: &mut [u32]) -> Message {
        let Upload { station, count, .. } = upload;
        self.state.plans[kind].upload = None;
        if upload.partial {
            self.put_unchanged(kind, &upload, store);
        }
        if let Err(reason) = self.judge_whole(kind, &upload, store) {
            if upload.partial && self.fault.is(Fault::PartialRefusedStays) {
                self.state.plans[kind].upload = Some(upload);
            }
            let own_place = upload.next..upload.next + 1;
            let free = if upload.partial { 0..count } else { own_place };
            self.use_free_words(kind, free, store);
            return ack(station, reason, kind as u8);
        }
        let number = self.replace(kind, &upload);
        Message::Ack { to: station, result: result::ACCEPTED, kind: kind as u8, number }
    }

    /// The verdict on all the items that are to be the plan.
    fn judge_whole(&self, kind: usize, upload: &Upload, store: &[u32]) -> Result<(), u8> {
        if upload.partial {
            self.judge_unchanged(kind, upload, store)?;
        }
        if kind == FLIGHT && upload.partial && !self.jumps_fit(upload, store) {
            let misread = self.fault.is(Fault::PartialSpaceIs5);
            return Err(if misread { result::INVALID } else { result::NO_SPACE });
        }
        let judged = match self.fault {
            Fault::PartialFenceFree if upload.partial => 0..0,
            Fault::PartialFenceSent => upload.first..upload.last + 1,
            _ => 0..upload.count,
        };
        if kind == FENCE && !self.uploaded_fence_fits(judged, store) {
            return Err(result::INVALID);
        }
        Ok(())
    }

    /// The item that is stored: the one sent.
    fn stored(&self, mut item: Item) -> Item {
        if self.fault.is(Fault::AddressKept) {
            (item.frame, item.autocontinue) = (item.to.system, item.to.component);
        }
        if self.fault.is(Fault::CurrentKept) {
            item.autocontinue = item.current;
        }
        let without_repeat = item.command == DO_JUMP && read(item.params[1]) == Reading::NoValue;
        if without_repeat && self.fault.is(Fault::NanStoredAsOne) {
            item.params[1] = 1.0f32.to_bits();
        }
        item
    }

    fn uploaded_fence_fits(&self, judged: Range<u16>, store: &[u32]) -> bool {
        let shelf = self.upload_shelf(FENCE);
        let items: Vec<Item> = judged.map(|index| shelf.item(store, index)).collect();
        fence_fits(&items, self.fault)
    }

    /// Makes the uploaded items the plan and gives its new number.
    fn replace(&mut self, kind: usize, upload: &Upload) -> u32 {
        let plan = &mut self.state.plans[kind];
        plan.length = upload.count;
        if !self.fault.is(Fault::HalfNotSwitched) {
            plan.half = plan.other_half();
        }
        if !(upload.partial && self.fault.is(Fault::PartialKeepsNumber)) {
            plan.number = plan.number.wrapping_add(1);
        }
        if plan.number == 0 && !self.fault.is(Fault::NumberZero) {
            plan.number = 1;
        }
        let number = plan.number;
        match upload.partial {
            _ if kind != FLIGHT => {}
            true => {
                self.go_on_flying(upload);
                self.lose_home(Fault::Home0LostAtPart);
            }
            false => {
                self.state.restart_flight();
                self.state.current = self.first_counted(Fault::Home0RestartsAt1).min(upload.last);
                self.lose_home(Fault::Home0LostAtReplacement);
            }
        }
        number
    }

    /// Empties a plan; its number and half stay.
    fn empty(&mut self, kind: usize) {
        let plan = &mut self.state.plans[kind];
        plan.length = 0;
        if self.fault.is(Fault::EmptySwitchesHalf) {
            plan.half = plan.other_half();
        }
        if kind == FLIGHT || self.fault.is(Fault::FenceResetsFlight) {
            self.state.restart_flight();
        }
        if kind == FENCE {
            self.lose_home(Fault::Home0LostAtFence);
        }
    }

    /// A nonzero ACK from the station that uploads its kind ends that upload.
    fn acknowledged(&mut self, sender: Address, result: u8, kind: u8) -> Option<Message> {
        let fault = self.fault;
        if result != result::ACCEPTED {
            for (index, plan) in self.state.plans.iter_mut().enumerate() {
                let meant = index == usize::from(kind) || fault.is(Fault::AckEndsAll);
                let anyone = fault.is(Fault::AckFromAnyone);
                if meant && plan.upload.is_some_and(|u| u.station == sender || anyone) {
                    plan.upload = None;
                }
            }
        }
        fault.is(Fault::AckAnswered).then(|| ack(sender, result::ACCEPTED, kind))
    }

    fn clear(&mut self, sender: Address, covered: Range<usize>, kind: u8) -> Message {
        let foreign = |plan: &Plan| plan.another_uploads(sender);
        let denied = self.state.plans[covered.clone()].iter().any(foreign);
        let own_only = self.fault.is(Fault::ClearOwnOnly) && kind == ALL_KINDS;
        if denied && !own_only {
            return ack(sender, result::DENIED, kind);
        }
        for index in covered {
            if !foreign(&self.state.plans[index]) {
                self.state.plans[index].upload = None;
                self.empty(index);
            }
        }
        match kind {
            ALL_KINDS => self.lose_home(Fault::Home0LostAtClearAll),
            _ if usize::from(kind) == FLIGHT => self.lose_home(Fault::Home0LostAtClear),
            _ => {}
        }
        ack(sender, result::ACCEPTED, kind)
    }

    fn shown_number(&self, kind: usize) -> u32 {
        let plan = &self.state.plans[kind];
        if self.fault.is(Fault::EmptyShowsNumber) {
            return plan.number;
        }
        plan.shown_number()
    }

    fn request_list(&self, sender: Address, kind: u8) -> Message {
        let index = usize::from(kind);
        let count = self.state.plans[index].length;
        Message::Count { count, to: sender, kind, number: self.shown_number(index) }
    }

    /// The stored item as of now; seq and kind follow from its place.
    fn request_int(&self, sender: Address, seq: u16, kind: u8, store: &[u32]) -> Message {
        let index = usize::from(kind);
        let plan = &self.state.plans[index];
        if seq >= plan.length {
            return ack(sender, result::INVALID_SEQUENCE, kind);
        }
        let hidden = self.bends_home(seq, Fault::Home0NotShown);
        let current = u8::from(index == FLIGHT && seq == self.state.current && !hidden);
        let item = self.plan_shelf(index).item(store, seq);
        Message::ItemInt(Item { to: sender, current, ..item })
    }

    fn set_current(&mut self, seq: u16) -> Message {
        let total = self.state.plans[FLIGHT].length;
        let Some(chosen) = self.chosen(seq) else {
            let mut text = [0; TEXT_BYTES];
            text[..NO_SUCH_ITEM.len()].copy_from_slice(NO_SUCH_ITEM);
            return Message::StatusText { severity: SEVERITY_WARNING, text, id: 0, chunk: 0 };
        };
        let bends = |fault| self.bends_home(seq, fault);
        let current = if bends(Fault::Home0SetStays) { seq } else { chosen };
        let shown = if bends(Fault::Home0SetSeq0) { seq } else { chosen };
        let begun = self.fault.is(Fault::SetCurrentBegun) || bends(Fault::Home0SetKeepsBegun);
        self.state.current = current;
        self.state.begun &= begun;
        if self.fault.is(Fault::SetCurrentCounts) {
            self.state.jump_counts = [0; MAX_JUMPS];
        }
        let numbers = [FLIGHT, FENCE, RALLY].map(|kind| self.shown_number(kind));
        Message::Current { seq: shown, total, state: 0, mode: 0, numbers }
    }

    /// A timer call: requests again, or gives the upload up.
    fn expiry(&mut self, kind: u8, clock: u32) -> Option<Message> {
        let fault = self.fault;
        let plan = self.plan(kind);
        let upload = plan.upload?;
        if !expired(upload.start, clock, fault) {
            return None;
        }
        if upload.repeats >= MAX_REPEATS - u8::from(fault.is(Fault::SixthAtFour)) {
            plan.upload = None;
            return Some(ack(upload.station, result::CANCELLED, kind));
        }
        let start = if fault.is(Fault::TimerNotRestarted) { upload.start } else { clock };
        plan.upload = Some(Upload { start, repeats: upload.repeats + 1, ..upload });
        let from_first = upload.partial && fault.is(Fault::PartialExpiryStart);
        let seq = if from_first { upload.first } else { upload.next };
        Some(Message::RequestInt { seq, to: upload.station, kind })
    }
}

/// True if 250 ms or more have passed since `start`.
fn expired(start: u32, now: u32, fault: Fault) -> bool {
    if fault.is(Fault::ClockGreater) {
        return now > start && now - start >= EXPIRY_MS;
    }
    let expiry = EXPIRY_MS - u32::from(fault.is(Fault::Expiry249));
    let backward = BACKWARD_MS + u32::from(fault.is(Fault::BackwardLate));
    let elapsed = now.wrapping_sub(start);
    elapsed < backward && elapsed >= expiry
}
