//! Partial uploads (request M-108): which items a station may announce to change,
//! and the plan with these items changed, which is put together at the last item.

use crate::fault::Fault;
use crate::items::{judge, result, Standing, DO_JUMP};
use crate::layout::{Address, Message};
use crate::limits::*;
use crate::service::{ack, Service};
use crate::state::Upload;

/// The items that a WRITE_PARTIAL_LIST announces, if all of them are in the plan.
fn announced(start: i16, end: i16, length: u16, fault: Fault) -> Option<(u16, u16)> {
    let length = i32::from(length) + i32::from(fault.is(Fault::PartialEndAtLength));
    let in_plan = (0 <= start || fault.is(Fault::PartialNegative))
        && (start <= end || fault.is(Fault::PartialStartPastEnd))
        && i32::from(end) < length;
    in_plan.then_some((start as u16, end as u16))
}

impl Service {
    /// The range is judged after the rule on running uploads.
    pub(crate) fn write_partial_list(
        &mut self,
        sender: Address,
        (start, end): (i16, i16),
        kind: u8,
        clock: u32,
    ) -> Message {
        let fault = self.fault;
        let plan = self.plan(kind);
        let announced = announced(start, end, plan.length, fault);
        let refused = ack(sender, result::INVALID_SEQUENCE, kind);
        if plan.another_uploads(sender) {
            let misread = announced.is_none() && fault.is(Fault::PartialForeignRange);
            return if misread { refused } else { ack(sender, result::DENIED, kind) };
        }
        if announced.is_some() || !fault.is(Fault::PartialKeepsUpload) {
            plan.upload = None;
        }
        let Some((first, last)) = announced else { return refused };
        plan.upload = Some(Upload::partial(sender, plan.length, (first, last), clock));
        let seq = if fault.is(Fault::PartialFromZero) { 0 } else { first };
        Message::RequestInt { seq, to: sender, kind }
    }

    /// The jumps that count against an item's room: none, since the room is judged
    /// over the whole.
    pub(crate) fn jumps_beside(&self, upload: &Upload, store: &[u32]) -> usize {
        let Upload { count, next, first, .. } = *upload;
        let (plan, made) = (self.plan_shelf(FLIGHT), self.upload_shelf(FLIGHT));
        match self.fault {
            Fault::PartialRoomEach => {
                plan.jumps(store, 0..first)
                    + made.jumps(store, first..next)
                    + plan.jumps(store, next + 1..count)
            }
            _ => 0,
        }
    }

    /// The numbers of the plan's items that are not changed.
    fn unchanged(&self, upload: &Upload) -> impl Iterator<Item = u16> {
        let Upload { count, first, last, .. } = *upload;
        let before = if self.fault.is(Fault::PartialLosesBefore) { 0..0 } else { 0..first };
        let behind = if self.fault.is(Fault::PartialLosesBehind) { 0..0 } else { last..count };
        before.chain(behind.skip(1))
    }

    /// Puts the plan's items that are not changed beside those taken.
    pub(crate) fn put_unchanged(&self, kind: usize, upload: &Upload, store: &mut [u32]) {
        let (plan, made) = (self.plan_shelf(kind), self.upload_shelf(kind));
        for index in self.unchanged(upload) {
            let item = plan.item(store, index);
            made.put(store, index, &item);
        }
    }

    /// The items that are not changed are not judged.
    pub(crate) fn judge_unchanged(
        &self,
        kind: usize,
        upload: &Upload,
        store: &[u32],
    ) -> Result<(), u8> {
        if !self.fault.is(Fault::PartialOldJudged) {
            return Ok(());
        }
        let (plan, count, home) = (self.plan_shelf(kind), upload.count, self.state.home);
        self.unchanged(upload).try_for_each(|number| {
            let standing = Standing { kind, number, count, jumps_before: 0, home };
            judge(&plan.item(store, number), &standing, self.fault)
        })
    }

    /// Whether a flight plan put together has no jumps too many.
    pub(crate) fn jumps_fit(&self, upload: &Upload, store: &[u32]) -> bool {
        let Upload { count, first, last, .. } = *upload;
        let (plan, made) = (self.plan_shelf(FLIGHT), self.upload_shelf(FLIGHT));
        let sent = || made.jumps(store, first..last + 1);
        let jumps = match self.fault {
            Fault::PartialJumpsSent => sent(),
            Fault::PartialJumpsOld => plan.jumps(store, 0..count),
            Fault::PartialJumpsBoth => plan.jumps(store, 0..count) + sent(),
            _ => made.jumps(store, self.first_counted(Fault::Home0WholeLess0)..count),
        };
        let unseen =
            self.fault.is(Fault::PartialLastJump) && made.item(store, last).command != DO_JUMP;
        jumps <= MAX_JUMPS || unseen
    }

    /// Current item and begun stay where the flight plan was changed, and the jump
    /// counts become 0.
    pub(crate) fn go_on_flying(&mut self, upload: &Upload) {
        let Upload { count, first, last, .. } = *upload;
        let state = &mut self.state;
        let current_changed = (first..=last).contains(&state.current);
        let all_changed = first == 0 && last + 1 == count;
        match self.fault {
            Fault::PartialResetsCurrent => state.current = 0,
            Fault::PartialResetsBegun => state.begun = false,
            Fault::PartialCurrentLost if current_changed => state.restart_flight(),
            Fault::PartialAllIsWhole if all_changed => state.restart_flight(),
            Fault::PartialKeepsCounts => return,
            _ => {}
        }
        state.jump_counts = [0; MAX_JUMPS];
    }
}
