//! Home in item 0 (request M-109): which item SET_CURRENT chooses, where a search
//! begins, and what a planted fault makes of it.

use crate::fault::Fault;
use crate::limits::FLIGHT;
use crate::service::Service;
use crate::state::State;

/// Where a search begins: "a search that would begin at 0 begins at 1".
pub(crate) fn search_begin(state: &State, fault: Fault) -> u16 {
    let (least, step) = (u16::from(state.home), u16::from(state.begun));
    match fault {
        Fault::Home0Flown => state.current + step,
        Fault::Home0SkipsTwo => state.current.max(least) + step,
        _ => (state.current + step).max(least),
    }
}

impl Service {
    /// The item that SET_CURRENT chooses, if there is one: "SET_CURRENT 0 chooses 1, and is
    /// refused by text if there is no item 1".
    pub(crate) fn chosen(&self, seq: u16) -> Option<u16> {
        let chosen = seq.max(u16::from(self.state.home));
        let judged = if self.bends_home(seq, Fault::Home0SetAlone) { seq } else { chosen };
        let refused = self.bends_home(seq, Fault::Home0SetRefused);
        (judged < self.state.plans[FLIGHT].length && !refused).then_some(chosen)
    }

    /// Whether a planted fault bends what is done with item 0 where it is home.
    pub(crate) fn bends_home(&self, seq: u16, fault: Fault) -> bool {
        self.state.home && seq == 0 && self.fault.is(fault)
    }

    /// The first item whose jump counts: item 0, home or not.
    pub(crate) fn first_counted(&self, fault: Fault) -> u16 {
        u16::from(self.bends_home(0, fault))
    }

    /// Nothing but a fresh start chooses the setting.
    pub(crate) fn lose_home(&mut self, fault: Fault) {
        self.state.home &= !self.fault.is(fault);
    }
}
