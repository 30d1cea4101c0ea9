//! Hostile call lists by seed. The generator plays its own records, so that it
//! knows which uploads run and can go on with them. Lists of home have fresh
//! starts with home in item 0 (request M-109), and what that brings about.
//!
//! After an expected invalid item, or a last item whose fence fails, the words
//! of its place are free; after a partial upload whose whole fails, those of as
//! many places as the plan has items. The generator remembers such places and
//! shows none of them: it writes over them before a POKE, and leaves CMP out.

mod endings;
mod episodes;
mod home;
mod host;
mod moves;
mod noise;
mod partial;
mod values;

use crate::fault::Fault;
use crate::items::result;
use crate::layout::{address, Address, Item, Message};
use crate::limits::*;
use crate::player::Player;
use crate::random::Random;
use crate::script::{array, field, record, script_bytes, Record};
use crate::script::{MAX_PAYLOAD, REPLY_ARRAY, STORE_ARRAY, WITHOUT_HALF};
use crate::state::{State, Upload};
use crate::store::Shelf;

/// Calls of one script; a longer list is split.
const CALLS_PER_SCRIPT: usize = 2000;

const STATIONS: [(usize, Address); 6] = [
    (8, address(255, 190)),
    (5, address(254, 190)),
    (2, address(255, 191)),
    (1, address(190, 255)),
    (1, address(1, 1)),
    (1, address(0, 0)),
];

const OWN_ADDRESSES: [(usize, Address); 4] =
    [(6, address(1, 1)), (1, address(0, 0)), (1, address(255, 190)), (1, address(7, 200))];

/// Clock readings around which a clock runs over or seems to go back.
const EDGE_CLOCKS: [u32; 7] =
    [0, 100, (1 << 31) - 200, 1 << 31, u32::MAX - 300, u32::MAX - 20, u32::MAX];

/// A generated script: records, and bytes that end it.
pub struct Script {
    pub records: Vec<Record>,
    pub ending: Vec<u8>,
}

impl Script {
    pub fn bytes(&self) -> Vec<u8> {
        let mut bytes = script_bytes(&self.records);
        bytes.extend(&self.ending);
        bytes
    }

    /// One script with the records of all, ended as the last is.
    pub fn joined(scripts: impl Iterator<Item = Script>) -> Script {
        let mut joined = Script { records: Vec::new(), ending: Vec::new() };
        for script in scripts {
            joined.records.extend(script.records);
            joined.ending = script.ending;
        }
        joined
    }

    pub fn calls(&self) -> usize {
        self.records.iter().filter(|record| record.is_call()).count()
    }
}

/// Which list: its seed, the number of its calls, and whether it is one of home.
#[derive(Clone, Copy, Debug)]
pub struct List {
    pub seed: u64,
    pub calls: usize,
    pub home: bool,
}

impl List {
    /// A list without home in item 0.
    pub fn plain(seed: u64, calls: usize) -> List {
        List { seed, calls, home: false }
    }

    /// A list of home.
    pub fn home(seed: u64, calls: usize) -> List {
        List { seed, calls, home: true }
    }

    /// The scripts of the list, which have its calls together.
    pub fn scripts(self) -> impl Iterator<Item = Script> {
        let full = self.calls / CALLS_PER_SCRIPT;
        let rest = self.calls % CALLS_PER_SCRIPT;
        let sizes = std::iter::repeat_n(CALLS_PER_SCRIPT, full).chain((rest > 0).then_some(rest));
        sizes.enumerate().map(move |(number, size)| {
            let mixed = Random::new(self.seed).draw() ^ number as u64;
            Generator::new(mixed, self.home).script(size)
        })
    }
}

/// The state that the next record starts from, and what was made so far.
struct Generator {
    random: Random,
    /// Whether the list is one of home.
    of_home: bool,
    mirror: Player,
    records: Vec<Record>,
    calls: usize,
    limit: usize,
    clock: u32,
    own: Address,
    /// The items that the running upload of each kind is to send.
    planned: [Vec<Item>; KINDS],
    /// Places whose words are free.
    free: Vec<bool>,
    /// True if the copy and the store differ in no free words.
    comparable: bool,
}

impl Generator {
    fn new(seed: u64, of_home: bool) -> Generator {
        Generator {
            random: Random::new(seed),
            of_home,
            mirror: Player::new(Fault::None),
            records: Vec::new(),
            calls: 0,
            limit: 0,
            clock: 0,
            own: address(1, 1),
            planned: Default::default(),
            free: vec![false; 2 * HALF_PLACES],
            comparable: false,
        }
    }

    fn script(mut self, calls: usize) -> Script {
        self.limit = calls;
        self.fresh();
        while self.more() {
            self.episode();
        }
        self.dump();
        let ending = self.ending();
        Script { records: self.records, ending }
    }

    /// True until the script has its calls.
    fn more(&self) -> bool {
        self.calls < self.limit
    }

    /// Plays a record and adds it to the script. Calls past the limit are left
    /// out.
    fn emit(&mut self, record: Record) {
        if record.is_call() {
            if !self.more() {
                return;
            }
            self.calls += 1;
        }
        let before = self.state().clone();
        let mut lines = Vec::new();
        let printed_only = matches!(record.kind, record::DUMP | record::CMP);
        if !printed_only {
            self.mirror.record(&record, &mut lines);
        }
        match record.kind {
            record::MESSAGE => self.note_item(&before, &record),
            record::WRITE => self.note_write(&record),
            record::MOVE if lines == b"v 1\n" => self.note_move(),
            _ => {}
        }
        self.records.push(record);
    }

    /// Notes what an expected item does to the words of its place, and a partial
    /// upload's last one to all that are judged with it.
    fn note_item(&mut self, before: &State, record: &Record) {
        let Some(Message::ItemInt(item)) = Message::read(record.a, &record.payload) else {
            return;
        };
        let returned = self.mirror.returned;
        let plan = before.plans.get(usize::from(item.kind));
        let (0, Some(plan)) = (returned.outcome, plan) else { return };
        let Some(upload) = plan.upload else { return };
        let sender = address(record.b[2], record.b[3]);
        if upload.station != sender || upload.next != item.seq {
            return;
        }
        let result = match Message::read(returned.id, &self.mirror.reply[..returned.len]) {
            Some(Message::Ack { result, .. }) => result,
            _ => result::ACCEPTED,
        };
        let refused = result != result::ACCEPTED;
        let by_whole = !refused || [result::NO_SPACE, result::INVALID].contains(&result);
        let places = match upload.partial && item.seq == upload.last && by_whole {
            true => 0..upload.count,
            false => item.seq..item.seq + 1,
        };
        let shelf = before.upload_shelf(usize::from(item.kind));
        for place in places.map(|index| shelf.place(index)) {
            self.comparable &= !refused && !self.free[place];
            self.free[place] = refused;
        }
    }

    /// Notes which places a host's write settles.
    fn note_write(&mut self, record: &Record) {
        let words = self.mirror.written_words(record);
        for place in words.start / ITEM_WORDS..self.free.len().min(words.end.div_ceil(ITEM_WORDS)) {
            let item = place * ITEM_WORDS..(place + 1) * ITEM_WORDS;
            self.comparable &= !self.free[place];
            self.free[place] &= item.start < words.start || words.end < item.end;
        }
    }

    /// Notes that a move settles the places of the plans.
    fn note_move(&mut self) {
        for kind in 0..KINDS {
            let shelf = self.state().plan_shelf(kind);
            for place in (0..self.length(kind)).map(|index| shelf.place(index)) {
                self.comparable &= !self.free[place];
                self.free[place] = false;
            }
        }
    }

    fn state(&self) -> &State {
        self.mirror.state()
    }

    fn upload(&self, kind: usize) -> Option<Upload> {
        self.state().plans[kind].upload
    }

    fn length(&self, kind: usize) -> u16 {
        self.state().plans[kind].length
    }

    fn any_kind(&mut self) -> usize {
        self.random.weighted(&[(4, FLIGHT), (3, FENCE), (3, RALLY)])
    }

    fn any_station(&mut self) -> Address {
        self.random.weighted(&STATIONS)
    }

    /// The station that uploads the kind, or any if none does.
    fn uploader(&mut self, kind: usize) -> Address {
        match self.upload(kind) {
            Some(upload) => upload.station,
            None => self.any_station(),
        }
    }

    /// A station other than the one that uploads the kind.
    fn stranger(&mut self, kind: usize) -> Address {
        let mut station = self.any_station();
        if self.upload(kind).is_some_and(|upload| upload.station == station) {
            station.component ^= 1;
        }
        station
    }

    /// A target that means us.
    fn target(&mut self) -> Address {
        let Address { system, component } = self.own;
        self.random.weighted(&[
            (6, self.own),
            (2, address(0, 0)),
            (1, address(system, 0)),
            (1, address(0, component)),
        ])
    }

    fn pass_time(&mut self) {
        let step = self.random.weighted(&[(4, 0), (6, 3), (3, 40), (1, 120), (1, 260)]);
        self.clock = self.clock.wrapping_add(step);
        if self.random.chance(1, 150) {
            let near = self.random.pick(&EDGE_CLOCKS);
            self.clock = near.wrapping_add(self.random.below(100) as u32);
        }
    }

    /// A length of the store that suffices.
    fn store_length(&mut self) -> u32 {
        let longer = self.random.within(STORE_WORDS, STORE_ARRAY);
        self.random.weighted(&[(8, STORE_WORDS), (1, STORE_ARRAY), (1, longer)]) as u32
    }

    /// A length of the reply buffer that suffices.
    fn reply_length(&mut self) -> u32 {
        let longer = self.random.within(REPLY_BYTES, REPLY_ARRAY);
        self.random.weighted(&[(8, REPLY_BYTES), (1, REPLY_ARRAY), (1, longer)]) as u32
    }

    /// A message call with lent lengths that suffice.
    fn message(&mut self, sender: Address, id: u32, payload: Vec<u8>) -> Record {
        let Address { system, component } = self.own;
        Record {
            kind: record::MESSAGE,
            b: [system, component, sender.system, sender.component, 0],
            a: id,
            clock: self.clock,
            store: self.store_length(),
            reply: self.reply_length(),
            payload,
        }
    }

    /// Sends a message, its payload trimmed, in full, between, or over-long.
    fn send(&mut self, sender: Address, message: Message) {
        self.pass_time();
        let written = message.write();
        let (least, full) = (written.trimmed().len(), written.full().len());
        let mut payload = written.full().to_vec();
        match self.random.below(16) {
            0 => {}
            1 => payload.truncate(self.random.within(least, full)),
            2 => {
                let most = if self.random.chance(1, 8) { MAX_PAYLOAD } else { full + 8 };
                let len = self.random.within(full + 1, most);
                payload.resize_with(len, || self.random.byte());
            }
            _ => payload.truncate(least),
        }
        let record = self.message(sender, message.id(), payload);
        self.emit(record);
    }

    fn send_count(&mut self, sender: Address, kind: u8, count: u16) {
        let (to, number) = (self.target(), self.random.pick(&[0, 0, 1, u32::MAX]));
        self.send(sender, Message::Count { count, to, kind, number });
    }

    fn send_change(&mut self, sender: Address, kind: u8, (start, end): (i16, i16)) {
        let to = self.target();
        self.send(sender, Message::WritePartialList { start, end, to, kind });
    }

    fn send_item(&mut self, sender: Address, item: Item) {
        let to = self.target();
        self.send(sender, Message::ItemInt(Item { to, ..item }));
    }

    fn send_ack(&mut self, sender: Address, result: u8, kind: u8) {
        let (to, number) = (self.target(), self.random.pick(&[0, 0, 1, u32::MAX]));
        self.send(sender, Message::Ack { to, result, kind, number });
    }

    fn send_clear(&mut self, sender: Address, kind: u8) {
        let to = self.target();
        self.send(sender, Message::ClearAll { to, kind });
    }

    fn send_request_list(&mut self, sender: Address, kind: u8) {
        let to = self.target();
        self.send(sender, Message::RequestList { to, kind });
    }

    fn send_request_int(&mut self, sender: Address, seq: u16, kind: u8) {
        let to = self.target();
        self.send(sender, Message::RequestInt { seq, to, kind });
    }

    fn send_set_current(&mut self, sender: Address, seq: u16) {
        let to = self.target();
        self.send(sender, Message::SetCurrent { seq, to });
    }

    fn timer(&mut self, kind: u8, clock: u32) {
        let record = Record {
            kind: record::TIMER,
            b: [0, 0, 0, 0, kind],
            clock,
            store: self.store_length(),
            reply: self.reply_length(),
            ..Record::default()
        };
        self.emit(record);
    }

    fn done(&mut self) {
        let store = self.store_length();
        self.emit(Record { store, ..Record::of(record::DONE) });
    }

    fn dump(&mut self) {
        let shown = self.random.weighted(&[(5, 0), (1, WITHOUT_HALF)]);
        self.emit(Record::about(record::DUMP, shown));
    }

    fn snap(&mut self) {
        self.comparable = true;
        self.emit(Record::of(record::SNAP));
    }

    /// Compares with the copy, if free words cannot decide the answer.
    fn compare(&mut self) {
        if self.comparable {
            self.emit(Record::of(record::CMP));
        }
    }

    /// A SNAP or CMP of the old store.
    fn of_old_store(&mut self, kind: u8) {
        self.emit(Record::about(kind, array::OLD));
    }

    fn fresh(&mut self) {
        self.free.fill(false);
        self.comparable = false;
        self.own = self.random.weighted(&OWN_ADDRESSES);
        let fill = self.random.pick(&[0, 0xEE, 0xFF, 0xB1, 0x10]);
        let home = self.of_home && self.random.chance(7, 8);
        self.emit(Record::fresh(fill, home));
    }

    fn poke(&mut self, poked: u8, index: usize, value: u32) {
        self.emit(Record::poke(poked, index as u8, value));
    }

    fn poke_length(&mut self, kind: usize, length: u16) {
        self.settle_free_places(kind);
        self.poke(field::LENGTH, kind, u32::from(length));
    }

    fn poke_half(&mut self, kind: usize, half: u8) {
        self.settle_free_places(kind);
        self.poke(field::HALF, kind, u32::from(half));
    }

    /// Pokes an upload whole.
    fn poke_upload(&mut self, kind: usize, upload: Option<Upload>) {
        self.settle_free_places(kind);
        let pokes = Record::upload_pokes(kind as u8, upload);
        pokes.into_iter().for_each(|poke| self.emit(poke));
    }

    /// Writes an item over every place of the kind whose words are free.
    fn settle_free_places(&mut self, kind: usize) {
        for half in [0, 1] {
            let shelf = Shelf::new(kind, half);
            let is_free = |free: &[bool], index: &u16| free[shelf.place(*index)];
            let mut index = 0;
            while index < PLAN_SIZE[kind] {
                let run = index..PLAN_SIZE[kind];
                let run = run.take_while(|index| is_free(&self.free, index)).count() as u16;
                let item = |index| values::valid_item(&mut self.random, kind, index, 2);
                let items: Vec<Item> = (index..index + run).map(item).collect();
                self.write_items(shelf, index, &items);
                index += run + 1;
            }
        }
    }
}

#[cfg(test)]
mod tests {
    use super::*;
    use std::collections::HashSet;

    #[test]
    fn a_seed_gives_one_list() {
        let bytes = |list: List| list.scripts().map(|script| script.bytes()).collect::<Vec<_>>();
        for list in [List::plain, List::home] {
            let bytes = |seed| bytes(list(seed, 3000));
            assert_eq!(bytes(1), bytes(1));
            assert_ne!(bytes(1), bytes(2));
        }
    }

    #[test]
    fn no_two_lists_share_a_script() {
        let lists = (1..=12).flat_map(|seed| [List::plain(seed, 20_000), List::home(seed, 20_000)]);
        let all: Vec<_> = lists.flat_map(List::scripts).collect();
        let different: HashSet<_> = all.iter().map(Script::bytes).collect();
        assert_eq!(different.len(), all.len());
    }

    #[test]
    fn calls_are_counted() {
        for calls in [1, 10, 1999, 2000, 4500] {
            for list in [List::plain(3, calls), List::home(3, calls)] {
                let total: usize = list.scripts().map(|script| script.calls()).sum();
                assert_eq!(total, calls);
            }
        }
    }
}
