//! The player of call scripts: it makes the calls, does what a host does between
//! them, and prints the lines.

use std::io::{self, Read, Write};
use std::ops::Range;

use crate::fault::Fault;
use crate::layout::address;
use crate::limits::*;
use crate::moves::move_from_bytes;
use crate::script::*;
use crate::search::Command;
use crate::service::{MessageCall, Returned, Service};
use crate::state::{State, Upload};
use crate::store::Shelf;

/// The reply array is filled with this before each message and timer call.
const REPLY_FILL: u8 = 0xA5;

/// Plays a whole script and prints its lines.
pub fn play(input: &mut impl Read, output: &mut impl Write, fault: Fault) -> io::Result<()> {
    let mut player = Player::new(fault);
    let mut lines = Vec::new();
    loop {
        let next = read_record(input)?;
        let last = !matches!(next, Next::Record(_));
        player.step(&next, &mut lines);
        output.write_all(&lines)?;
        lines.clear();
        if last {
            return output.flush();
        }
    }
}

/// The service with the arrays that its calls are lent.
pub struct Player {
    pub service: Service,
    pub stores: Stores,
    pub reply: [u8; REPLY_ARRAY],
    /// What the last message or timer call returned.
    pub returned: Returned,
    /// What SNAP took aside.
    copies: Stores,
}

/// The store, and the old one of bytes, from which plans are moved.
pub struct Stores {
    pub words: Vec<u32>,
    pub old: Vec<u8>,
}

impl Stores {
    fn zeros() -> Stores {
        Stores { words: vec![0; STORE_ARRAY], old: vec![0; OLD_ARRAY] }
    }

    fn fill(&mut self, byte: u8) {
        self.words.fill(u32::from_le_bytes([byte; WORD_BYTES]));
        self.old.fill(byte);
    }
}

impl Player {
    /// A fresh start over zeros.
    pub fn new(fault: Fault) -> Player {
        Player {
            service: Service::fresh(false, fault),
            stores: Stores::zeros(),
            reply: [0; REPLY_ARRAY],
            returned: Returned::default(),
            copies: Stores::zeros(),
        }
    }

    pub fn state(&self) -> &State {
        &self.service.state
    }

    /// Plays what stands next and adds its lines to `out`.
    pub fn step(&mut self, next: &Next, out: &mut Vec<u8>) {
        match next {
            Next::Record(record) => self.record(record, out),
            Next::End => {}
            Next::Cut => out.extend(b"? cut\n"),
            Next::Bad(kind) => print(out, format_args!("? {kind}\n")),
        }
    }

    /// Plays a record that fits and adds its lines to `out`.
    pub fn record(&mut self, record: &Record, out: &mut Vec<u8>) {
        match record.kind {
            record::MESSAGE => self.message(record, out),
            record::TIMER => self.timer(record, out),
            record::DONE => self.done(record, out),
            record::DUMP => self.dump(record.b[4] & WITHOUT_HALF == 0, out),
            record::FRESH => {
                let home = record.b[4] & HOME != 0;
                self.service = Service::fresh(home, self.service.fault);
                self.stores.fill(record.b[0]);
            }
            record::SNAP => self.snap(record.b[4]),
            record::CMP => {
                print(out, format_args!("s {}\n", u8::from(self.is_as_copied(record.b[4]))))
            }
            record::POKE => poke(&mut self.service.state, record.b[4], record.b[0], record.a),
            record::WRITE => self.write(record),
            record::MOVE => self.move_plans(record, out),
            _ => {}
        }
    }

    fn snap(&mut self, taken: u8) {
        match taken {
            array::OLD => self.copies.old.copy_from_slice(&self.stores.old),
            _ => self.copies.words.copy_from_slice(&self.stores.words),
        }
    }

    fn is_as_copied(&self, compared: u8) -> bool {
        match compared {
            array::OLD => self.copies.old == self.stores.old,
            _ => self.copies.words == self.stores.words,
        }
    }

    /// A host writes into the store or the old one.
    fn write(&mut self, record: &Record) {
        let Record { b: [.., written], a, payload, .. } = record;
        if *written == target::OLD {
            self.stores.old[*a as usize..][..payload.len()].copy_from_slice(payload);
            return;
        }
        let words = self.written_words(record);
        for (word, bytes) in self.stores.words[words].iter_mut().zip(payload.as_chunks().0) {
            *word = u32::from_le_bytes(*bytes);
        }
    }

    /// The words of the store that a WRITE is about; none if it is about the old store.
    pub fn written_words(&self, record: &Record) -> Range<usize> {
        let Record { b: [kind, .., written], a, payload, .. } = record;
        let kind = usize::from(*kind);
        let first = match *written {
            target::OLD => return 0..0,
            target::PLAN => self.state().plan_shelf(kind).offset(*a as u16),
            target::OTHER_HALF => self.state().upload_shelf(kind).offset(*a as u16),
            _ => *a as usize,
        };
        first..first + payload.len() / WORD_BYTES
    }

    fn move_plans(&mut self, record: &Record, out: &mut Vec<u8>) {
        let old = &self.stores.old[..record.a as usize];
        let store = &mut self.stores.words[..record.store as usize];
        let outcome = move_from_bytes(&mut self.service.state, old, store, self.service.fault);
        print(out, format_args!("v {outcome}\n"));
    }

    fn message(&mut self, record: &Record, out: &mut Vec<u8>) {
        let [own_system, own_component, sender_system, sender_component, _] = record.b;
        let call = MessageCall {
            own: address(own_system, own_component),
            sender: address(sender_system, sender_component),
            id: record.a,
            payload: &record.payload,
            clock: record.clock,
        };
        self.reply.fill(REPLY_FILL);
        let store = &mut self.stores.words[..record.store as usize];
        let reply = &mut self.reply[..record.reply as usize];
        self.returned = self.service.message(&call, store, reply);
        self.print_returned('m', out);
    }

    fn timer(&mut self, record: &Record, out: &mut Vec<u8>) {
        self.reply.fill(REPLY_FILL);
        let store = &self.stores.words[..record.store as usize];
        let reply = &mut self.reply[..record.reply as usize];
        self.returned = self.service.timer(record.b[4], record.clock, store, reply);
        self.print_returned('t', out);
    }

    fn print_returned(&self, letter: char, out: &mut Vec<u8>) {
        let Returned { outcome, id, len } = self.returned;
        print(out, format_args!("{letter} {outcome} {id} {len} "));
        if len == 0 {
            out.push(b'-');
        }
        print_hex(&self.reply[..len], out);
        if self.reply[len..].iter().any(|byte| *byte != REPLY_FILL) {
            out.extend(b" B");
        }
        out.push(b'\n');
    }

    fn done(&mut self, record: &Record, out: &mut Vec<u8>) {
        let store = &self.stores.words[..record.store as usize];
        let (outcome, command) = self.service.done(store);
        print(out, format_args!("d {outcome} "));
        match command {
            Command::Fly(n) => print(out, format_args!("fly {n}")),
            Command::Wait(n, amount) => print(out, format_args!("wait {n} {amount:08X}")),
            Command::Near(n, amount) => print(out, format_args!("near {n} {amount:08X}")),
            Command::Turn(n, amount) => print(out, format_args!("turn {n} {amount:08X}")),
            Command::Speed(n, amount) => print(out, format_args!("speed {n} {amount:08X}")),
            Command::Servo(n, first, second) => {
                print(out, format_args!("servo {n} {first} {second}"))
            }
            Command::Finished => out.extend(b"finished"),
            Command::Stuck => out.extend(b"stuck"),
        }
        out.push(b'\n');
    }

    /// State and plans, with or without the halves that the plans are in.
    fn dump(&self, with_half: bool, out: &mut Vec<u8>) {
        if !self.state().in_range(self.service.fault) {
            out.extend(b"D 15\n");
            return;
        }
        out.extend(b"D 0\n");
        for kind in 0..KINDS {
            self.dump_kind(kind, with_half, out);
        }
        let State { home, current, begun, jump_counts, .. } = self.state();
        print(out, format_args!("c {current} {}", u8::from(*begun)));
        for count in jump_counts {
            print(out, format_args!(" {count}"));
        }
        out.push(b'\n');
        if *home {
            out.extend(b"h 1\n");
        }
    }

    fn dump_kind(&self, kind: usize, with_half: bool, out: &mut Vec<u8>) {
        let plan = &self.state().plans[kind];
        let shown = plan.shown_number();
        let (length, number, half) = (plan.length, plan.number, plan.half);
        print(out, format_args!("k {kind} {length} {number} {shown} "));
        match with_half {
            true => print(out, format_args!("{half}\n")),
            false => out.extend(b"-\n"),
        }
        match plan.upload {
            None => print(out, format_args!("u {kind} -\n")),
            Some(upload) => dump_upload(kind, &upload, out),
        }
        self.dump_items('i', self.service.plan_shelf(kind), 0..length, out);
        let taken = plan.upload.map_or(0..0, |upload| upload.first..upload.next);
        self.dump_items('w', self.service.upload_shelf(kind), taken, out);
    }

    /// Items as their 38 bytes.
    fn dump_items(&self, letter: char, shelf: Shelf, items: Range<u16>, out: &mut Vec<u8>) {
        for index in items {
            print(out, format_args!("{letter} {} {index} ", shelf.kind));
            print_hex(&shelf.item(&self.stores.words, index).to_bytes(), out);
            out.push(b'\n');
        }
    }
}

fn dump_upload(kind: usize, upload: &Upload, out: &mut Vec<u8>) {
    let Upload { station, count, next, start, repeats, partial, first, last } = upload;
    let (system, component) = (station.system, station.component);
    print(out, format_args!("u {kind} {system} {component} {count} {next} {start} {repeats}"));
    if *partial {
        print(out, format_args!(" P {first} {last}"));
    }
    out.push(b'\n');
}

/// Sets a number of the state; the field and index are known to fit.
fn poke(state: &mut State, poked: u8, index: u8, value: u32) {
    let index = usize::from(index);
    match poked {
        field::LENGTH => state.plans[index].length = value as u16,
        field::NUMBER => state.plans[index].number = value,
        field::HALF => state.plans[index].half = (value & 1) as u8,
        field::RUNNING => {
            let upload = &mut state.plans[index].upload;
            *upload = (value != 0).then(|| upload.unwrap_or_default());
        }
        field::SYSTEM..=field::REPEATS | field::PARTIAL..=field::LAST => {
            if let Some(upload) = &mut state.plans[index].upload {
                poke_upload(upload, poked, value);
            }
        }
        field::CURRENT => state.current = value as u16,
        field::BEGUN => state.begun = value != 0,
        field::JUMP_COUNT => state.jump_counts[index] = value as u16,
        _ => {}
    }
}

fn poke_upload(upload: &mut Upload, poked: u8, value: u32) {
    match poked {
        field::SYSTEM => upload.station.system = value as u8,
        field::COMPONENT => upload.station.component = value as u8,
        field::COUNT => upload.count = value as u16,
        field::NEXT => upload.next = value as u16,
        field::START => upload.start = value,
        field::REPEATS => upload.repeats = value as u8,
        field::PARTIAL => upload.partial = value != 0,
        field::FIRST => upload.first = value as u16,
        field::LAST => upload.last = value as u16,
        _ => {}
    }
}

fn print(out: &mut Vec<u8>, text: std::fmt::Arguments) {
    out.write_fmt(text).expect("writing to memory");
}

fn print_hex(bytes: &[u8], out: &mut Vec<u8>) {
    const DIGITS: &[u8; 16] = b"0123456789ABCDEF";
    for byte in bytes {
        out.push(DIGITS[usize::from(byte >> 4)]);
        out.push(DIGITS[usize::from(byte & 15)]);
    }
}

#[cfg(test)]
mod tests {
    use super::*;
    use crate::layout::Item;
    use crate::store::words_of;

    fn played(script: &[u8]) -> String {
        let mut out = Vec::new();
        play(&mut &script[..], &mut out, Fault::None).unwrap();
        String::from_utf8(out).unwrap()
    }

    #[test]
    fn ends() {
        let dump = Record::of(record::DUMP);
        let full = played(&script_bytes([&dump]));
        assert!(full.starts_with("D 0\nk 0 0 0 0 0\nu 0 -\n"));
        assert!(full.ends_with("c 0 0 0 0 0 0 0 0 0 0 0 0 0 0 0 0 0\n"));
        assert_eq!(played(&[]), "");
        assert_eq!(played(&script_bytes(&[Record::of(record::END), dump.clone()])), "");
        assert_eq!(played(&script_bytes([&dump])[..23]), "? cut\n");
        let write = Record::host_write(target::WORDS, 0, 0, vec![1; 4]);
        assert_eq!(played(&script_bytes([&write])[..26]), "? cut\n");
        assert_eq!(played(&script_bytes(&[Record::of(10), dump])), "? 10\n");
    }

    #[test]
    fn snap_compare_write() {
        let word = |value: u8| Record::host_write(target::WORDS, 0, 5_663, vec![7, 7, 7, value]);
        let byte = |value| Record::host_write(target::OLD, 0, 26_879, vec![value]);
        let both = |kind| [array::STORE, array::OLD].map(|array| Record::about(kind, array));
        let (snap, [words, old]) = (both(record::SNAP), both(record::CMP));
        let mut script = vec![words.clone(), old.clone(), Record::fresh(7, false)];
        script.extend([words.clone(), old.clone()]);
        script.extend(snap);
        for change in [word(7), byte(7), word(8), byte(8)] {
            script.extend([change, words.clone(), old.clone()]);
        }
        let unchanged = "s 1\ns 1\n";
        let lines = played(&script_bytes(&script));
        let shown = format!("{unchanged}s 0\ns 0\n{unchanged}{unchanged}s 0\ns 1\ns 0\ns 0\n");
        assert_eq!(lines, shown);
    }

    #[test]
    fn a_host_writes_items() {
        let item = Item { command: 5100, frame: 0x12, autocontinue: 0xFE, ..Item::default() };
        let payload = word_bytes(&words_of(&item));
        let mut script = vec![Record::fresh(0, false)];
        script.extend([Record::poke(field::LENGTH, 2, 2), Record::poke(field::HALF, 2, 1)]);
        script.extend([
            Record::host_write(target::PLAN, 2, 0, payload.clone()),
            Record::host_write(target::OTHER_HALF, 2, 1, payload.clone()),
            Record::host_write(target::WORDS, 0, (352 + 321) * 8, payload),
            Record::of(record::DUMP),
            Record::poke(field::HALF, 2, 0),
            Record::of(record::DUMP),
        ]);
        let lines = played(&script_bytes(&script));
        let items: Vec<&str> = lines.lines().filter(|line| line.starts_with("i 2")).collect();
        let zeros = "00".repeat(28);
        let expected = [
            format!("i 2 0 {zeros}0000EC1300001200FE02"),
            format!("i 2 1 {zeros}0100EC1300001200FE02"),
            format!("i 2 0 {zeros}00000000000000000002"),
            format!("i 2 1 {zeros}0100EC1300001200FE02"),
        ];
        assert_eq!(items, expected);
    }

    #[test]
    fn uploads_and_halves_in_a_dump() {
        let station = address(3, 4);
        let whole = Upload { next: 1, repeats: 5, ..Upload::whole(station, 2, 7) };
        let partial = Upload { next: 2, ..Upload::partial(station, 3, (1, 2), 8) };
        let mut script = vec![Record::fresh(0x11, false), Record::poke(field::LENGTH, 1, 3)];
        script.extend(Record::upload_pokes(0, Some(whole)));
        script.extend(Record::upload_pokes(1, Some(partial)));
        script.push(Record::of(record::DUMP));
        script.push(Record::about(record::DUMP, WITHOUT_HALF));
        script.extend(Record::upload_pokes(1, Some(Upload { first: 3, ..partial })));
        script.push(Record::of(record::DUMP));
        let lines = played(&script_bytes(&script));
        let of = |letter: char| lines.lines().filter(move |line| line.starts_with(letter));
        let halves = ["0", "-"].map(|half| {
            ["k 0 0 0 0 ", "k 1 3 0 0 ", "k 2 0 0 0 "].map(|plan| format!("{plan}{half}"))
        });
        assert!(of('k').eq(halves.as_flattened()));
        let uploads = ["u 0 3 4 2 1 7 5", "u 1 3 4 3 2 8 0 P 1 2", "u 2 -"];
        assert!(of('u').eq([uploads; 2].as_flattened().iter().copied()));
        let fill = "11".repeat(28);
        let taken = [("w 0 0", "0000", "00"), ("w 1 1", "0100", "01")];
        let taken =
            taken.map(|(item, seq, kind)| format!("{item} {fill}{seq}11110000110011{kind}"));
        assert!(of('w').eq([taken.clone(), taken].as_flattened()));
        assert!(of('D').eq(["D 0", "D 0", "D 15"]));
    }

    #[test]
    fn a_move() {
        let mut moved = Record::moving(26_752, 5_632);
        let old = Record::host_write(target::OLD, 0, 38, (1..=38).collect());
        let script = [
            Record::fresh(0xEE, false),
            old,
            Record::poke(field::LENGTH, 0, 2),
            Record::poke(field::RUNNING, 0, 1),
            moved.clone(),
            Record::poke(field::COUNT, 0, 1),
            moved.clone(),
            Record::of(record::DUMP),
        ];
        let lines = played(&script_bytes(&script));
        assert!(lines.starts_with("v 15\nv 1\n"), "{lines}");
        let fill = "EE".repeat(28);
        assert!(lines.contains(&format!("i 0 0 {fill}0000EEEE0000EE00EE00\n")), "{lines}");
        let words: String = (1..=28).map(|byte| format!("{byte:02X}")).collect();
        assert!(lines.contains(&format!("i 0 1 {words}01001F20000023002500\n")), "{lines}");
        assert!(lines.contains("u 0 -\n"));
        moved.store = 5_631;
        assert_eq!(played(&script_bytes([&moved])), "v 14\n");
        (moved.store, moved.a) = (5_632, 26_751);
        assert_eq!(played(&script_bytes([&moved])), "v 14\n");
        moved.a = 26_881;
        assert_eq!(played(&script_bytes([&moved])), "? 18\n");
    }
}
