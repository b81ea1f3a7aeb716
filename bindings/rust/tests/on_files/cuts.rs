//! Random calls against a BTreeMap, and of the log against a list, with power cuts. A cut is made on paper: the file is
//! read before a call and after it, and of each line of 64 bytes that the call changed some number of words stands,
//! counted from the first, as the stores of a line go in this order. Where all of them stand the call is there, else
//! nothing of it is.
use crate::scratch::{Chance, Scratch};
use orderset::{Item, Key, Kind, Layout, Log, Mode, Order, Record, Set, State};
use std::collections::{BTreeMap, BTreeSet};
use std::{fs, ops::Range};

type Map = BTreeMap<u128, Vec<u8>>;

const FILES: usize = 6;
const CALLS: usize = 50;
const CUTS: usize = 8; // of each call

// ---- cuts

const LINE: usize = 64;
const WORD: usize = 8;

fn line(i: usize) -> Range<usize> {
    i * LINE..(i + 1) * LINE
}

fn changed_lines(before: &[u8], after: &[u8]) -> Vec<usize> {
    assert_eq!(before.len(), after.len());
    (0..before.len() / LINE).filter(|&i| before[line(i)] != after[line(i)]).collect()
}

/// Of each changed line so many words stand.
fn cut(before: &[u8], after: &[u8], lines: &[usize], words: &[usize]) -> Vec<u8> {
    let mut image = before.to_vec();
    for (&i, &count) in lines.iter().zip(words) {
        let stands = i * LINE..i * LINE + count * WORD;
        image[stands.clone()].copy_from_slice(&after[stands]);
    }
    image
}

/// Counts of words for so many lines: often all of them, or all but one.
fn some_counts(chance: &mut Chance, lines: usize) -> Vec<usize> {
    let most = chance.below(4);
    let mut counts: Vec<usize> =
        (0..lines).map(|_| if chance.below(4) < most { 8 } else { chance.below(9) as usize }).collect();
    if most == 3 && !chance.one_in(3) {
        counts.fill(8);
        let struck = chance.below(lines as u64) as usize;
        counts[struck] = chance.below(9) as usize;
    }
    counts
}

// ---- the set

fn map_of(set: &Set) -> Map {
    let mut map = Map::new();
    for record in set.orders().unwrap() {
        let held = map.insert(record.key.number(), record.value.to_vec());
        assert_eq!(held, None, "NOT SO: each key comes once");
    }
    map
}

/// By the iteration, and by each key, held or not.
fn holds(set: &Set, due: &Map, keys: &BTreeSet<u128>, what: &str) {
    assert_eq!(map_of(set), *due, "NOT SO: {what} leaves the plain map");
    for &key in keys {
        let got = set.get(key).unwrap().map(|value| value.to_vec());
        assert_eq!(got.as_ref(), due.get(&key), "NOT SO: get of {key} after {what}");
    }
    assert_eq!(set.statistics().live as usize, due.len(), "NOT SO: the live count after {what}");
}

struct History {
    chance: Chance,
    file: Scratch,
    cut_file: Scratch,
    layout: Layout,
    slots: u64,
    map: Map,
    keys: BTreeSet<u128>,
    done: u64,
    cuts: u64,
    voids: u64,
}

impl History {
    fn most(&self) -> u64 {
        if self.layout == Layout::One {
            80
        } else {
            72
        }
    }

    fn some_key(&mut self) -> u128 {
        let low = u128::from(self.chance.below(self.slots + 2));
        let high = if self.layout == Layout::Two { u128::from(self.chance.below(2)) } else { 0 };
        high << 64 | low
    }

    /// The key of an order, if there is one.
    fn some_order(&mut self) -> u128 {
        let keys: Vec<u128> = self.map.iter().filter(|(_, v)| Order::of(v).is_some()).map(|(&k, _)| k).collect();
        match keys.len() as u64 {
            0 => self.some_key(),
            count => keys[self.chance.below(count) as usize],
        }
    }

    fn some_value(&mut self) -> Vec<u8> {
        let length = if self.chance.one_in(4) { self.most() } else { self.chance.below(self.most() + 1) };
        self.chance.bytes(length)
    }

    /// A change of one key. What the plain map would be, or the number due.
    fn single(&mut self, set: &mut Set) -> (Result<(), u32>, Map) {
        let (key, value) = (self.some_key(), self.some_value());
        let (held, room) = (self.map.contains_key(&key), (self.map.len() as u64) + 1 < self.slots);
        let mut later = self.map.clone();
        let usual = if held { 1 + self.chance.below(2) } else { 0 };
        let (got, due) = match if self.chance.one_in(8) { self.chance.below(3) } else { usual } {
            0 => {
                later.insert(key, value.clone());
                (set.insert(key, &value), if held { 20 } else { 28 * u32::from(!room) })
            }
            1 => {
                later.insert(key, value.clone());
                (set.replace(key, &value), if held { 0 } else { 21 })
            }
            _ => {
                later.remove(&key);
                let got = set.remove(key).map(|was_held| assert_eq!(was_held, held, "NOT SO: remove tells"));
                (got, 0)
            }
        };
        let got = got.map_err(|error| error.number());
        assert_eq!(got.err().unwrap_or(0), due, "NOT SO: the number of a call of {key}");
        (got, later)
    }

    /// A step of the book: what is open is counted by hand.
    fn step(&mut self, set: &mut Set) -> (Result<(), u32>, Map) {
        let what = self.chance.below(4);
        let key = if what == 0 || self.chance.one_in(8) { self.some_key() } else { self.some_order() };
        let quantity = 1 + self.chance.below(3);
        let room = (self.map.len() as u64) + 1 < self.slots;
        let order = self.map.get(&key).and_then(|value| Order::of(value));
        let mut later = self.map.clone();
        let write = |later: &mut Map, o: Order| {
            let words = [o.state as u64, o.ordered, o.filled].map(u64::to_le_bytes);
            later.insert(key, words.concat());
        };
        let (got, due) = match (what, order) {
            (0, _) => {
                write(&mut later, Order { state: State::Sent, ordered: quantity, filled: 0 });
                let due = if self.map.contains_key(&key) { 17 } else { 28 * u32::from(!room) };
                (set.book_new(key, quantity), due)
            }
            (1, Some(o)) => {
                write(&mut later, Order { state: State::Acknowledged, ..o });
                let got = set.book_acknowledge(key);
                (got.map(|first| assert_eq!(first, o.state == State::Sent, "NOT SO: acknowledge tells")), 0)
            }
            (2, Some(o)) if quantity < o.ordered - o.filled => {
                write(&mut later, Order { filled: o.filled + quantity, ..o });
                (set.book_fill(key, quantity), 0)
            }
            (2, Some(o)) => {
                later.remove(&key);
                (set.book_fill(key, quantity), 19 * u32::from(quantity > o.ordered - o.filled))
            }
            (_, Some(_)) => {
                later.remove(&key);
                (set.book_withdraw(key), 0)
            }
            (1, None) => (set.book_acknowledge(key).map(|_| ()), 18),
            (2, None) => (set.book_fill(key, quantity), 18),
            (_, None) => (set.book_withdraw(key), 18),
        };
        let got = got.map_err(|error| error.number());
        assert_eq!(got.err().unwrap_or(0), due, "NOT SO: the number of a step of {key}");
        (got, later)
    }

    fn basket(&mut self, set: &mut Set) -> (Result<(), u32>, Map) {
        let count = 1 + self.chance.below(8);
        let chosen: BTreeSet<u128> = (0..count).map(|_| self.some_key()).collect();
        let values: Vec<Vec<u8>> = chosen.iter().map(|_| self.some_value()).collect();
        let mut later = self.map.clone();
        let mut items = Vec::new();
        for (&key, value) in chosen.iter().zip(&values) {
            let held = self.map.contains_key(&key);
            if held && self.chance.one_in(2) {
                items.push(Item::remove(key));
                later.remove(&key);
                continue;
            }
            items.push(if held { Item::replace(key, value) } else { Item::insert(key, value) });
            later.insert(key, value.clone());
        }
        let got = set.basket(&items).map_err(|error| error.number());
        // also where there is room some spare slots may not be taken
        assert!(matches!(got, Ok(()) | Err(28)), "NOT SO: the number of a basket: {got:?}");
        let fresh = chosen.iter().filter(|key| !self.map.contains_key(key)).count();
        assert!(got.is_err() || self.map.len() + fresh < self.slots as usize, "NOT SO: a basket leaves a spare slot");
        (got, later)
    }

    /// An image that a cut left is opened, and has this map.
    fn check(&mut self, image: &[u8], due: &Map, what: &str) {
        self.cuts += 1;
        fs::write(&self.cut_file.0, image).unwrap();
        let mode = if self.chance.one_in(6) { Mode::Write } else { Mode::Read };
        let set = Set::open(&self.cut_file.0, mode).unwrap();
        holds(&set, due, &self.keys, what);
        let opened = set.statistics().opened;
        self.voids += u64::from(opened);
        if mode == Mode::Read || opened == 0 {
            return;
        }
        drop(set);
        // a cut among the stores of recovery: one word a line
        let recovered = fs::read(&self.cut_file.0).unwrap();
        let lines = changed_lines(image, &recovered);
        assert_eq!(lines.len(), opened as usize, "NOT SO: recovery opens a line for each void slot");
        let words: Vec<usize> = lines.iter().map(|_| self.chance.below(2) as usize).collect();
        fs::write(&self.cut_file.0, cut(image, &recovered, &lines, &words)).unwrap();
        let again = Set::open(&self.cut_file.0, Mode::Read).unwrap();
        holds(&again, due, &self.keys, "a cut among the stores of recovery");
    }

    /// One call and cuts of it; then it is done, or a cut of it is where the history goes on.
    fn call(&mut self, mut set: Set) -> Set {
        let before = fs::read(&self.file.0).unwrap();
        let (got, later) = match self.chance.below(4) {
            0 => self.basket(&mut set),
            1 => self.step(&mut set),
            _ => self.single(&mut set),
        };
        let after = fs::read(&self.file.0).unwrap();
        let lines = changed_lines(&before, &after);
        if got.is_err() || lines.is_empty() {
            assert!(lines.is_empty(), "NOT SO: a refused call changes nothing");
            assert!(got.is_err() || later == self.map, "NOT SO: a call that changes the map stores");
            return set;
        }
        self.done += 1;
        assert!(lines.len() % 2 == 0 && lines.len() <= 16, "NOT SO: two lines a key: {}", lines.len());
        self.keys.extend(self.map.keys().chain(later.keys()));
        let earlier = std::mem::replace(&mut self.map, later.clone());
        let mut struck = None;
        for counts in self.counts(lines.len()) {
            let all = counts.iter().all(|&count| count == 8);
            let image = cut(&before, &after, &lines, &counts);
            let due = if all { &later } else { &earlier };
            self.check(&image, due, if all { "a call" } else { "a cut" });
            struck = Some((image, due));
        }
        match struck {
            Some((image, due)) if self.chance.one_in(5) => {
                drop(set);
                fs::write(&self.file.0, image).unwrap();
                self.map = due.clone();
                set = Set::open(&self.file.0, Mode::Write).unwrap();
            }
            _ => {}
        }
        holds(&set, &self.map, &self.keys, "a call");
        set
    }

    /// Now and then all 81 pairs of a call of one key.
    fn counts(&mut self, lines: usize) -> Vec<Vec<usize>> {
        if lines == 2 && self.chance.one_in(20) {
            return (0..81).map(|i| vec![i / 9, i % 9]).collect();
        }
        (0..CUTS).map(|_| some_counts(&mut self.chance, lines)).collect()
    }
}

fn histories(layout: Layout, name: &str) {
    let chance = Chance::new(name);
    let [file, cut_file] = ["file", "cut"].map(|which| Scratch::new(&format!("{name}.{which}")));
    let (map, keys) = (Map::new(), BTreeSet::new());
    let mut h = History { chance, file, cut_file, layout, slots: 0, map, keys, done: 0, cuts: 0, voids: 0 };
    for _ in 0..FILES {
        let _ = fs::remove_file(&h.file.0);
        let most = if h.chance.one_in(2) { 6 } else { 30 };
        h.slots = 3 + h.chance.below(most);
        h.map.clear();
        h.keys.clear();
        Set::create(&h.file.0, h.slots as u32, layout).unwrap();
        let mut set = Set::open(&h.file.0, Mode::Write).unwrap();
        for _ in 0..CALLS {
            set = h.call(set);
        }
    }
    println!("{name}: {} calls, {} cuts, {} void slots: as the plain map", h.done, h.cuts, h.voids);
    assert!(h.voids > 0, "NOT SO: cuts of baskets leave void slots");
}

#[test]
fn cuts_in_layout_1() {
    histories(Layout::One, "cuts_in_layout_1");
}

#[test]
fn cuts_in_layout_2() {
    histories(Layout::Two, "cuts_in_layout_2");
}

// ---- the log

/// The last messages that K cells show.
fn shown(all: &[Vec<u8>], cells: usize) -> Vec<(u64, Vec<u8>)> {
    let first = (all.len() + 1).saturating_sub(cells);
    (first..all.len()).map(|i| (i as u64 + 1, all[i].clone())).collect()
}

fn messages_of(log: &Log) -> Vec<(u64, Vec<u8>)> {
    log.messages().unwrap().map(|(number, message)| (number, message.to_vec())).collect()
}

#[test]
fn cuts_of_the_log() {
    let mut chance = Chance::new("cuts_of_the_log");
    let [file, cut_file] = ["file", "cut"].map(|which| Scratch::new(&format!("cuts_of_the_log.{which}")));
    let mut cuts = 0;
    for _ in 0..4 {
        let cells = 2 + chance.below(4) as usize;
        let mut all: Vec<Vec<u8>> = Vec::new();
        let _ = fs::remove_file(&file.0);
        Log::create(&file.0, cells as u32).unwrap();
        let mut log = Log::open(&file.0, Mode::Write).unwrap();
        for _ in 0..25 {
            let before = fs::read(&file.0).unwrap();
            let length = 1 + chance.below(384);
            let message = chance.bytes(length);
            assert_eq!(log.append(&message).unwrap(), all.len() as u64 + 1, "NOT SO: append gives the next number");
            let after = fs::read(&file.0).unwrap();
            let lines = changed_lines(&before, &after);
            let mut later = all.clone();
            later.push(message);
            let mut struck = None;
            for _ in 0..CUTS {
                let image = cut(&before, &after, &lines, &some_counts(&mut chance, lines.len()));
                let due = if image == after { &later } else { &all };
                fs::write(&cut_file.0, &image).unwrap();
                let mode = if chance.one_in(6) { Mode::Write } else { Mode::Read };
                let cut_log = Log::open(&cut_file.0, mode).unwrap();
                assert_eq!(messages_of(&cut_log), shown(due, cells), "NOT SO: a cut leaves the plain list");
                cuts += 1;
                struck = Some((image, due.clone()));
            }
            match struck {
                Some((image, due)) if chance.one_in(4) => {
                    drop(log);
                    fs::write(&file.0, image).unwrap();
                    all = due;
                    log = Log::open(&file.0, Mode::Write).unwrap();
                }
                _ => all = later,
            }
            assert_eq!(messages_of(&log), shown(&all, cells), "NOT SO: the log has the plain list");
        }
    }
    println!("cuts_of_the_log: {cuts} cuts: as the plain list");
}

/// The types as they are used: a record's fields, a key from both widths, an error's kind.
#[test]
fn a_record_has_its_order() {
    let file = Scratch::new("a_record_has_its_order");
    Set::create(&file.0, 10, Layout::Two).unwrap();
    let mut set = Set::open(&file.0, Mode::Write).unwrap();
    let wide = 1u128 << 64 | 7;
    set.book_new(7u64, 5).unwrap();
    set.book_new(wide, 9).unwrap();
    set.book_fill(wide, 2).unwrap();
    let records: Vec<Record> = set.orders().unwrap().collect();
    let open: BTreeMap<Key, u64> = records.iter().map(|r| (r.key, r.order().unwrap().open())).collect();
    assert_eq!(open, BTreeMap::from([(Key::from(7u64), 5), (Key::from(wide), 7)]), "NOT SO: what is open");
    let place = set.locate(wide).unwrap().unwrap();
    assert!(matches!(set.compared(), 1 | 2), "NOT SO: of two keys one or two slots are compared: {}", set.compared());
    let record = set.slot(place.slot).unwrap();
    assert_eq!((record.key, record.version), (Key::from(wide), place.version), "NOT SO: the slot is the key's");
    assert!(records.contains(&record), "NOT SO: the slot is as the iteration gives it");
    assert_eq!(set.book_fill(wide, 8).unwrap_err().kind(), Kind::BadQuantity, "NOT SO: no more than is open");
}
