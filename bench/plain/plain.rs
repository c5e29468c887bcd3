//! `witness replay` as one would write it in Rust without a thought of proofs, for most of the traces
//! of bench/make_trace.sh, in both versions: mutexes that are made, taken, tried and released, and
//! orders that are defined. bench/plain.sh measures the two beside one another, and compares what
//! they write. Chunks aren't counted, and other classes of locks and other lines aren't known.
use std::collections::HashMap;
use std::fmt::Write as _;
use std::io::{self, BufRead, BufReader};
use std::process::ExitCode;

const MOST_ENTRIES: usize = 16_777_216;
const MOST_FILES: usize = 65_535;
const MOST_BYTES: usize = 4_096;

// What a lock allows, and what a request does.
const RECURSABLE: u8 = 0x01;
const NEWORDER: u8 = 0x01;
const DUPOK: u8 = 0x02;
const FRESH: u8 = 0x04;

/// What is wrong with a line, as it is told.
type Bad = &'static str;

type Done = Result<(), Bad>;

const OUT_OF_TURN: Bad = "F36 StepOrder";

#[derive(Clone, Copy, Default)]
struct Site { file: u16, line: u32 }
#[derive(Clone, Copy, Default)]
struct LockAt { lock: u32, site: Site }
#[derive(Clone, Copy, Default)]
struct Request { at: LockAt, ops: u8 }
#[derive(Clone, Copy)]
struct Conflict { held: LockAt, older: Option<LockAt>, asked: LockAt }

// The log is kept, and this program tells nothing of it. What a lock was made as, and what a report
// is about, stands in lists of their own, so that an entry takes 32 bytes and is let go at once.
#[allow(dead_code)]
enum Call {
    Init(u32), Check(Request), Note(u32), NoteTry(LockAt), GiveUp(u32), Unlock(u32),
    DefineOrder(u32, u32),
}

#[allow(dead_code)]
enum Reply {
    Done, Pass, Adopted(u16, u16), Silent(u16, u16), Reversal(u32), Duplicate(u32), Recorded,
    Unlocked, Known,
}

#[allow(dead_code)]
struct Entry { seat: u16, call: Call, reply: Reply }

const _: () = assert!(std::mem::size_of::<Entry>() == 32);

/// For each type a row of bits, one for each type; number 0 has a row and a bit too.
#[derive(Default)]
struct Square { width: usize, words: Vec<u64> }

impl Square {
    fn new(types: usize) -> Square {
        let width = types / 64 + 1;
        Square { width, words: vec![0; (types + 1) * width] }
    }

    fn row(&self, a: u16) -> &[u64] {
        &self.words[a as usize * self.width..][..self.width]
    }

    fn has(&self, a: u16, b: u16) -> bool {
        self.row(a)[b as usize / 64] >> (b % 64) & 1 == 1
    }

    fn add(&mut self, a: u16, b: u16) {
        self.words[a as usize * self.width + b as usize / 64] |= 1 << (b % 64);
    }

    /// The least number of a row for which this holds.
    fn find(&self, a: u16, holds: impl Fn(u16) -> bool) -> Option<u16> {
        for (place, &word) in self.row(a).iter().enumerate() {
            let mut rest = word;
            while rest != 0 {
                let number = (place * 64) as u16 + rest.trailing_zeros() as u16;
                if holds(number) {
                    return Some(number);
                }
                rest &= rest - 1;
            }
        }
        None
    }
}

#[derive(Default)]
struct Orders {
    types: u16,
    direct: Square,
    before: Square,
    found: Square,
    /// Where each order was learnt; nowhere where it was defined.
    origins: HashMap<(u16, u16), Option<Site>>,
}

impl Orders {
    fn adopt(&mut self, parent: u16, child: u16, origin: Option<Site>) {
        self.origins.insert((parent, child), origin);
        self.direct.add(parent, child);
        if self.before.has(parent, child) {
            return;
        }
        let mut more = self.before.row(child).to_vec();
        more[child as usize / 64] |= 1 << (child % 64);
        for a in 1..=self.types {
            if a == parent || self.before.has(a, parent) {
                let row = &mut self.before.words[a as usize * self.before.width..];
                row.iter_mut().zip(&more).for_each(|(word, more)| *word |= more);
            }
        }
    }

    /// The least type that a path from one type to a later one can go to.
    fn next(&self, from: u16, to: u16) -> u16 {
        let leads = |next| next == to || self.before.has(next, to);
        self.direct.find(from, leads).expect("one leads there, by the matrix")
    }
}

#[derive(Clone, Copy)]
struct Held { at: LockAt, type_no: u16, count: u16 }

/// What may come next of a seat. In version 1 it is idle, or may note the lock that it asked for.
#[derive(Clone, Copy, Default, PartialEq)]
enum Stage {
    /// Whatever begins something.
    #[default]
    Idle,
    /// That, too.
    MayFree,
    MustFree,
    /// Or it gives up, as the next.
    MayTake,
    MayNote,
    MustNote,
    MustTry,
}

/// The locks that a seat holds, oldest first, what may come next, and of which lock: what it asks
/// for where it does.
#[derive(Default)]
struct Seat { chain: Vec<Held>, stage: Stage, about: Request }

impl Seat {
    fn is_idle(&self) -> bool {
        matches!(self.stage, Stage::Idle | Stage::MayFree)
    }

    fn is_at(&self, stages: &[Stage], lock: u32) -> bool {
        stages.contains(&self.stage) && self.about.at.lock == lock
    }
}

/// The owner is the seat that has the lock itself, or 0; in version 1 nobody is told to have it.
struct Lock { name: String, type_no: u16, flags: u8, owner: u16 }

#[derive(Default)]
struct Verifier {
    /// Whether the lines tell what is done to the locks themselves: version 2.
    has_steps: bool,
    most_locks: usize,
    types: Vec<String>,
    type_numbers: HashMap<String, u16>,
    files: Vec<String>,
    file_numbers: HashMap<Vec<u8>, u16>,
    /// The number of the file that was named last.
    last_file: u16,
    locks: Vec<Lock>,
    orders: Orders,
    seats: Vec<Seat>,
    conflicts: Vec<Conflict>,
    log: Vec<Entry>,
    owed: usize,
}

impl Verifier {
    fn new(has_steps: bool, [seats, types, locks, _]: [u32; 4]) -> Verifier {
        let square = || Square::new(types as usize);
        let (types, direct, before, found) = (types as u16, square(), square(), square());
        Verifier {
            has_steps,
            most_locks: locks as usize,
            orders: Orders { types, direct, before, found, ..Orders::default() },
            seats: (0..seats).map(|_| Seat::default()).collect(),
            ..Verifier::default()
        }
    }

    /// A name that isn't known yet may still be none. Most lines name the file of the line before.
    fn file(&mut self, name: &[u8]) -> Result<u16, Bad> {
        let last = self.files.get((self.last_file as usize).wrapping_sub(1));
        if last.is_some_and(|last| last.as_bytes() == name) {
            return Ok(self.last_file);
        }
        let is_name = || (1..=255).contains(&name.len()) && is_text(name, 0x21);
        self.last_file = match self.file_numbers.get(name) {
            Some(&number) => number,
            None if !is_name() => return Err("syntax"),
            None if self.files.len() == MOST_FILES => return Err("F32 FilesFull"),
            None => {
                self.files.push(String::from_utf8_lossy(name).into_owned());
                self.file_numbers.insert(name.to_vec(), self.files.len() as u16);
                self.files.len() as u16
            }
        };
        Ok(self.last_file)
    }

    fn seat(&self, seat: u16) -> Result<&Seat, Bad> {
        self.seats.get((seat as usize).wrapping_sub(1)).ok_or("F1 UnknownSeat")
    }

    fn lock(&self, lock: u32) -> Result<&Lock, Bad> {
        self.locks.get((lock as usize).wrapping_sub(1)).ok_or("F2 UnknownLock")
    }

    fn need_idle(&self, seat: &Seat) -> Done {
        if seat.is_idle() { Ok(()) } else { Err(self.out_of_turn("F24 Pending")) }
    }

    /// What is wrong with a line that may not come next; this in version 1.
    fn out_of_turn(&self, bad: Bad) -> Bad {
        if self.has_steps { OUT_OF_TURN } else { bad }
    }

    fn type_of(&self, lock: u32) -> u16 {
        self.locks[lock as usize - 1].type_no
    }

    fn type_name(&self, type_no: u16) -> &str {
        &self.types[type_no as usize - 1]
    }

    fn need_room(&self, entries: usize) -> Done {
        let is_full = self.log.len() + self.owed + entries > MOST_ENTRIES;
        if is_full { Err("F26 LogFull") } else { Ok(()) }
    }

    fn init(&mut self, seat: u16, flags: u8, name: String, type_name: Option<String>) -> Done {
        self.need_idle(self.seat(seat)?)?;
        let type_name = type_name.unwrap_or(name.clone());
        let known = self.type_numbers.get(&type_name).copied();
        match known {
            None if self.types.len() == self.orders.types as usize => return Err("F4 TypesFull"),
            _ if self.locks.len() == self.most_locks => return Err("F5 LocksFull"),
            _ => self.need_room(1)?,
        }
        let type_no = known.unwrap_or(self.types.len() as u16 + 1);
        if known.is_none() {
            self.type_numbers.insert(type_name.clone(), type_no);
            self.types.push(type_name);
        }
        self.locks.push(Lock { name, type_no, flags, owner: 0 });
        self.seats[seat as usize - 1].stage = Stage::Idle;
        let call = Call::Init(self.locks.len() as u32);
        self.log.push(Entry { seat, call, reply: Reply::Done });
        Ok(())
    }

    /// The chain of an idle seat, and a lock.
    fn before_naming(&self, seat: u16, lock: u32) -> Result<(&[Held], &Lock), Bad> {
        let from = self.seat(seat)?;
        let lock = self.lock(lock)?;
        self.need_idle(from)?;
        Ok((&from.chain, lock))
    }

    /// Adds the text of the report, if any.
    fn check(&mut self, seat: u16, request: Request, text: &mut String) -> Done {
        let (chain, lock) = self.before_naming(seat, request.at.lock)?;
        let held = place_of(chain, request.at.lock).map(|place| &chain[place]);
        let is_alone = chain.is_empty();
        match held {
            Some(held) if held.count == u16::MAX => return Err("F10 RecursionTooDeep"),
            Some(_) if request.ops & FRESH != 0 => return Err("F9 Recursed"),
            Some(_) if lock.flags & RECURSABLE == 0 => return Err("F9 Recursed"),
            _ => self.need_room(3)?,
        }
        let is_behind = held.is_none() && !is_alone;
        let must_take = self.has_steps && held.is_none();
        let stage = if must_take { Stage::MayTake } else { Stage::MayNote };
        let reply = if is_behind { self.judge(seat, &request, text) } else { Reply::Pass };
        let from = &mut self.seats[seat as usize - 1];
        from.stage = stage;
        from.about = request;
        self.owed += 2;
        self.log.push(Entry { seat, call: Call::Check(request), reply });
        Ok(())
    }

    /// A lock is asked for that isn't held, behind others.
    fn judge(&mut self, seat: u16, request: &Request, text: &mut String) -> Reply {
        let chain = &self.seats[seat as usize - 1].chain;
        let Lock { type_no: asked, flags, .. } = self.locks[request.at.lock as usize - 1];
        let last = chain[chain.len() - 1];
        if last.type_no == asked {
            if (flags | request.ops) & DUPOK != 0 {
                return Reply::Pass;
            }
            if self.orders.found.has(asked, asked) {
                return Reply::Silent(asked, asked);
            }
            let conflict = Conflict { held: last.at, older: None, asked: request.at };
            let name = self.type_name(asked);
            let _ = writeln!(text, "acquiring duplicate lock of same type: \"{name}\"");
            self.put_lock(text, "1st", last.at);
            self.put_lock(text, "2nd", request.at);
            return Reply::Duplicate(self.report(conflict));
        }
        if self.orders.direct.has(last.type_no, asked) {
            return Reply::Pass;
        }
        let is_broken = |held: &Held| self.orders.before.has(asked, held.type_no);
        if let Some(place) = chain.iter().rposition(is_broken) {
            let held = chain[place];
            if self.orders.found.has(held.type_no, asked) {
                return Reply::Silent(held.type_no, asked);
            }
            let older = chain[..place].iter().rev().find(|older| older.type_no == asked);
            let older = older.map(|older| older.at);
            let conflict = Conflict { held: held.at, older, asked: request.at };
            self.put_reversal(text, &conflict);
            return Reply::Reversal(self.report(conflict));
        }
        if request.ops & NEWORDER == 0 {
            return Reply::Pass;
        }
        self.orders.adopt(last.type_no, asked, Some(request.at.site));
        Reply::Adopted(last.type_no, asked)
    }

    fn report(&mut self, conflict: Conflict) -> u32 {
        let (held, asked) = (self.type_of(conflict.held.lock), self.type_of(conflict.asked.lock));
        self.orders.found.add(held, asked);
        self.orders.found.add(asked, held);
        self.conflicts.push(conflict);
        self.conflicts.len() as u32
    }

    /// The request of a seat for this lock, which isn't pending any more.
    fn answer(&mut self, seat: u16, lock: u32, stages: &[Stage]) -> Result<Request, Bad> {
        let from = self.seat(seat)?;
        self.lock(lock)?;
        if !from.is_at(stages, lock) {
            return Err(self.out_of_turn("F25 NotRequested"));
        }
        let from = &mut self.seats[seat as usize - 1];
        from.stage = Stage::Idle;
        self.owed -= 2;
        Ok(from.about)
    }

    fn note(&mut self, seat: u16, lock: u32) -> Done {
        let at = self.answer(seat, lock, &[Stage::MayNote, Stage::MustNote])?.at;
        self.record(seat, at);
        self.log.push(Entry { seat, call: Call::Note(lock), reply: Reply::Recorded });
        Ok(())
    }

    fn note_try(&mut self, seat: u16, at: LockAt) -> Done {
        let from = self.seat(seat)?;
        self.lock(at.lock)?;
        if !self.has_steps {
            self.need_idle(from)?;
        } else if !from.is_at(&[Stage::MustTry], at.lock) {
            return Err(OUT_OF_TURN);
        }
        let held = place_of(&from.chain, at.lock).map(|place| &from.chain[place]);
        if held.is_some_and(|held| held.count == u16::MAX) {
            return Err("F10 RecursionTooDeep");
        }
        self.need_room(2)?;
        self.seats[seat as usize - 1].stage = Stage::Idle;
        self.record(seat, at);
        self.log.push(Entry { seat, call: Call::NoteTry(at), reply: Reply::Recorded });
        Ok(())
    }

    fn record(&mut self, seat: u16, at: LockAt) {
        let type_no = self.type_of(at.lock);
        let chain = &mut self.seats[seat as usize - 1].chain;
        match place_of(chain, at.lock) {
            Some(place) => {
                chain[place].at = at;
                chain[place].count += 1;
            }
            None => chain.push(Held { at, type_no, count: 0 }),
        }
        self.owed += 1;
    }

    fn give_up(&mut self, seat: u16, lock: u32) -> Done {
        self.answer(seat, lock, &[Stage::MayTake, Stage::MayNote])?;
        self.log.push(Entry { seat, call: Call::GiveUp(lock), reply: Reply::Done });
        Ok(())
    }

    fn unlock(&mut self, seat: u16, lock: u32) -> Done {
        let (_, &Lock { owner, .. }) = self.before_naming(seat, lock)?;
        let Seat { chain, stage, about } = &mut self.seats[seat as usize - 1];
        let place = place_of(chain, lock).ok_or("F11 NotLocked")?;
        if self.has_steps {
            let is_last = chain[place].count == 0 && owner == seat;
            *stage = if is_last { Stage::MustFree } else { Stage::MayFree };
            about.at.lock = lock;
        }
        if chain[place].count > 0 {
            chain[place].count -= 1;
        } else {
            chain.remove(place);
        }
        self.owed -= 1;
        self.log.push(Entry { seat, call: Call::Unlock(lock), reply: Reply::Unlocked });
        Ok(())
    }

    fn define_order(&mut self, seat: u16, a: u32, b: u32) -> Done {
        let from = self.seat(seat)?;
        let (parent, child) = (self.lock(a)?.type_no, self.lock(b)?.type_no);
        self.need_idle(from)?;
        if parent == child {
            return Err("F21 SameType");
        }
        if self.orders.before.has(child, parent) {
            return Err("F20 WrongOrder");
        }
        self.need_room(1)?;
        self.seats[seat as usize - 1].stage = Stage::Idle;
        let is_known = self.orders.direct.has(parent, child);
        let reply = if is_known { Reply::Known } else { Reply::Adopted(parent, child) };
        if !is_known {
            self.orders.adopt(parent, child, None);
        }
        self.log.push(Entry { seat, call: Call::DefineOrder(a, b), reply });
        Ok(())
    }
}

fn place_of(chain: &[Held], lock: u32) -> Option<usize> {
    chain.iter().rposition(|held| held.at.lock == lock)
}

// What is done to the locks themselves.
impl Verifier {
    fn take(&mut self, seat: u16, lock: u32) -> Done {
        let from = self.seat(seat)?;
        self.lock(lock)?;
        if !from.is_at(&[Stage::MayTake], lock) {
            return Err(OUT_OF_TURN);
        }
        self.own(seat, lock, Stage::MustNote)
    }

    fn try_take(&mut self, seat: u16, lock: u32) -> Done {
        self.before_naming(seat, lock)?;
        self.own(seat, lock, Stage::MustTry)
    }

    fn own(&mut self, seat: u16, lock: u32, stage: Stage) -> Done {
        let owner = &mut self.locks[lock as usize - 1].owner;
        if *owner != 0 {
            return Err("F35 RawNotFree");
        }
        *owner = seat;
        let from = &mut self.seats[seat as usize - 1];
        from.stage = stage;
        from.about.at.lock = lock;
        Ok(())
    }

    fn free(&mut self, seat: u16, lock: u32) -> Done {
        let from = self.seat(seat)?;
        let owner = self.lock(lock)?.owner;
        if !from.is_at(&[Stage::MayFree, Stage::MustFree], lock) || owner != seat {
            return Err(OUT_OF_TURN);
        }
        self.seats[seat as usize - 1].stage = Stage::Idle;
        self.locks[lock as usize - 1].owner = 0;
        Ok(())
    }
}

// The texts. To write into a `String` never fails.
impl Verifier {
    fn put_lock(&self, text: &mut String, rank: &str, LockAt { lock, site }: LockAt) {
        let Lock { name, type_no, .. } = &self.locks[lock as usize - 1];
        let (type_name, file) = (self.type_name(*type_no), &self.files[site.file as usize - 1]);
        let line = site.line;
        let _ = writeln!(text, " {rank} \"{name}\" ({type_name}, sleep mutex) @ {file}:{line}");
    }

    fn put_reversal(&self, text: &mut String, conflict: &Conflict) {
        text.push_str("lock order reversal:\n");
        let locks = [conflict.older, Some(conflict.held), Some(conflict.asked)];
        for (lock, rank) in locks.into_iter().flatten().zip(["1st", "2nd", "3rd"]) {
            self.put_lock(text, rank, lock);
        }
        text.push_str("established order:\n");
        let mut at = self.type_of(conflict.asked.lock);
        let held = self.type_of(conflict.held.lock);
        while at != held {
            let next = self.orders.next(at, held);
            self.put_order(text, at, next);
            at = next;
        }
    }

    fn put_order(&self, text: &mut String, parent: u16, child: u16) {
        let (first, second) = (self.type_name(parent), self.type_name(child));
        let _ = match self.orders.origins[&(parent, child)] {
            None => writeln!(text, " \"{first}\" -> \"{second}\" @ defined"),
            Some(Site { file, line }) => {
                let file = &self.files[file as usize - 1];
                writeln!(text, " \"{first}\" -> \"{second}\" @ {file}:{line}")
            }
        };
    }
}

/// What is left of a line, and the lines behind it: each field has a space before it.
struct Fields<'a>(&'a [u8]);

impl<'a> Fields<'a> {
    fn the(&mut self, text: &[u8]) -> Done {
        self.0 = self.0.strip_prefix(text).ok_or("syntax")?;
        Ok(())
    }

    fn number(&mut self) -> Result<u32, Bad> {
        self.the(b" ")?;
        self.digits()
    }

    fn digits(&mut self) -> Result<u32, Bad> {
        let (mut rest, mut number) = (self.0, 0);
        while let [digit @ b'0'..=b'9', more @ ..] = rest {
            number = number * 10 + u64::from(digit - b'0');
            rest = more;
            if number > u64::from(u32::MAX) || (number < 10 && self.0.len() - rest.len() > 1) {
                return Err("syntax");
            }
        }
        let is_empty = rest.len() == self.0.len();
        self.0 = rest;
        if is_empty { Err("syntax") } else { Ok(number as u32) }
    }

    fn seat(&mut self) -> Result<u16, Bad> {
        u16::try_from(self.number()?).map_err(|_| "syntax")
    }

    /// Letters in this order, each once at most, as bits; `-` for none.
    fn letters(&mut self, all: &[u8]) -> Result<u8, Bad> {
        self.the(b" ")?;
        if self.the(b"-").is_ok() {
            return Ok(0);
        }
        let mut bits = 0;
        for (place, letter) in all.iter().enumerate() {
            if self.0.first() == Some(letter) {
                self.0 = &self.0[1..];
                bits |= 1 << place;
            }
        }
        if bits == 0 { Err("syntax") } else { Ok(bits) }
    }

    /// A file, which may still be none, and a line.
    fn site(&mut self) -> Result<(&'a [u8], u32), Bad> {
        self.the(b" ")?;
        let end = self.0.iter().position(|byte| *byte == b'\n').ok_or("syntax")?;
        let colon = self.0[..end].iter().rposition(|byte| *byte == b':').ok_or("syntax")?;
        let file = &self.0[..colon];
        self.0 = &self.0[colon + 1..];
        Ok((file, self.digits()?))
    }

    fn name(&mut self) -> Result<String, Bad> {
        self.the(b" \"")?;
        let end = self.0.iter().position(|byte| *byte == b'"').ok_or("syntax")?;
        let name = &self.0[..end];
        self.0 = &self.0[end + 1..];
        let is_name = (1..=63).contains(&end) && is_text(name, b' ');
        if is_name { Ok(String::from_utf8_lossy(name).into_owned()) } else { Err("syntax") }
    }

    fn last_number(&mut self) -> Result<u32, Bad> {
        let number = self.number()?;
        self.end().map(|()| number)
    }

    fn end(&mut self) -> Done {
        self.the(b"\n")
    }
}

fn is_text(text: &[u8], least: u8) -> bool {
    text.iter().all(|byte| (least..=0x7e).contains(byte) && *byte != b'"')
}

fn start(it: &mut Fields) -> Result<Verifier, Bad> {
    let has_steps = it.the(b"witness-trace 2").is_ok();
    if !has_steps {
        it.the(b"witness-trace 1")?;
    }
    let mut sizes = [0; 4];
    for (size, word) in sizes.iter_mut().zip([" seats", " types", " locks", " chunks"]) {
        it.the(word.as_bytes())?;
        *size = it.number()?;
    }
    it.end()?;
    if sizes.iter().zip([256, 1_023, 65_536, 65_536]).any(|(n, most)| *n == 0 || *n > most) {
        return Err("limit");
    }
    Ok(Verifier::new(has_steps, sizes))
}

fn act(verifier: &mut Verifier, it: &mut Fields, text: &mut String) -> Done {
    if it.the(b"check").is_ok() {
        let (seat, lock) = (it.seat()?, it.number()?);
        it.the(b" x")?;
        let (ops, (file, line)) = (it.letters(b"ndf")?, it.site()?);
        it.end()?;
        let site = Site { file: verifier.file(file)?, line };
        verifier.check(seat, Request { at: LockAt { lock, site }, ops }, text)
    } else if it.the(b"lock").is_ok() {
        verifier.note(it.seat()?, it.last_number()?)
    } else if it.the(b"unlock").is_ok() {
        let (seat, lock) = (it.seat()?, it.number()?);
        it.the(b" x\n")?;
        verifier.unlock(seat, lock)
    } else if verifier.has_steps && it.the(b"take").is_ok() {
        verifier.take(it.seat()?, it.last_number()?)
    } else if verifier.has_steps && it.the(b"free").is_ok() {
        verifier.free(it.seat()?, it.last_number()?)
    } else if verifier.has_steps && it.the(b"trytake").is_ok() {
        let (seat, lock) = (it.seat()?, it.number()?);
        it.the(b" x\n")?;
        verifier.try_take(seat, lock)
    } else if it.the(b"try").is_ok() {
        let (seat, lock) = (it.seat()?, it.number()?);
        it.the(b" x")?;
        let (file, line) = it.site()?;
        it.end()?;
        let site = Site { file: verifier.file(file)?, line };
        verifier.note_try(seat, LockAt { lock, site })
    } else if it.the(b"giveup").is_ok() {
        verifier.give_up(it.seat()?, it.last_number()?)
    } else if it.the(b"define").is_ok() {
        verifier.define_order(it.seat()?, it.number()?, it.last_number()?)
    } else {
        it.the(b"init")?;
        let seat = it.seat()?;
        it.the(b" mtx")?;
        let (flags, name) = (it.letters(b"rd")?, it.name()?);
        let type_name = if it.0.starts_with(b" ") { Some(it.name()?) } else { None };
        it.end()?;
        verifier.init(seat, flags, name, type_name)
    }
}

#[derive(Default)]
struct Replay { verifier: Option<Verifier>, number: u64, text: String, status: u8 }

impl Replay {
    /// Whether the reading goes on behind these lines; the last one may be cut.
    fn lines(&mut self, lines: &[u8], output: &mut impl io::Write) -> io::Result<bool> {
        let mut it = Fields(lines);
        while !it.0.is_empty() {
            let line = it.0;
            self.number += 1;
            let answer = match &mut self.verifier {
                Some(verifier) => act(verifier, &mut it, &mut self.text),
                None => start(&mut it).map(|new| self.verifier = Some(new)),
            };
            if let Err(bad) = answer {
                let end = line.iter().position(|byte| *byte == b'\n');
                let is_long = end.unwrap_or(line.len()) > MOST_BYTES;
                let bad = if is_long { "long" } else { end.map_or("cut", |_| bad) };
                writeln!(output, "line {}: {bad}", self.number)?;
                self.status = 3;
                return Ok(false);
            }
            if !self.text.is_empty() {
                output.write_all(self.text.as_bytes())?;
                output.flush()?;
                self.text.clear();
                self.status = 1;
            }
        }
        Ok(true)
    }

    /// Lines are read where they lie in the reader's buffer; one that its end cuts is copied.
    fn run(mut self, input: &mut impl BufRead, output: &mut impl io::Write) -> io::Result<u8> {
        loop {
            let buffer = input.fill_buf()?;
            let goes_on = if let Some(last) = buffer.iter().rposition(|byte| *byte == b'\n') {
                let goes_on = self.lines(&buffer[..=last], output)?;
                input.consume(last + 1);
                goes_on
            } else {
                let mut line = Vec::new();
                let is_end = input.read_until(b'\n', &mut line)? == 0;
                if is_end && self.number == 0 {
                    writeln!(output, "line 1: cut")?;
                    return Ok(3);
                }
                self.lines(&line, output)? && !is_end
            };
            if !goes_on {
                return Ok(self.status);
            }
        }
    }
}

fn main() -> ExitCode {
    let mut input = BufReader::with_capacity(1 << 16, io::stdin().lock());
    match Replay::default().run(&mut input, &mut io::stdout().lock()) {
        Ok(status) => ExitCode::from(status),
        Err(_) => ExitCode::from(4),
    }
}
