//! The schedule generator. It drives a machine while it writes, so that deliveries hit
//! waiting messages and operations come to their end.

use crate::jam;
use crate::odd;
use crate::open;
use crate::overtaken;
use crate::prng::Prng;
use crate::profile::{fewest_directories, Action, Profile};
use crate::view;
use copy::layout::{bit, Party, CLIENT_BASE, CLIENT_ROW, GOSSIP, IDLE};
use copy::{Numbers, Rehearsal, Shown, Words};

/// Which messages are liked for a while: a random order alone seldom leaves anyone behind.
struct Mood {
    favourite: u32,
    quiet_directories: u32,
    quiet_replicas: u32,
    order: Order,
    filling: bool,
    /// Reads wait until the pages that they ask for are tidied away.
    overtaking: bool,
    left: usize,
}

#[derive(Clone, Copy)]
enum Order {
    Any,
    Lowest,
    Highest,
}

struct Generator {
    rng: Prng,
    profile: Profile,
    numbers: Numbers,
    machine: Rehearsal,
    out: Vec<u8>,
    lines: usize,
    word: u32,
    mood: Mood,
}

/// A schedule of `lines` lines that begins with an accepted set-up.
pub fn schedule(seed: u64, lines: usize) -> Vec<u8> {
    let mut generator = Generator::new(seed);
    if lines > 0 {
        generator.set_up();
    }
    generator.run(lines);
    generator.out
}

/// As `schedule`, with calls on the zero words before the set-up, and now and then no last LF.
pub fn cold_schedule(seed: u64, lines: usize) -> Vec<u8> {
    let mut generator = Generator::new(seed);
    for _ in 0..generator.rng.below(12) {
        generator.cold_line();
    }
    generator.set_up();
    generator.run(lines);
    if generator.rng.one_in(2) {
        generator.out.pop();
    }
    generator.out
}

impl Generator {
    fn new(seed: u64) -> Generator {
        let profile = Profile::of_seed(seed);
        // The seed is stirred, so that neighbours have nothing in common.
        let mut rng = Prng::new(seed.wrapping_mul(0xd134_2543_de82_ef95) ^ 0x5eed);
        let numbers = profile.numbers(&mut rng);
        let mood = Mood::new(&mut rng, &numbers);
        let machine = Rehearsal::new();
        Generator { rng, profile, numbers, machine, out: Vec::new(), lines: 0, word: 1, mood }
    }

    fn run(&mut self, lines: usize) {
        while self.lines < lines {
            if self.mood.left == 0 {
                self.mood = Mood::new(&mut self.rng, &self.numbers);
            }
            self.mood.left -= 1;
            self.act();
        }
    }

    fn m(&self) -> &Words {
        self.machine.words()
    }

    fn emit(&mut self, line: &[u8]) -> Shown {
        self.out.extend_from_slice(line);
        self.out.push(b'\n');
        self.lines += 1;
        let shown = self.machine.step(line);
        // An odd set-up may by luck be accepted.
        if matches!(line.first(), Some(b'S' | b'C')) && shown.answer.accepted() {
            self.numbers = Numbers::read(self.m());
        }
        shown
    }

    fn say(&mut self, line: String) -> Shown {
        self.emit(line.as_bytes())
    }

    /// Each page word stands for one write alone.
    fn fresh_word(&mut self) -> u32 {
        self.word += 1;
        self.word
    }

    fn act(&mut self) {
        if self.profile == Profile::Crowded && jam::is_for(&self.numbers) && !self.rng.one_in(30) {
            let line = jam::line(&mut self.rng, self.machine.words(), &self.numbers, self.word + 1);
            self.word += 1;
            self.say(line);
            return;
        }
        match self.profile.action(&mut self.rng) {
            Action::Deliver if self.mood.overtaking && !overtaken::replicas(self.m()).is_empty() => self.tidy(),
            Action::Deliver if self.mood.filling => self.fill(),
            Action::Deliver => self.deliver(),
            Action::Start => self.start(),
            Action::Gossip => self.gossip(),
            Action::Tidy => self.tidy(),
            Action::Crash => self.crash(),
            Action::Refused => self.refused(),
            Action::Malformed => self.malformed(),
            Action::SetUp => self.set_up(),
        }
    }

    fn set_up(&mut self) {
        let numbers = self.profile.numbers(&mut self.rng);
        let word = self.fresh_word();
        self.say(odd::set_up_line(&numbers, word));
    }

    /// Before the first set-up: the zero words are a bad machine.
    fn cold_line(&mut self) {
        let numbers = self.numbers;
        let word = self.fresh_word();
        if self.rng.one_in(2) {
            let line = odd::refused(&mut self.rng, &numbers, word);
            self.say(line);
        } else {
            let line = odd::malformed(&mut self.rng, &numbers, word);
            self.emit(&line);
        }
    }

    fn refused(&mut self) {
        let numbers = self.numbers;
        let word = self.fresh_word();
        let line = odd::refused(&mut self.rng, &numbers, word);
        self.say(line);
    }

    fn malformed(&mut self) {
        let numbers = self.numbers;
        let word = self.fresh_word();
        let line = odd::malformed(&mut self.rng, &numbers, word);
        self.emit(&line);
    }

    fn deliver(&mut self) {
        let waiting = view::waiting(self.m());
        if waiting.is_empty() {
            return self.start();
        }
        let liked: Vec<u32> = waiting.iter().copied().filter(|&slot| self.likes(slot)).collect();
        // Nothing liked is left: a new mood, so that no one waits for ever.
        if liked.is_empty() {
            self.mood.left = 0;
        }
        let from = if liked.is_empty() { &waiting } else { &liked };
        let slot = match self.mood.order {
            Order::Any => self.rng.pick(from),
            Order::Lowest => from[0],
            Order::Highest => from[from.len() - 1],
        };
        self.deliver_slot(slot);
    }

    /// A refused delivery stays refused until something else moves.
    fn deliver_slot(&mut self, slot: u32) {
        let shown = self.say(format!("D {slot}"));
        if !shown.answer.accepted() {
            self.mood.order = Order::Any;
            self.mood.left = self.mood.left.min(3);
        }
    }

    fn likes(&self, slot: u32) -> bool {
        let Some(message) = view::message(self.m(), slot) else { return false };
        let mood = &self.mood;
        let client = view::client_of(&message);
        let favoured = mood.favourite == 0 || client.is_none_or(|id| id == mood.favourite);
        let held_back = mood.overtaking && overtaken::finds_its_page(self.m(), &message);
        favoured && !held_back && !view::touches(&message, mood.quiet_directories, mood.quiet_replicas)
    }

    /// Gossip makes notices, so delivering gossip fills the slots.
    fn fill(&mut self) {
        if self.profile != Profile::Crowded || self.numbers.nd == 1 {
            return self.deliver();
        }
        let waiting = view::waiting(self.m());
        let is_gossip = |&slot: &u32| view::message(self.m(), slot).is_some_and(|m| m.kind == GOSSIP);
        match waiting.into_iter().find(is_gossip) {
            Some(slot) if self.rng.one_in(2) => self.deliver_slot(slot),
            _ if self.rng.one_in(3) => self.deliver(),
            _ => self.gossip(),
        }
    }

    fn start(&mut self) {
        let ready = view::startable(self.m(), &self.numbers);
        if !ready.is_empty() {
            let client = self.rng.pick(&ready);
            return self.start_as(client);
        }
        let idle_only = view::waiting(self.m()).is_empty();
        match (idle_only, self.rng.below(8)) {
            (_, 0) => {
                let client = self.rng.between(1, self.numbers.nc);
                self.start_as(client)
            }
            // Worn out, stuck or all down: a new machine.
            (true, 1..=3) => self.set_up(),
            (true, _) => self.refused(),
            (false, _) => self.deliver(),
        }
    }

    fn start_as(&mut self, client: u32) {
        // Hoarders and spenders write, to have many tags about.
        let few = self.numbers.nd == fewest_directories(self.numbers.layout());
        let writes = matches!(self.profile, Profile::Crowded | Profile::SmallTop) && few;
        if self.rng.one_in(2) || (writes && !self.rng.one_in(8)) {
            let word = self.fresh_word();
            self.say(format!("W {client} {word}"));
        } else {
            self.say(format!("R {client}"));
        }
    }

    fn gossip(&mut self) {
        let from = self.rng.between(1, self.numbers.nr);
        let to = self.rng.between(1, self.numbers.nr);
        // Gossip to itself is refused; that is wanted, but seldom.
        let to = if to == from && !self.rng.one_in(10) { from % self.numbers.nr + 1 } else { to };
        self.say(format!("G {from} {to}"));
    }

    /// A replica with a page for which a read waits tells more than another.
    fn tidy(&mut self) {
        let replica = self.liked_or_any(&overtaken::replicas(self.m()), self.numbers.nr);
        self.say(format!("T {replica}"));
    }

    /// Mostly within what the quorums and f bear, so that operations still end.
    fn crash(&mut self) {
        let (kind, id) = match self.rng.below(5) {
            0 | 1 => (1, self.crashing_client()),
            2 | 3 => (2, self.crashing_directory()),
            _ => (3, self.rng.between(1, self.numbers.nr)),
        };
        if self.bearable(kind, id) || self.rng.one_in(8) {
            self.say(format!("X {kind} {id}"));
        } else {
            self.deliver();
        }
    }

    /// Whether operations can still end without this party.
    fn bearable(&self, kind: u32, id: u32) -> bool {
        let n = self.numbers;
        let left = |party, count| open::up(self.m(), party, count) & !bit(id);
        match kind {
            1 => left(Party::Client, n.nc) != 0,
            2 => {
                let directories = left(Party::Directory, n.nd);
                n.enough_to_read(directories) && n.enough_to_write(directories)
            }
            _ => left(Party::Replica, n.nr).count_ones() >= n.nr - n.f,
        }
    }

    /// A client in the middle of an operation tells more than an idle one.
    fn crashing_client(&mut self) -> u32 {
        let phase = |id: u32| self.m()[CLIENT_BASE + (id as usize - 1) * CLIENT_ROW + 1];
        let busy: Vec<u32> = (1..=self.numbers.nc).filter(|&id| phase(id) != IDLE).collect();
        self.liked_or_any(&busy, self.numbers.nc)
    }

    /// In columns few can be spared, so that one taken at random is seldom among them.
    fn crashing_directory(&mut self) -> u32 {
        let up = open::up(self.m(), Party::Directory, self.numbers.nd);
        let spared: Vec<u32> = open::members(up).filter(|&id| self.bearable(2, id)).collect();
        self.liked_or_any(&spared, self.numbers.nd)
    }

    fn liked_or_any(&mut self, liked: &[u32], count: u32) -> u32 {
        if liked.is_empty() {
            self.rng.between(1, count)
        } else {
            self.rng.pick(liked)
        }
    }
}

impl Mood {
    fn new(rng: &mut Prng, n: &Numbers) -> Mood {
        let favourite = if rng.one_in(2) { rng.between(1, n.nc) } else { 0 };
        Mood {
            favourite,
            quiet_directories: quiet_directories(rng, n),
            quiet_replicas: quiet(rng),
            order: rng.pick(&[Order::Any, Order::Any, Order::Lowest, Order::Highest]),
            filling: rng.one_in(2),
            overtaking: rng.one_in(3),
            left: 5 + rng.below(50),
        }
    }
}

/// Nobody, or about a quarter.
fn quiet(rng: &mut Prng) -> u32 {
    if rng.one_in(2) {
        rng.word() as u32 & rng.word() as u32
    } else {
        0
    }
}

/// In columns also all but one column, which is just enough to read, or all but one of each, which
/// is just enough to write.
fn quiet_directories(rng: &mut Prng, n: &Numbers) -> u32 {
    let columns: Vec<u32> = n.column_sets().collect();
    match rng.below(4) {
        0 if n.columns > 0 => !rng.pick(&columns),
        1 if n.columns > 0 => !columns.iter().map(|&column| one_of(rng, column)).sum::<u32>(),
        _ => quiet(rng),
    }
}

fn one_of(rng: &mut Prng, set: u32) -> u32 {
    bit(rng.pick(&open::members(set).collect::<Vec<u32>>()))
}
