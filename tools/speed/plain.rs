// The program `carrier` as one would write it by hand in plain Rust: a schedule file on standard input, its report on standard output.
// tools/speed.py times it beside the proved program. It shares no line with that one, nothing of it is proved, and the gate does not know it.
//
// Sets are masks, of cards in 8 bits and of notes in 32. A note is known inside by its place in the ranking, so a batch in ranking order is
// the ascending bits of its mask; numbers are turned into places at a post, and back where a log is printed.
//
// With the argument `many` it is timed from within, as many.rt is: the first line of its input is `read`, `run` or `report` and a number, and
// what follows, a schedule file, is read so often; or read once, and run so often; or reported so often.
use std::collections::VecDeque;
use std::hint::black_box;
use std::io::{Read, Write};

const INSTANCES: usize = 32;

type Answer = Result<(), u8>;

// The cards of a mask, ascending.
struct Bits(u32);

impl Iterator for Bits {
    type Item = usize;

    #[inline]
    fn next(&mut self) -> Option<usize> {
        if self.0 == 0 {
            return None;
        }
        let lowest = self.0.trailing_zeros() as usize;
        self.0 &= self.0 - 1;
        Some(lowest)
    }
}

struct Cards {
    count: usize,
    all: u8,
    down: u8,
    doubts: [u8; 6],
}

impl Cards {
    fn is_down(&self, card: usize) -> bool {
        self.down >> card & 1 == 1
    }

    fn acting(&self, card: usize) -> Answer {
        if card >= self.count {
            Err(1)
        } else if self.is_down(card) {
            Err(2)
        } else {
            Ok(())
        }
    }

    // Whether these are all that the card does not suspect.
    fn complete(&self, card: usize, counted: u8) -> bool {
        self.all & !self.doubts[card] & !counted == 0
    }
}

#[derive(Clone, Copy)]
struct Item<L> {
    from: u8,
    to: u8,
    load: L,
}

type Wire<L> = VecDeque<Item<L>>;

// Sends to every running card but the sender; 7 is no card.
fn send<L: Copy>(wire: &mut Wire<L>, cards: &Cards, from: usize, load: L) {
    for to in Bits((cards.all & !cards.down & !(1 << from)) as u32) {
        wire.push_back(Item { from: from as u8, to: to as u8, load });
    }
}

trait Part {
    type Load: Copy;
    fn wire(&mut self) -> &mut Wire<Self::Load>;
    fn receive(&mut self, cards: &Cards, item: Item<Self::Load>);
    fn suspected(&mut self, cards: &Cards, by: usize);

    fn carry(&mut self, cards: &Cards, item: usize) -> Answer {
        let item = self.wire().remove(item).ok_or(6)?;
        self.receive(cards, item);
        Ok(())
    }

    fn lose(&mut self, cards: &Cards, item: usize) -> Answer {
        let found = self.wire().get(item).ok_or(6)?;
        if !cards.is_down(found.from as usize) {
            return Err(7);
        }
        self.wire().remove(item);
        Ok(())
    }
}

trait Broadcast: Part {
    fn new() -> Self;
    fn posted(&mut self, cards: &Cards, card: usize, note: usize);
    fn handed(&mut self, card: usize) -> u32;
}

trait Consensus: Part {
    fn new() -> Self;
    // A proposal is never empty, so no bit is none; likewise a decision.
    fn proposal(&self, instance: usize, card: usize) -> u32;
    fn decision(&self, instance: usize, card: usize) -> u32;
    fn proposed(&mut self, cards: &Cards, instance: usize, card: usize, notes: u32);
}

struct Relay {
    sets: [u32; 6],
    wire: Wire<u8>,
}

impl Relay {
    fn meet(&mut self, cards: &Cards, card: usize, note: u8) {
        if self.sets[card] >> note & 1 == 0 {
            self.sets[card] |= 1 << note;
            send(&mut self.wire, cards, card, note);
        }
    }
}

impl Part for Relay {
    type Load = u8;

    fn wire(&mut self) -> &mut Wire<u8> {
        &mut self.wire
    }

    fn receive(&mut self, cards: &Cards, item: Item<u8>) {
        self.meet(cards, item.to as usize, item.load);
    }

    fn suspected(&mut self, _cards: &Cards, _by: usize) {}
}

impl Broadcast for Relay {
    fn new() -> Relay {
        Relay { sets: [0; 6], wire: Wire::with_capacity(64) }
    }

    fn posted(&mut self, cards: &Cards, card: usize, note: usize) {
        self.meet(cards, card, note as u8);
    }

    fn handed(&mut self, card: usize) -> u32 {
        self.sets[card]
    }
}

struct AllAck {
    counted: [[u8; 32]; 6],
    sets: [u32; 6],
    wire: Wire<u8>,
}

impl AllAck {
    fn count(&mut self, cards: &Cards, card: usize, sender: usize, note: usize) {
        let counted = self.counted[card][note];
        if counted == 0 {
            send(&mut self.wire, cards, card, note as u8);
        }
        let counted = counted | 1 << card | 1 << sender;
        self.counted[card][note] = counted;
        if cards.complete(card, counted) {
            self.sets[card] |= 1 << note;
        }
    }
}

impl Part for AllAck {
    type Load = u8;

    fn wire(&mut self) -> &mut Wire<u8> {
        &mut self.wire
    }

    fn receive(&mut self, cards: &Cards, item: Item<u8>) {
        self.count(cards, item.to as usize, item.from as usize, item.load as usize);
    }

    fn suspected(&mut self, cards: &Cards, by: usize) {
        for note in 0..32 {
            let counted = self.counted[by][note];
            if counted != 0 && cards.complete(by, counted) {
                self.sets[by] |= 1 << note;
            }
        }
    }
}

impl Broadcast for AllAck {
    fn new() -> AllAck {
        AllAck { counted: [[0; 32]; 6], sets: [0; 6], wire: Wire::with_capacity(64) }
    }

    fn posted(&mut self, cards: &Cards, card: usize, note: usize) {
        self.count(cards, card, card, note);
    }

    fn handed(&mut self, card: usize) -> u32 {
        self.sets[card]
    }
}

struct Board {
    sets: [u32; 6],
    wire: Wire<u8>,
}

impl Part for Board {
    type Load = u8;

    fn wire(&mut self) -> &mut Wire<u8> {
        &mut self.wire
    }

    fn receive(&mut self, _cards: &Cards, item: Item<u8>) {
        self.sets[item.to as usize] |= 1 << item.load;
    }

    fn suspected(&mut self, _cards: &Cards, _by: usize) {}
}

impl Broadcast for Board {
    fn new() -> Board {
        Board { sets: [0; 6], wire: Wire::with_capacity(64) }
    }

    fn posted(&mut self, cards: &Cards, _card: usize, note: usize) {
        send(&mut self.wire, cards, 7, note as u8);
    }

    fn handed(&mut self, card: usize) -> u32 {
        self.sets[card]
    }
}

// What is handed below only grows, and so does what counts: for each card and each poster it is kept how many of that one's posts count.
struct InTurn<B> {
    lower: B,
    posts: [[u8; 32]; 6],
    made: [u8; 6],
    counting: [[u8; 6]; 6],
    sets: [u32; 6],
}

impl<B: Broadcast> Part for InTurn<B> {
    type Load = B::Load;

    fn wire(&mut self) -> &mut Wire<B::Load> {
        self.lower.wire()
    }

    fn receive(&mut self, cards: &Cards, item: Item<B::Load>) {
        self.lower.receive(cards, item);
    }

    fn suspected(&mut self, cards: &Cards, by: usize) {
        self.lower.suspected(cards, by);
    }
}

impl<B: Broadcast> Broadcast for InTurn<B> {
    fn new() -> InTurn<B> {
        InTurn { lower: B::new(), posts: [[0; 32]; 6], made: [0; 6], counting: [[0; 6]; 6], sets: [0; 6] }
    }

    fn posted(&mut self, cards: &Cards, card: usize, note: usize) {
        self.posts[card][self.made[card] as usize] = note as u8;
        self.made[card] += 1;
        self.lower.posted(cards, card, note);
    }

    fn handed(&mut self, card: usize) -> u32 {
        let below = self.lower.handed(card);
        if below != self.sets[card] {
            for poster in 0..6 {
                let mut at = self.counting[card][poster];
                while at < self.made[poster] && below >> self.posts[poster][at as usize] & 1 == 1 {
                    self.sets[card] |= 1 << self.posts[poster][at as usize];
                    at += 1;
                }
                self.counting[card][poster] = at;
            }
        }
        self.sets[card]
    }
}

struct Ballots {
    proposals: [[u32; 6]; INSTANCES],
    decisions: [[u32; 6]; INSTANCES],
}

impl Ballots {
    fn new() -> Ballots {
        Ballots { proposals: [[0; 6]; INSTANCES], decisions: [[0; 6]; INSTANCES] }
    }
}

fn ballot(table: &[[u32; 6]; INSTANCES], instance: usize, card: usize) -> u32 {
    table.get(instance).map_or(0, |row| row[card])
}

struct Register {
    ballots: Ballots,
    held: [u32; INSTANCES],
    wire: Wire<u8>,
}

impl Part for Register {
    type Load = u8;

    fn wire(&mut self) -> &mut Wire<u8> {
        &mut self.wire
    }

    fn receive(&mut self, cards: &Cards, item: Item<u8>) {
        let (instance, card) = (item.load as usize, item.from as usize);
        if self.held[instance] == 0 {
            self.held[instance] = self.ballots.proposals[instance][card];
        }
        if !cards.is_down(card) {
            self.ballots.decisions[instance][card] = self.held[instance];
        }
    }

    fn suspected(&mut self, _cards: &Cards, _by: usize) {}
}

impl Consensus for Register {
    fn new() -> Register {
        Register { ballots: Ballots::new(), held: [0; INSTANCES], wire: Wire::with_capacity(16) }
    }

    fn proposal(&self, instance: usize, card: usize) -> u32 {
        ballot(&self.ballots.proposals, instance, card)
    }

    fn decision(&self, instance: usize, card: usize) -> u32 {
        ballot(&self.ballots.decisions, instance, card)
    }

    fn proposed(&mut self, _cards: &Cards, instance: usize, card: usize, notes: u32) {
        self.ballots.proposals[instance][card] = notes;
        self.wire.push_back(Item { from: card as u8, to: 7, load: instance as u8 });
    }
}

#[derive(Clone, Copy)]
struct Told {
    instance: u8,
    round: u8,
    known: u8,
}

#[derive(Clone, Copy)]
struct Seat {
    round: u8,
    counted: u8,
    known: u8,
}

struct Flood {
    ballots: Ballots,
    seats: [[Seat; 6]; INSTANCES],
    // What came before its round: by instance, receiver, round and sender, what the sender knew. A sender tells a card once in a round, and
    // it knows at least itself, so no bit is none.
    kept: [[[[u8; 6]; 6]; 6]; INSTANCES],
    wire: Wire<Told>,
}

impl Flood {
    fn enter(&mut self, cards: &Cards, instance: usize, card: usize, round: u8) {
        let seat = &mut self.seats[instance][card];
        seat.round = round;
        seat.counted = 1 << card;
        send(&mut self.wire, cards, card, Told { instance: instance as u8, round, known: seat.known });
        for (sender, known) in self.kept[instance][card][round as usize - 1].iter().enumerate() {
            if *known != 0 && cards.doubts[card] >> sender & 1 == 0 {
                seat.counted |= 1 << sender;
                seat.known |= known;
            }
        }
    }

    // The card moves as often as it can.
    fn go_on(&mut self, cards: &Cards, instance: usize, card: usize) {
        while self.ballots.decisions[instance][card] == 0 {
            let seat = self.seats[instance][card];
            if !cards.complete(card, seat.counted) {
                return;
            }
            if seat.round as usize == cards.count {
                let proposer = seat.known.trailing_zeros() as usize;
                self.ballots.decisions[instance][card] = self.ballots.proposals[instance][proposer];
                return;
            }
            self.enter(cards, instance, card, seat.round + 1);
        }
    }
}

impl Part for Flood {
    type Load = Told;

    fn wire(&mut self) -> &mut Wire<Told> {
        &mut self.wire
    }

    fn receive(&mut self, cards: &Cards, item: Item<Told>) {
        let (instance, card, told) = (item.load.instance as usize, item.to as usize, item.load);
        let seat = &mut self.seats[instance][card];
        if told.round < seat.round || cards.doubts[card] >> item.from & 1 == 1 {
            return;
        }
        if told.round > seat.round {
            self.kept[instance][card][told.round as usize - 1][item.from as usize] = told.known;
        } else if self.ballots.decisions[instance][card] == 0 {
            seat.counted |= 1 << item.from;
            seat.known |= told.known;
            self.go_on(cards, instance, card);
        }
    }

    fn suspected(&mut self, cards: &Cards, by: usize) {
        for instance in 0..INSTANCES {
            if self.seats[instance][by].round > 0 {
                self.go_on(cards, instance, by);
            }
        }
    }
}

impl Consensus for Flood {
    fn new() -> Flood {
        Flood {
            ballots: Ballots::new(),
            seats: [[Seat { round: 0, counted: 0, known: 0 }; 6]; INSTANCES],
            kept: [[[[0; 6]; 6]; 6]; INSTANCES],
            wire: Wire::with_capacity(64),
        }
    }

    fn proposal(&self, instance: usize, card: usize) -> u32 {
        ballot(&self.ballots.proposals, instance, card)
    }

    fn decision(&self, instance: usize, card: usize) -> u32 {
        ballot(&self.ballots.decisions, instance, card)
    }

    fn proposed(&mut self, cards: &Cards, instance: usize, card: usize, notes: u32) {
        self.ballots.proposals[instance][card] = notes;
        self.seats[instance][card].known = 1 << card;
        self.enter(cards, instance, card, 1);
        self.go_on(cards, instance, card);
    }
}

// The book in ranking order: which note has a place, and which place a note.
struct Ranking {
    notes: [u8; 32],
    places: [u8; 32],
    len: usize,
}

// A note of either kind as a number that orders as its kind does.
fn rank(keys: &[u64]) -> Ranking {
    let mut ranking = Ranking { notes: [0; 32], places: [0; 32], len: keys.len() };
    for (number, note) in ranking.notes.iter_mut().enumerate() {
        *note = number as u8;
    }
    ranking.notes[..keys.len()].sort_unstable_by_key(|note| (keys[*note as usize], *note));
    for place in 0..keys.len() {
        ranking.places[ranking.notes[place] as usize] = place as u8;
    }
    ranking
}

#[derive(Clone, Copy)]
struct Progress {
    log: [u8; 32],
    len: usize,
    logged: u32,
    instance: usize,
}

struct Carrier<B, C> {
    cards: Cards,
    ranking: Ranking,
    posted: u32,
    broadcast: B,
    consensus: C,
    progress: [Progress; 6],
    steps: usize,
}

impl<B: Broadcast, C: Consensus> Carrier<B, C> {
    fn new(count: usize, book: &[u64]) -> Self {
        Carrier {
            cards: Cards { count, all: (1 << count) - 1, down: 0, doubts: [0; 6] },
            ranking: rank(book),
            posted: 0,
            broadcast: B::new(),
            consensus: C::new(),
            progress: [Progress { log: [0; 32], len: 0, logged: 0, instance: 0 }; 6],
            steps: 0,
        }
    }

    fn post(&mut self, card: usize, note: usize) -> Answer {
        self.cards.acting(card)?;
        if note >= self.ranking.len {
            return Err(3);
        }
        let place = self.ranking.places[note] as usize;
        if self.posted >> place & 1 == 1 {
            return Err(4);
        }
        self.posted |= 1 << place;
        self.broadcast.posted(&self.cards, card, place);
        Ok(())
    }

    fn crash(&mut self, card: usize) -> Answer {
        self.cards.acting(card)?;
        self.cards.down |= 1 << card;
        self.broadcast.wire().retain(|item| item.to as usize != card);
        self.consensus.wire().retain(|item| item.to as usize != card);
        Ok(())
    }

    fn suspect(&mut self, by: usize, card: usize) -> Answer {
        if by >= self.cards.count || card >= self.cards.count {
            return Err(1);
        }
        self.cards.acting(by)?;
        if !self.cards.is_down(card) {
            return Err(5);
        }
        self.cards.doubts[by] |= 1 << card;
        self.broadcast.suspected(&self.cards, by);
        self.consensus.suspected(&self.cards, by);
        Ok(())
    }

    fn waiting(&mut self, card: usize) -> u32 {
        self.broadcast.handed(card) & !self.progress[card].logged
    }

    fn propose(&mut self, card: usize) -> Answer {
        self.cards.acting(card)?;
        let instance = self.progress[card].instance;
        if self.consensus.proposal(instance, card) != 0 {
            return Err(8);
        }
        let waiting = self.waiting(card);
        if waiting == 0 || instance >= INSTANCES {
            return Err(9);
        }
        self.consensus.proposed(&self.cards, instance, card, waiting);
        self.steps += 1;
        Ok(())
    }

    fn take(&mut self, card: usize) -> Answer {
        self.cards.acting(card)?;
        let progress = &mut self.progress[card];
        let decision = self.consensus.decision(progress.instance, card);
        if decision == 0 {
            return Err(10);
        }
        for place in Bits(decision) {
            progress.log[progress.len] = self.ranking.notes[place];
            progress.len += 1;
        }
        progress.logged |= decision;
        progress.instance += 1;
        self.steps += 1;
        Ok(())
    }

    fn taker(&self) -> Option<usize> {
        Bits((self.cards.all & !self.cards.down) as u32)
            .find(|card| self.consensus.decision(self.progress[*card].instance, *card) != 0)
    }

    fn proposer(&mut self) -> Option<usize> {
        Bits((self.cards.all & !self.cards.down) as u32).find(|card| {
            let instance = self.progress[*card].instance;
            instance < INSTANCES && self.consensus.proposal(instance, *card) == 0 && self.waiting(*card) != 0
        })
    }

    fn settle(&mut self, limit: usize) {
        let end = self.steps + limit;
        while self.steps < end {
            if let Some(item) = self.broadcast.wire().pop_front() {
                self.broadcast.receive(&self.cards, item);
                self.steps += 1;
            } else if let Some(item) = self.consensus.wire().pop_front() {
                self.consensus.receive(&self.cards, item);
                self.steps += 1;
            } else if let Some(card) = self.taker() {
                let _ = self.take(card);
            } else if let Some(card) = self.proposer() {
                let _ = self.propose(card);
            } else {
                return;
            }
        }
    }

    fn at_rest(&mut self) -> bool {
        self.broadcast.wire().len() == 0
            && self.consensus.wire().len() == 0
            && self.taker().is_none()
            && self.proposer().is_none()
    }

    fn make(&mut self, event: Event) -> Answer {
        let (first, second) = (event.first as usize, event.second as usize);
        match event.kind {
            Kind::Post => self.post(first, second),
            Kind::Propose => self.propose(first),
            Kind::Take => self.take(first),
            Kind::Crash => self.crash(first),
            Kind::Suspect => self.suspect(first, second),
            Kind::CarryBroadcast => self.broadcast.carry(&self.cards, first).map(|()| self.steps += 1),
            Kind::CarryConsensus => self.consensus.carry(&self.cards, first).map(|()| self.steps += 1),
            Kind::LoseBroadcast => self.broadcast.lose(&self.cards, first).map(|()| self.steps += 1),
            Kind::LoseConsensus => self.consensus.lose(&self.cards, first).map(|()| self.steps += 1),
            Kind::Settle => {
                self.settle(first);
                Ok(())
            }
        }
    }
}

#[derive(Clone, Copy)]
enum Kind {
    Post,
    Propose,
    Take,
    Crash,
    Suspect,
    CarryBroadcast,
    CarryConsensus,
    LoseBroadcast,
    LoseConsensus,
    Settle,
}

#[derive(Clone, Copy)]
struct Event {
    kind: Kind,
    first: u16,
    second: u16,
}

// Cause, place and layer.
struct Bad(u8, usize, &'static str);

// Reads from the front of the file; each of its calls answers nothing where the bytes are not of that form.
struct Reader<'a> {
    file: &'a [u8],
    at: usize,
}

impl<'a> Reader<'a> {
    fn byte(&mut self, byte: u8) -> Option<()> {
        if self.file.get(self.at) == Some(&byte) {
            self.at += 1;
            Some(())
        } else {
            None
        }
    }

    fn text(&mut self, text: &[u8]) -> Option<()> {
        if self.file[self.at..].starts_with(text) {
            self.at += text.len();
            Some(())
        } else {
            None
        }
    }

    fn number(&mut self, most: u32) -> Option<u32> {
        let start = self.at;
        let mut value: u64 = 0;
        while let Some(byte) = self.file.get(self.at) {
            let digit = byte.wrapping_sub(b'0');
            if digit > 9 {
                break;
            }
            value = value * 10 + digit as u64;
            if value > most as u64 {
                return None;
            }
            self.at += 1;
        }
        let len = self.at - start;
        if len == 0 || (len > 1 && self.file[start] == b'0') { None } else { Some(value as u32) }
    }

    fn counted(&mut self, key: &[u8], least: u32, most: u32) -> Option<usize> {
        self.text(key)?;
        let value = self.number(most)?;
        self.byte(b'\n')?;
        if value < least { None } else { Some(value as usize) }
    }

    fn wears(&mut self) -> Option<bool> {
        match self.text(b"kind wear\n") {
            Some(()) => Some(true),
            None => self.text(b"kind label\n").map(|()| false),
        }
    }

    fn pile(&mut self) -> Option<Pile> {
        self.text(b"pile ")?;
        let in_turn = self.text(b"inturn ").is_some();
        let broadcast = if self.text(b"relay ").is_some() {
            'r'
        } else if self.text(b"allack ").is_some() {
            'a'
        } else {
            self.text(b"board ")?;
            'b'
        };
        let flood = self.text(b"flood\n").is_some();
        if !flood {
            self.text(b"register\n")?;
        }
        Some(Pile { in_turn, broadcast, flood })
    }

    fn wear(&mut self) -> Option<u64> {
        let block = self.number(u32::MAX)?;
        self.byte(b' ')?;
        let erases = self.number(u32::MAX)?;
        self.byte(b'\n')?;
        Some((block as u64) << 32 | erases as u64)
    }

    fn label(&mut self) -> Option<u64> {
        let line = &self.file[self.at..];
        let len = line.iter().take(9).position(|byte| *byte == b'\n')?;
        let mut bytes = [0; 8];
        for (to, byte) in bytes.iter_mut().zip(&line[..len]) {
            if !(32..=126).contains(byte) {
                return None;
            }
            *to = *byte;
        }
        self.at += len + 1;
        // A label that ends first is filled up with bytes below any of a label.
        if len == 0 { None } else { Some(u64::from_be_bytes(bytes)) }
    }

    fn value(&mut self) -> Option<u16> {
        self.byte(b' ')?;
        self.number(65535).map(|value| value as u16)
    }

    fn on_wire(&mut self, broadcast: Kind, consensus: Kind) -> Option<Kind> {
        match self.text(b" b") {
            Some(()) => Some(broadcast),
            None => self.text(b" c").map(|()| consensus),
        }
    }

    fn event(&mut self) -> Option<Event> {
        let letter = *self.file.get(self.at)?;
        self.at += 1;
        let kind = match letter {
            b'b' => Kind::Post,
            b'p' => Kind::Propose,
            b't' => Kind::Take,
            b'x' => Kind::Crash,
            b's' => Kind::Suspect,
            b'c' => self.on_wire(Kind::CarryBroadcast, Kind::CarryConsensus)?,
            b'l' => self.on_wire(Kind::LoseBroadcast, Kind::LoseConsensus)?,
            b'r' => Kind::Settle,
            _ => return None,
        };
        let first = self.value()?;
        let second = if letter == b'b' || letter == b's' { self.value()? } else { 0 };
        self.byte(b'\n')?;
        Some(Event { kind, first, second })
    }
}

#[derive(Clone, Copy)]
struct Pile {
    in_turn: bool,
    broadcast: char,
    flood: bool,
}

struct Schedule {
    cards: usize,
    pile: Pile,
    notes: usize,
    keys: [u64; 32],
    events: Vec<Event>,
}

fn read(file: &[u8]) -> Result<Schedule, Bad> {
    if file.len() > 65536 {
        return Err(Bad(11, 65536, "file"));
    }
    let mut reader = Reader { file, at: 0 };
    let mut start = 0;
    let wears = reader.wears().ok_or(Bad(12, start, "contents"))?;
    start = reader.at;
    let cards = reader.counted(b"cards ", 1, 6).ok_or(Bad(12, start, "contents"))?;
    start = reader.at;
    let pile = reader.pile().ok_or(Bad(12, start, "contents"))?;
    start = reader.at;
    let notes = reader.counted(b"notes ", 0, 32).ok_or(Bad(12, start, "contents"))?;
    start = reader.at;
    let count = reader.counted(b"events ", 0, 4096).ok_or(Bad(12, start, "contents"))?;
    let mut keys = [0; 32];
    for key in &mut keys[..notes] {
        start = reader.at;
        let note = if wears { reader.wear() } else { reader.label() };
        *key = note.ok_or(Bad(13, start, "notes"))?;
    }
    let mut events = Vec::with_capacity(count);
    for _ in 0..count {
        start = reader.at;
        events.push(reader.event().ok_or(Bad(13, start, "events"))?);
    }
    if reader.at < file.len() {
        return Err(Bad(14, reader.at, "file"));
    }
    Ok(Schedule { cards, pile, notes, keys, events })
}

fn write_number(out: &mut Vec<u8>, value: usize) {
    let mut digits = [0; 20];
    let mut at = digits.len();
    let mut rest = value;
    loop {
        at -= 1;
        digits[at] = b'0' + (rest % 10) as u8;
        rest /= 10;
        if rest == 0 {
            break;
        }
    }
    out.extend_from_slice(&digits[at..]);
}

// Makes the events, one after the other, and tells of each that is refused.
fn make_all<B: Broadcast, C: Consensus>(schedule: &Schedule, mut refused: impl FnMut(usize, u8)) -> Carrier<B, C> {
    let mut carrier = Carrier::new(schedule.cards, &schedule.keys[..schedule.notes]);
    for (number, event) in schedule.events.iter().enumerate() {
        if let Err(refusal) = carrier.make(*event) {
            refused(number, refusal);
        }
    }
    carrier
}

// What is done over the stack that a file names.
trait Over {
    type Result;
    fn over<B: Broadcast, C: Consensus>(self, schedule: &Schedule) -> Self::Result;
}

fn over_consensus<C: Consensus, O: Over>(schedule: &Schedule, what: O) -> O::Result {
    match (schedule.pile.in_turn, schedule.pile.broadcast) {
        (false, 'r') => what.over::<Relay, C>(schedule),
        (false, 'a') => what.over::<AllAck, C>(schedule),
        (false, _) => what.over::<Board, C>(schedule),
        (true, 'r') => what.over::<InTurn<Relay>, C>(schedule),
        (true, 'a') => what.over::<InTurn<AllAck>, C>(schedule),
        (true, _) => what.over::<InTurn<Board>, C>(schedule),
    }
}

fn over_stack<O: Over>(schedule: &Schedule, what: O) -> O::Result {
    if schedule.pile.flood {
        over_consensus::<Flood, O>(schedule, what)
    } else {
        over_consensus::<Register, O>(schedule, what)
    }
}

struct Report<'a> {
    out: &'a mut Vec<u8>,
}

impl Over for Report<'_> {
    type Result = ();

    fn over<B: Broadcast, C: Consensus>(self, schedule: &Schedule) {
        let out = self.out;
        let mut carrier: Carrier<B, C> = make_all(schedule, |number, refusal| {
            out.extend_from_slice(b"no ");
            write_number(out, number);
            out.push(b' ');
            write_number(out, refusal as usize);
            out.push(b'\n');
        });
        for card in 0..schedule.cards {
            out.extend_from_slice(b"log ");
            write_number(out, card);
            let word: &[u8] = if carrier.cards.is_down(card) { b" down" } else { b" up" };
            out.extend_from_slice(word);
            let progress = &carrier.progress[card];
            for note in &progress.log[..progress.len] {
                out.push(b' ');
                write_number(out, *note as usize);
            }
            out.push(b'\n');
        }
        out.extend_from_slice(b"steps ");
        write_number(out, carrier.steps);
        let word: &[u8] = if carrier.at_rest() { b" rest\n" } else { b" more\n" };
        out.extend_from_slice(word);
    }
}

fn report(file: &[u8]) -> Vec<u8> {
    let mut out = Vec::with_capacity(1024);
    match read(file) {
        Err(Bad(cause, place, layer)) => {
            out.extend_from_slice(b"bad ");
            write_number(&mut out, cause as usize);
            out.push(b' ');
            write_number(&mut out, place);
            out.push(b' ');
            out.extend_from_slice(layer.as_bytes());
            out.push(b'\n');
        }
        Ok(schedule) => over_stack(&schedule, Report { out: &mut out }),
    }
    out
}

// Makes the events so often, and sums up the steps.
struct Runs {
    times: usize,
}

impl Over for Runs {
    type Result = usize;

    fn over<B: Broadcast, C: Consensus>(self, schedule: &Schedule) -> usize {
        let mut steps = 0;
        for _ in 0..self.times {
            // Many.rt keeps the answers of a run, and so does this.
            let mut answers = Vec::with_capacity(schedule.events.len());
            let carrier: Carrier<B, C> = make_all(black_box(schedule), |number, refusal| answers.push((number as u16, refusal)));
            black_box(answers);
            steps += carrier.steps;
        }
        steps
    }
}

fn many(input: &[u8]) -> Vec<u8> {
    let end = input.iter().position(|byte| *byte == b'\n').expect("a line that says what to do");
    let order = std::str::from_utf8(&input[..end]).expect("text");
    let (what, times) = order.split_once(' ').expect("a word and a number");
    let times: usize = times.parse().expect("a number of times");
    let file = &input[end + 1..];
    let sum = match what {
        "read" => (0..times).map(|_| read(black_box(file)).map_or(1, |schedule| schedule.events.len())).sum::<usize>(),
        "run" => over_stack(&read(file).ok().expect("a schedule"), Runs { times }),
        _ => (0..times).map(|_| report(black_box(file)).len()).sum::<usize>(),
    };
    format!("{sum}\n").into_bytes()
}

fn main() -> std::io::Result<()> {
    let mut input = Vec::new();
    std::io::stdin().lock().read_to_end(&mut input)?;
    let out = if std::env::args().any(|word| word == "many") { many(&input) } else { report(&input) };
    std::io::stdout().lock().write_all(&out)
}
