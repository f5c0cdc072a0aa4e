//! The same play as `cellar`, in plain Rust, as docs/DESIGN.md and docs/SCRIPT.md have it: two hosts in memory, a plan
//! with its generator, a log, and the nodes that move the guest. It reads the same script and prints the same lines.
//! Beside that it looks on by itself: each `stop`, `resume` and `put` is tested against what is promised, and a broken
//! promise ends the program.
//!
//!     rustc -O --edition 2021 -o plain bench/plain/main.rs && ./plain < script

use std::collections::{BTreeSet, VecDeque};
use std::io::{self, BufRead, BufWriter, Write as _};

const PAGES: usize = 32;
const ROW: usize = 64;
const KEPT: usize = 128;

type Page = [u64; 64];
type Letter = [u64; 72];

struct Down;

#[derive(Clone, Copy, PartialEq, Eq)]
enum Who {
    Zero,
    One,
}

impl Who {
    fn number(self) -> u8 {
        self as u8
    }
}

/// One host.
struct Side {
    pages: Vec<Page>,
    touched: Vec<bool>,
    cells: [u64; 64],
    told: bool,
    row: VecDeque<Letter>,
    kept: VecDeque<Letter>,
}

impl Side {
    fn new(pages: usize) -> Self {
        Side {
            pages: vec![[0; 64]; pages],
            touched: vec![false; pages],
            cells: [0; 64],
            told: false,
            row: VecDeque::with_capacity(ROW),
            kept: VecDeque::with_capacity(KEPT),
        }
    }

    /// As it was made, in the same memory.
    fn reset(&mut self) {
        self.pages.fill([0; 64]);
        self.touched.fill(false);
        self.cells = [0; 64];
        self.told = false;
        self.row.clear();
        self.kept.clear();
    }

    fn fall(&mut self, word: u64, touched: bool) {
        self.pages.fill([word; 64]);
        self.touched.fill(touched);
        self.told = false;
    }
}

#[derive(Clone, Copy, Default)]
struct Fall {
    ask: u32,
    after: bool,
}

#[derive(Clone, Copy)]
struct Write {
    page: usize,
    word: u64,
}

enum Fate {
    Stands,
    Before,
    After,
}

/// What happens beside what the hosts ask for.
#[derive(Default)]
struct Plan {
    falls: [Fall; 2],
    lose: u32,
    again: u32,
    wish: bool,
    write: Option<Write>,
    random: bool,
    word: u64,
}

fn part(word: u64, shift: u32, of: u64) -> u64 {
    (word >> 32 >> shift) % of
}

impl Plan {
    fn draw(&mut self) {
        if self.random {
            self.word = self
                .word
                .wrapping_mul(6364136223846793005)
                .wrapping_add(1442695040888963407);
        }
    }

    fn ask(&mut self, who: Who) -> Fate {
        self.draw();
        let fall = &mut self.falls[who as usize];
        let due = fall.ask == 1;
        fall.ask = fall.ask.saturating_sub(1);
        if due {
            return if fall.after { Fate::After } else { Fate::Before };
        }
        match part(self.word, 0, 4096) {
            0 if self.random => Fate::Before,
            1 if self.random => Fate::After,
            _ => Fate::Stands,
        }
    }

    fn page(&self, writes: bool) -> Option<Write> {
        (self.random && writes).then(|| Write {
            page: part(self.word, 20, 4096) as usize % PAGES,
            word: self.word,
        })
    }

    fn write_on(&self) -> Option<Write> {
        self.page(part(self.word, 16, 16) >= 14)
    }

    fn want(&mut self) -> bool {
        self.draw();
        std::mem::take(&mut self.wish) || self.random && part(self.word, 12, 4) == 0
    }

    /// Of a letter that is sent: is it lost, and is it kept?
    fn post(&mut self) -> (bool, bool) {
        let due = self.lose == 1;
        self.lose = self.lose.saturating_sub(1);
        let lost = due || self.random && part(self.word, 12, 16) == 0;
        (lost, !(self.random && part(self.word, 16, 16) == 0))
    }

    fn write_between(&mut self) -> Option<Write> {
        self.write
            .take()
            .or_else(|| self.page(part(self.word, 16, 16) >= 8))
    }

    fn wreck(&self) -> (u64, bool) {
        (
            self.word ^ 0xdead,
            self.random && part(self.word, 20, 2) == 1,
        )
    }
}

#[derive(Clone, Copy)]
enum What {
    Stop,
    Resume,
    Fall,
    Lost,
}

/// What a host may ask.
trait Place {
    fn get(&mut self, cell: usize) -> Result<u64, Down>;
    fn keep(&mut self, cell: usize, value: u64) -> Result<(), Down>;
    fn told(&mut self) -> Result<bool, Down>;
    fn touched(&mut self, page: usize) -> Result<bool, Down>;
    fn page(&mut self, page: usize) -> Result<Page, Down>;
    fn put(&mut self, page: usize, words: &[u64]) -> Result<(), Down>;
    fn stop(&mut self) -> Result<(), Down>;
    fn resume(&mut self, attempt: u64) -> Result<(), Down>;
    fn send(&mut self, letter: Letter) -> Result<(), Down>;
    fn recv(&mut self) -> Result<Option<Letter>, Down>;
}

/// Two hosts, their guest, the plan and the log.
struct Hosts {
    sides: [Side; 2],
    runs: bool,
    last: Who,
    lost: bool,
    hurt: bool,
    wish: bool,
    turn: Who,
    left: u32,
    fell: bool,
    rough: bool,
    busy: u32,
    calm: u32,
    still: u32,
    truth: Vec<Page>,
    plan: Plan,
    log: Vec<(What, Who)>,
}

impl Hosts {
    fn new() -> Self {
        Hosts {
            sides: [Side::new(PAGES), Side::new(PAGES)],
            runs: true,
            last: Who::Zero,
            lost: false,
            hurt: false,
            wish: false,
            turn: Who::Zero,
            left: 0,
            fell: false,
            rough: false,
            busy: 0,
            calm: 0,
            still: 0,
            truth: vec![[0; 64]; PAGES],
            plan: Plan::default(),
            log: Vec::with_capacity(1536),
        }
    }

    /// All begins anew, in the same memory.
    fn reset(&mut self) {
        self.sides.iter_mut().for_each(Side::reset);
        self.runs = true;
        self.last = Who::Zero;
        self.lost = false;
        self.hurt = false;
        self.wish = false;
        self.turn = Who::Zero;
        self.left = 0;
        self.fell = false;
        self.rough = false;
        self.busy = 0;
        self.calm = 0;
        self.still = 0;
        self.plan = Plan::default();
        self.log.clear();
    }

    fn fall(&mut self) {
        let host = self.turn;
        let here = self.last == host;
        let lost = self.runs && here;
        let (word, touched) = self.plan.wreck();
        self.sides[host as usize].fall(word, touched);
        self.lost |= lost;
        self.runs &= !here;
        self.hurt |= here;
        self.fell = true;
        self.rough = true;
        self.log.push((What::Fall, host));
        if lost {
            self.log.push((What::Lost, host));
        }
    }

    fn fill(&mut self, write: Option<Write>) {
        let Some(Write { page, word }) = write else {
            return;
        };
        if self.runs && page < PAGES {
            self.busy = (self.busy + 1).min(17);
            let side = &mut self.sides[self.last as usize];
            side.pages[page] = [word; 64];
            side.touched[page] = true;
        }
    }

    fn begin(&mut self) -> Result<bool, Down> {
        self.left -= 1;
        if self.fell {
            return Err(Down);
        }
        match self.plan.ask(self.turn) {
            Fate::Before => {
                self.fall();
                Err(Down)
            }
            Fate::After => Ok(true),
            Fate::Stands => Ok(false),
        }
    }

    fn end(&mut self, due: bool) -> Result<(), Down> {
        if due {
            self.fall();
            return Err(Down);
        }
        let write = self.plan.write_on();
        self.fill(write);
        Ok(())
    }

    fn seat(&mut self, who: Who) {
        self.turn = who;
        self.left = 256;
        self.fell = false;
    }

    fn renew(&mut self) {
        self.left = 0;
        self.fell = false;
    }

    fn between(&mut self) {
        let wants = self.plan.want();
        if wants && self.runs && !self.wish {
            self.wish = true;
            self.sides[self.last as usize].told = true;
        }
        let write = self.plan.write_between();
        self.fill(write);
    }

    fn in_time(&self) -> bool {
        self.still < 32 && (self.calm as usize) < 256 + 8 * PAGES
    }

    fn round(&mut self) {
        let good = !self.rough && self.busy <= 16 && !self.lost && !self.hurt;
        let count = |counts: bool, n: u32| if counts { n.saturating_add(1) } else { 0 };
        self.calm = count(good && self.wish, self.calm);
        self.still = count(good && !self.runs, self.still);
        self.left = 0;
        self.rough = false;
        self.busy = 0;
    }
}

impl Place for Hosts {
    fn get(&mut self, cell: usize) -> Result<u64, Down> {
        let due = self.begin()?;
        let value = self.sides[self.turn as usize].cells[cell];
        self.end(due)?;
        Ok(value)
    }

    fn keep(&mut self, cell: usize, value: u64) -> Result<(), Down> {
        let due = self.begin()?;
        self.me().cells[cell] = value;
        self.end(due)
    }

    fn told(&mut self) -> Result<bool, Down> {
        let due = self.begin()?;
        let told = std::mem::take(&mut self.me().told);
        self.end(due)?;
        Ok(told)
    }

    fn touched(&mut self, page: usize) -> Result<bool, Down> {
        let due = self.begin()?;
        let touched = std::mem::take(&mut self.me().touched[page]);
        self.end(due)?;
        Ok(touched)
    }

    fn page(&mut self, page: usize) -> Result<Page, Down> {
        let due = self.begin()?;
        let words = self.me().pages[page];
        self.end(due)?;
        Ok(words)
    }

    fn put(&mut self, page: usize, words: &[u64]) -> Result<(), Down> {
        assert!(
            !self.runs || self.last != self.turn,
            "a page is put where the guest runs"
        );
        let due = self.begin()?;
        self.me().pages[page].copy_from_slice(words);
        self.end(due)
    }

    fn stop(&mut self) -> Result<(), Down> {
        assert!(
            self.runs && self.last == self.turn && self.wish,
            "a stop that may not be"
        );
        let due = self.begin()?;
        self.truth.clone_from(&self.sides[self.turn as usize].pages);
        self.runs = false;
        self.hurt = false;
        self.log.push((What::Stop, self.turn));
        self.end(due)
    }

    fn resume(&mut self, attempt: u64) -> Result<(), Down> {
        assert!(!self.runs && !self.lost, "the guest runs, or is lost");
        assert!(
            self.last == self.turn || self.wish,
            "nobody wants the guest here"
        );
        assert!(
            self.sides[self.turn as usize].pages == self.truth,
            "a page is not the guest's"
        );
        let due = self.begin()?;
        self.me().cells[0] = attempt;
        self.runs = true;
        self.wish &= self.last == self.turn;
        self.last = self.turn;
        self.hurt = false;
        self.log.push((What::Resume, self.turn));
        self.end(due)
    }

    fn send(&mut self, letter: Letter) -> Result<(), Down> {
        let due = self.begin()?;
        let (lost, kept) = self.plan.post();
        let to = &mut self.sides[1 - self.turn as usize];
        if kept {
            if to.kept.len() == KEPT {
                to.kept.pop_front();
            }
            to.kept.push_back(letter);
        }
        if lost {
            self.rough = true;
        } else if to.row.len() < ROW {
            to.row.push_back(letter);
        }
        self.end(due)
    }

    fn recv(&mut self) -> Result<Option<Letter>, Down> {
        let due = self.begin()?;
        let came = self.hand();
        self.end(due)?;
        Ok(came)
    }
}

impl Hosts {
    fn me(&mut self) -> &mut Side {
        &mut self.sides[self.turn as usize]
    }

    /// The letter that comes to who asks for one.
    fn hand(&mut self) -> Option<Letter> {
        let Plan { random, word, .. } = self.plan;
        let side = &mut self.sides[self.turn as usize];
        let which = part(word, 20, 4096) as usize;
        let mut old = None;
        let mut line = 2;
        if self.turn == Who::One && self.plan.again > 0 {
            self.plan.again -= 1;
            old = side.kept.front().copied();
        } else if random {
            line = part(word, 12, 16);
            if line == 0 && !side.kept.is_empty() {
                old = Some(side.kept[which % side.kept.len()]);
            }
        }
        if old.is_some() {
            self.rough = true;
            return old;
        }
        if line != 1 {
            return side.row.pop_front();
        }
        self.rough = true;
        if !side.row.is_empty() {
            let i = which % side.row.len();
            match part(word, 16, 4) {
                0 => {}
                1 => drop(side.row.pop_front()),
                2 => side.row.swap(0, i),
                _ => side.row[i] = side.row[0],
            }
        }
        None
    }
}

const PROBE: u64 = 1;
const PAGE: u64 = 2;
const COMMIT: u64 = 3;
const ACK: u64 = 4;
const REFUSE: u64 = 5;
const TAKEN: u64 = 6;

const WINDOW: usize = 62;
const LONG_PASS: u32 = 37;
const LONG_PAUSE: u32 = 27;
const NEVER: u32 = u32::MAX;

fn letter(kind: u64, attempt: u64, place: u64) -> Letter {
    let mut l = [0; 72];
    l[..3].copy_from_slice(&[kind, attempt, place]);
    l
}

/// An attempt to move the guest away.
struct Transfer {
    attempt: u64,
    base: u64,
    window: VecDeque<usize>,
    unsent: BTreeSet<usize>,
    cursor: usize,
    turns: u32,
    prev: u32,
}

impl Transfer {
    fn over(&self) -> bool {
        self.window.is_empty() && self.cursor == PAGES
    }

    fn pass(&mut self, prev: u32) {
        self.cursor = 0;
        self.turns = 0;
        self.prev = prev;
    }

    fn send_page<P: Place>(&self, place: &mut P, i: usize) -> Result<(), Down> {
        let page = self.window[i];
        let words = place.page(page)?;
        let mut l = letter(PAGE, self.attempt, self.base + i as u64);
        l[3] = page as u64;
        l[8..].copy_from_slice(&words);
        place.send(l)
    }

    /// A probe; then what is on its way again or, if nothing is, the next part of the pass.
    fn go_on<P: Place>(&mut self, place: &mut P, most: usize) -> Result<(), Down> {
        self.turns = self.turns.saturating_add(1);
        place.send(letter(PROBE, self.attempt, 0))?;
        if !self.window.is_empty() {
            return (0..self.window.len()).try_for_each(|i| self.send_page(place, i));
        }
        let mut left = most - 1;
        while left >= 3 && self.window.len() < WINDOW && self.cursor < PAGES {
            let page = self.cursor;
            self.cursor += 1;
            left -= 1;
            let dirty = place.touched(page)?;
            if self.unsent.remove(&page) || dirty {
                left -= 2;
                self.window.push_back(page);
                self.send_page(place, self.window.len() - 1)?;
            }
        }
        Ok(())
    }

    fn acked(&mut self, attempt: u64, place: u64) {
        let end = self.base + self.window.len() as u64;
        if attempt == self.attempt && self.base < place && place <= end {
            self.window.drain(..(place - self.base) as usize);
            self.base = place;
        }
    }
}

enum State {
    Away,
    Receiving { attempt: u64, next: u64 },
    Running { wanted: bool },
    Copying(Transfer),
    Paused(Transfer, u32),
    Committed { attempt: u64, mine: bool },
}

use State::*;

struct Node {
    me: u64,
    awake: bool,
    took: u64,
    top: u64,
    asked: Option<u64>,
    state: State,
}

impl Node {
    fn new(me: u64, begins: bool) -> Self {
        Node {
            me,
            awake: begins,
            took: 0,
            top: 0,
            asked: None,
            state: if begins { Running { wanted: false } } else { Away },
        }
    }

    fn turn<P: Place>(&mut self, place: &mut P) -> Result<(), Down> {
        let mut left = 256;
        if !self.awake {
            self.took = place.get(0)?;
            self.top = place.get(1)?;
            let committed = place.get(2)?;
            self.awake = true;
            left -= 3;
            if committed == self.top && self.top > 0 && self.top % 2 == self.me {
                self.state = Committed { attempt: self.top, mine: false };
            }
        }
        for _ in 0..64 {
            left -= 1;
            let Some(l) = place.recv()? else {
                break;
            };
            left -= 1;
            self.hear(place, &l)?;
        }
        self.act(place, left - 1)?;
        self.reply(place)
    }

    /// The guest goes on here for an attempt.
    fn resume<P: Place>(&mut self, place: &mut P, t: u64, wanted: bool) -> Result<(), Down> {
        place.resume(t)?;
        self.took = t;
        self.state = Running { wanted };
        Ok(())
    }

    fn hear<P: Place>(&mut self, place: &mut P, l: &Letter) -> Result<(), Down> {
        let (t, s, page) = (l[1], l[2], l[3]);
        match (l[0], &mut self.state) {
            (PROBE, state) => {
                self.asked = Some(t);
                if t > self.top && matches!(state, Away | Receiving { .. } | Committed { .. }) {
                    place.keep(1, t)?;
                    self.top = t;
                    self.state = Receiving { attempt: t, next: 0 };
                }
            }
            (PAGE, Receiving { attempt, next }) => {
                if *attempt == t && *next == s && page < PAGES as u64 {
                    place.put(page as usize, &l[8..])?;
                    *next += 1;
                }
            }
            (COMMIT, state) => {
                self.asked = Some(t);
                if matches!(state, Receiving { attempt, .. } if *attempt == t) {
                    self.resume(place, t, false)?;
                }
            }
            (ACK, Copying(x) | Paused(x, _)) => x.acked(t, s),
            (REFUSE, Copying(x)) if x.attempt == t => self.state = Running { wanted: true },
            (REFUSE, Paused(x, _)) if x.attempt == t => self.resume(place, t, true)?,
            (REFUSE | TAKEN, Committed { attempt, mine }) if *attempt == t => {
                if l[0] == REFUSE && *mine {
                    self.resume(place, t, true)?;
                } else {
                    self.state = Away;
                }
            }
            _ => {}
        }
        Ok(())
    }

    fn act<P: Place>(&mut self, place: &mut P, most: usize) -> Result<(), Down> {
        match std::mem::replace(&mut self.state, Away) {
            Running { wanted } => {
                let wanted = wanted || place.told()?;
                self.state = Running { wanted };
                if wanted {
                    let attempt = self.top + if (self.top + 1) % 2 == self.me { 1 } else { 2 };
                    place.keep(1, attempt)?;
                    self.top = attempt;
                    let mut x = Transfer {
                        attempt,
                        base: 0,
                        window: VecDeque::with_capacity(WINDOW),
                        unsent: (0..PAGES).collect(),
                        cursor: 0,
                        turns: 0,
                        prev: NEVER,
                    };
                    x.go_on(place, most - 2)?;
                    self.state = Copying(x);
                }
            }
            Copying(mut x) => {
                let over = x.over();
                if over {
                    x.pass(x.turns);
                }
                if over && x.prev <= LONG_PASS {
                    place.stop()?;
                    x.go_on(place, most - 1)?;
                    self.state = Paused(x, 1);
                } else {
                    x.go_on(place, most)?;
                    self.state = Copying(x);
                }
            }
            Paused(mut x, turns) => {
                if x.over() {
                    place.keep(2, x.attempt)?;
                    self.state = Committed { attempt: x.attempt, mine: true };
                    place.send(letter(COMMIT, x.attempt, 0))?;
                } else if turns >= LONG_PAUSE {
                    x.pass(NEVER);
                    place.resume(x.attempt)?;
                    self.took = x.attempt;
                    x.go_on(place, most - 1)?;
                    self.state = Copying(x);
                } else {
                    x.go_on(place, most)?;
                    self.state = Paused(x, turns + 1);
                }
            }
            Committed { attempt, mine } => {
                self.state = Committed { attempt, mine };
                place.send(letter(COMMIT, attempt, 0))?;
            }
            other => self.state = other,
        }
        Ok(())
    }

    fn reply<P: Place>(&mut self, place: &mut P) -> Result<(), Down> {
        let Some(t) = self.asked.take() else {
            return Ok(());
        };
        place.send(match self.state {
            Copying(_) | Paused(..) | Committed { .. } => return Ok(()),
            Receiving { attempt, next } if attempt == t => letter(ACK, t, next),
            _ if self.took >= t => letter(TAKEN, t, 0),
            _ => letter(REFUSE, t, 0),
        })
    }
}

/// The hosts, both nodes, and whether the last round was late.
struct Play<W> {
    hosts: Hosts,
    nodes: [Node; 2],
    late: bool,
    out: W,
}

impl<W: io::Write> Play<W> {
    fn new(out: W) -> Self {
        Play {
            hosts: Hosts::new(),
            nodes: [Node::new(0, true), Node::new(1, false)],
            late: false,
            out,
        }
    }

    fn anew(&mut self) {
        self.hosts.reset();
        self.nodes = [Node::new(0, true), Node::new(1, false)];
        self.late = false;
    }

    fn turn(&mut self, who: Who) -> io::Result<()> {
        self.hosts.seat(who);
        let node = &mut self.nodes[who as usize];
        if node.turn(&mut self.hosts).is_err() {
            self.hosts.renew();
            *node = Node::new(who as u64, false);
        }
        for (what, host) in self.hosts.log.drain(..) {
            match what {
                What::Stop => writeln!(self.out, "stop {}", host.number())?,
                What::Resume => writeln!(self.out, "resume {}", host.number())?,
                What::Fall => writeln!(self.out, "fall {}", host.number())?,
                What::Lost => writeln!(self.out, "lost")?,
            }
        }
        Ok(())
    }

    fn rounds(&mut self, many: u32) -> io::Result<()> {
        for _ in 0..many {
            self.hosts.between();
            self.turn(Who::Zero)?;
            self.turn(Who::One)?;
            let late = !self.hosts.in_time();
            self.hosts.round();
            if late && !self.late {
                writeln!(self.out, "late")?;
            }
            self.late = late;
        }
        Ok(())
    }

    /// A line's command; `None` where it is none.
    fn obey(&mut self, line: &[u8]) -> Option<io::Result<()>> {
        let text = std::str::from_utf8(line).ok()?;
        let words: Vec<&str> = text.split(' ').collect();
        match words[..] {
            ["move"] => {
                if !self.hosts.runs || self.hosts.wish {
                    return Some(writeln!(self.out, "no"));
                }
                self.hosts.plan.wish = true;
                self.hosts.between();
            }
            ["round", n] => return Some(self.rounds(number(n)?)),
            ["write", page, word] => {
                let page = number::<u64>(page)?;
                let word = number(word)?;
                if page >= PAGES as u64 {
                    return None;
                }
                if !self.hosts.runs {
                    return Some(writeln!(self.out, "no"));
                }
                self.hosts.plan.write = Some(Write {
                    page: page as usize,
                    word,
                });
                self.hosts.between();
            }
            ["fall", host, ask, side] => {
                let host = ["0", "1"].iter().position(|h| *h == host)?;
                let ask = number(ask).filter(|n| *n > 0)?;
                let after = match side {
                    "before" => false,
                    "after" => true,
                    _ => return None,
                };
                self.hosts.plan.falls[host] = Fall { ask, after };
            }
            ["lose", n] => self.hosts.plan.lose = number(n).filter(|n| *n > 0)?,
            ["again"] => {
                if !self.hosts.sides[1].kept.is_empty() {
                    self.hosts.plan.again = self.hosts.plan.again.saturating_add(1);
                }
            }
            ["any", seed, n] => {
                let seed = number(seed)?;
                let many = number(n)?;
                self.hosts.plan.random = true;
                self.hosts.plan.word = seed;
                let played = self.rounds(many);
                self.hosts.plan.random = false;
                return Some(played);
            }
            ["where"] => {
                let how = match (self.hosts.runs, self.hosts.lost) {
                    (true, _) => "runs",
                    (false, true) => "lost",
                    (false, false) => "stands",
                };
                return Some(writeln!(self.out, "{how} {}", self.hosts.last.number()));
            }
            ["anew"] => self.anew(),
            _ => return None,
        }
        Some(Ok(()))
    }
}

/// A number in its one spelling: digits, and no nought in front.
fn number<T: std::str::FromStr>(text: &str) -> Option<T> {
    match text.as_bytes() {
        [b'+', ..] | [b'0', _, ..] => None,
        _ => text.parse().ok(),
    }
}

fn main() -> io::Result<()> {
    let mut input = io::stdin().lock();
    let mut play = Play::new(BufWriter::new(io::stdout().lock()));
    let mut line = Vec::new();
    let mut n = 0u64;
    loop {
        line.clear();
        if input.read_until(b'\n', &mut line)? == 0 {
            return play.out.flush();
        }
        n += 1;
        if line.last() == Some(&b'\n') {
            line.pop();
        }
        match play.obey(&line) {
            Some(done) => done?,
            None => writeln!(play.out, "line {n}?")?,
        }
    }
}
