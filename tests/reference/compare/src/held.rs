//! One input of one call, held against the reference: the answer and every lent column, whole.

use std::fmt::Debug;

use reference::answer::Answer;
use reference::book::{judge_book, read_book, write_book};
use reference::census::Census;
use reference::check::{check_by_pairs, check_by_ticks};
use reference::corners::{corners_from_starts, starts_from_corners};
use reference::exports::{export_check, export_holder, export_next_start, ANSWER_BYTES};
use reference::limits::NO_PROBE;
use reference::line::Line;
use reference::random::Random;
use reference::shape::{longest_period, rows};
use reference::table::judge_table;
use reference::{pages, plan, timetable};

use crate::calls;
use crate::classes::COUNTS;
use crate::programs::{Arrival, Program};
use crate::rooms::{guard_bytes, guards, room};

/// What a run has done so far.
#[derive(Default)]
pub struct Run {
    pub census: Census,
    pub calls: u64,
    pub wrong: u64,
}

/// Failing inputs that are printed whole; later ones are only counted.
const SHOWN: u64 = 5;

/// Room that a page call asks for: 257 lines of four 32-bit numbers, or one line of three and a 64-bit one, each with what ends it.
const PLAN_ROOM: usize = 257 * 4 * 11;
const CHECK_ROOM: usize = 3 * 11 + 21;

/// The number that a page begins with.
fn first_number(page: &str) -> u32 {
    let word = page.split(' ').next().unwrap_or("");
    word.parse().expect("a page begins with a number")
}

impl Run {
    /// Holds a result of the line against the reference's.
    fn hold<T: PartialEq + Debug>(
        &mut self,
        call: &str,
        input: &dyn Debug,
        got: (Answer, T),
        wanted: (Answer, T),
    ) {
        self.census.note_number(call, wanted.0);
        self.same(call, input, got, wanted);
    }

    /// Counts a call, and shows its input where the two results differ.
    fn same<T: PartialEq + Debug>(&mut self, call: &str, input: &dyn Debug, got: T, wanted: T) {
        self.calls += 1;
        if got == wanted {
            return;
        }
        self.wrong += 1;
        if self.wrong <= SHOWN {
            println!("{call} differs\n  input {input:?}\n  got {got:?}\n  wanted {wanted:?}");
        }
    }

    pub fn validate(&mut self, line: &Line) {
        self.census.note_table(line);
        let got = calls::validate(&line.periods, &line.lengths);
        let wanted = judge_table(&line.periods, &line.lengths);
        self.hold("validate", line, (got, ()), (wanted, ()));
    }

    pub fn plan(&mut self, random: &mut Random, line: &Line) {
        let sound = judge_table(&line.periods, &line.lengths).is_done();
        let h = if sound { rows(&line.periods) } else { 3 };
        let rooms = (room(random, line.n()), room(random, h as usize));
        type Plan = fn(&[u32], &[u32], &mut [u32], &mut [u32]) -> Answer;
        let by = |call: Plan| {
            let (mut starts, mut fills) = (guards(rooms.0), guards(rooms.1));
            let answer = call(&line.periods, &line.lengths, &mut starts, &mut fills);
            (answer, (starts, fills))
        };
        self.hold("plan", &(line, rooms), by(calls::plan), by(plan::plan));
    }

    /// Corners of the starts; then the way back from these corners, and from others.
    pub fn rectangles(&mut self, random: &mut Random, line: &Line) {
        let n = line.n();
        let rooms = (room(random, n), room(random, n));
        type ToCorners = fn(&[u32], &[u32], &[u32], &mut [u32], &mut [u32]) -> Answer;
        let by = |call: ToCorners| {
            let (mut xs, mut ys) = (guards(rooms.0), guards(rooms.1));
            let answer = call(&line.periods, &line.lengths, &line.starts, &mut xs, &mut ys);
            (answer, (xs, ys))
        };
        let (answer, (mut xs, mut ys)) = by(corners_from_starts);
        let wanted = (answer, (xs.clone(), ys.clone()));
        self.hold("to_corners", &(line, rooms), by(calls::to_corners), wanted);
        if answer.is_done() {
            xs.truncate(n);
            ys.truncate(n);
        } else {
            // A table that is refused has no corners: any will do, mostly as many as probes.
            let count = |random: &mut Random| n + usize::from(random.once_in(16));
            xs = vec![0; count(random)];
            ys = vec![0; count(random)];
        }
        self.way_back(random, line, &xs, &ys, answer.is_done());
        if n > 0 && xs.len() >= n && ys.len() >= n {
            for column in [&mut xs, &mut ys] {
                let i = random.below(n as u64) as usize;
                let by = random.choose(&[0, 1, 2, 4_096, NO_PROBE]);
                column[i] = column[i].wrapping_add(by);
            }
            self.way_back(random, line, &xs, &ys, false);
        }
    }

    /// The way back; it gives the starts themselves where `exact` says that the corners are theirs.
    fn way_back(&mut self, random: &mut Random, line: &Line, xs: &[u32], ys: &[u32], exact: bool) {
        let room = room(random, line.n());
        type ToStarts = fn(&[u32], &[u32], &[u32], &[u32], &mut [u32]) -> Answer;
        let by = |call: ToStarts| {
            let mut starts = guards(room);
            let answer = call(&line.periods, &line.lengths, xs, ys, &mut starts);
            (answer, starts)
        };
        let wanted = by(starts_from_corners);
        if exact && wanted.0.is_done() {
            assert_eq!(
                wanted.1[..line.n()],
                line.starts,
                "the reference's way back"
            );
        }
        self.hold(
            "to_starts",
            &(line, xs, ys, room),
            by(calls::to_starts),
            wanted,
        );
    }

    /// The checker; small lines are walked tick by tick.
    pub fn check(&mut self, line: &Line) {
        let (periods, lengths, starts) = (&line.periods, &line.lengths, &line.starts);
        let small = line.n() <= 16 && longest_period(periods) <= 400;
        let wanted = if small {
            check_by_ticks(periods, lengths, starts)
        } else {
            check_by_pairs(periods, lengths, starts)
        };
        self.census.note_first_tick(line, wanted);
        let got = calls::check(periods, lengths, starts);
        self.hold("check", line, (got, ()), (wanted, ()));
    }

    pub fn timetable(&mut self, line: &Line, tick: u64) {
        let (periods, lengths, starts) = (&line.periods, &line.lengths, &line.starts);
        let wanted = timetable::holder(periods, lengths, starts, tick);
        if wanted == Answer::done_with(NO_PROBE) {
            self.census.note("holder: idle");
        }
        let got = calls::holder(periods, lengths, starts, tick);
        self.hold("holder", &(line, tick), (got, ()), (wanted, ()));
        let wanted = timetable::next_start(periods, lengths, starts, tick);
        if wanted == Answer::done_with(NO_PROBE) {
            self.census.note("next_start: none");
        }
        let got = calls::next_start(periods, lengths, starts, tick);
        self.hold("next_start", &(line, tick), (got, ()), (wanted, ()));
    }

    /// Writes the line, and gives the bytes of its book where there is one.
    pub fn write(&mut self, random: &mut Random, line: &Line) -> Option<Vec<u8>> {
        let book = line.to_book().ok();
        let room = room(random, book.as_ref().map_or(512, Vec::len));
        type Write = fn(&[u32], &[u32], &[u32], &mut [u8]) -> Answer;
        let by = |call: Write| {
            let mut bytes = guard_bytes(room);
            let answer = call(&line.periods, &line.lengths, &line.starts, &mut bytes);
            (answer, bytes)
        };
        self.hold("write", &(line, room), by(calls::write), by(write_book));
        book
    }

    /// Reads a book of any bytes into columns with about n entries.
    pub fn read(&mut self, random: &mut Random, book: &[u8], n: usize) {
        let mut rooms = [n + 2; 3];
        if random.once_in(2) {
            rooms = [0; 3].map(|_| room(random, n));
        }
        type Read = fn(&[u8], &mut [u32], &mut [u32], &mut [u32]) -> Answer;
        let by = |call: Read| {
            let [mut periods, mut lengths, mut starts] = rooms.map(guards);
            let answer = call(book, &mut periods, &mut lengths, &mut starts);
            (answer, (periods, lengths, starts))
        };
        self.hold("read", &(book, rooms), by(calls::read), by(read_book));
    }

    /// The two page calls on a book of any bytes: the answer, the page, and every byte past it.
    pub fn pages(&mut self, random: &mut Random, book: &[u8]) {
        type Print = fn(&[u8], &mut [u8]) -> Answer;
        let calls: [(&str, Print, String, usize); 2] = [
            (
                "plan_page",
                calls::plan_page,
                pages::plan_page(book),
                PLAN_ROOM,
            ),
            (
                "check_page",
                calls::check_page,
                pages::check_page(book),
                CHECK_ROOM,
            ),
        ];
        for (call, print, page, needed) in calls {
            let room = room(random, needed);
            self.census.note(match room {
                room if room < needed => "page: no room",
                room if room == needed => "page: room for the longest",
                _ => "page: more room",
            });
            let (mut got, mut wanted) = (guard_bytes(room), guard_bytes(room));
            let answer = print(book, &mut got);
            let due = if room < needed {
                Answer::plain(7)
            } else {
                wanted[..page.len()].copy_from_slice(page.as_bytes());
                let number = Answer::plain(first_number(&page));
                self.census.note_number(&format!("{call} prints"), number);
                Answer::done_with(page.len() as u32)
            };
            self.hold(call, &(book, room), (answer, got), (due, wanted));
        }
    }

    /// An export on a book of any bytes: the number, and all lent bytes.
    fn export(&mut self, random: &mut Random, call: &str, by: [Export; 2], book: &[u8], tick: u64) {
        let room = room(random, ANSWER_BYTES);
        self.census.note(match room {
            room if room < ANSWER_BYTES => "lent: fewer than 20 bytes",
            ANSWER_BYTES => "lent: 20 bytes",
            _ => "lent: more than 20 bytes",
        });
        let [got, wanted] = by.map(|call| {
            let mut lent = guard_bytes(room);
            (call(book, tick, &mut lent), lent)
        });
        self.census.note_number(call, Answer::plain(wanted.0));
        if wanted.0 == 0 && wanted.1[4..8] == NO_PROBE.to_le_bytes() {
            self.census.note(match call {
                "line_holder" => "line_holder: idle",
                _ => "line_next_start: none",
            });
        }
        self.same(call, &(book, tick, room), got, wanted);
    }

    /// The checker's export.
    pub fn export_check(&mut self, random: &mut Random, book: &[u8]) {
        if let Some(n) = judge_book(book).ok().filter(|n| COUNTS.contains(n)) {
            self.census.note(&format!("book of {n} probes"));
        }
        let by: [Export; 2] = [calls::line_check, |book, _, lent| export_check(book, lent)];
        self.export(random, "line_check", by, book, 0);
    }

    /// The timetable's two exports.
    pub fn export_ticks(&mut self, random: &mut Random, book: &[u8], tick: u64) {
        let by: [Export; 2] = [calls::line_holder, export_holder];
        self.export(random, "line_holder", by, book, tick);
        let by: [Export; 2] = [calls::line_next_start, export_next_start];
        self.export(random, "line_next_start", by, book, tick);
    }

    /// Both programs as processes, with the book arriving in this way: what they print, and that they end well.
    pub fn programs(&mut self, random: &mut Random, book: &[u8], arrival: Arrival) {
        if let Some(n) = judge_book(book).ok().filter(|n| COUNTS.contains(n)) {
            self.census.note(&format!("program, {n} probes"));
        }
        for program in Program::ALL {
            let page = match program {
                Program::Plan => pages::plan_page(book),
                Program::Check => pages::check_page(book),
            };
            self.census.note(arrival.class());
            self.census.note(match book.len() {
                0 => "program: no input",
                3_585 => "program: 3,585 bytes",
                4_096 => "program: 4,096 bytes",
                100_000 => "program: 100,000 bytes",
                size if size <= 3_584 => "program: at most 3,584 bytes",
                _ => "program: other sizes",
            });
            let name = program.name();
            let number = Answer::plain(first_number(&page));
            self.census.note_number(name, number);
            let got = program.run(random, book, arrival);
            self.same(name, &(book, arrival), got, Ok(page));
        }
    }
}

/// An export, or the reference's.
type Export = fn(&[u8], u64, &mut [u8]) -> u32;
