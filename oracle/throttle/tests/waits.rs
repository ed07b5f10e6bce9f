//! Waits written by hand, run on the unchanged wait.rs and circuit.rs.

use std::cell::RefCell;
use std::collections::VecDeque;
use std::rc::Rc;
use std::time::Duration;

use throttle::plain::{Answer, CLOSED, Call, HALF_OPEN, OPEN, Settings, State, Ticket};
use throttle::scripted::Asked;
use throttle::turns::{GRANTED, Handed, Host, LONGEST, NEVER, RETRY, Start, Turn};
use throttle::{Subject, Trip};

const MS: u64 = 1_000_000;

/// What happens to a wait, in order.
enum Item {
    Turn(Handed),
    Call(u64, Call),
}

/// Plays a list, then drops the wait.
#[derive(Default)]
struct Listed {
    items: VecDeque<Item>,
    told: Vec<Answer>,
    asked: Vec<Asked>,
}

impl Host for Listed {
    fn told(&mut self, subject: &Subject, answer: Answer) {
        self.told.push(answer);
        self.asked.extend(&subject.inner().script().asked);
        while let Some(Item::Call(now, call)) = self.items.front() {
            subject.call(*now, call);
            self.items.pop_front();
        }
    }

    fn turn(&mut self, _: &Subject) -> Handed {
        match self.items.pop_front() {
            Some(Item::Turn(handed)) => handed,
            _ => panic!("the list has no turn here"),
        }
    }

    fn goes_on(&mut self, _: &Subject) -> bool {
        !self.items.is_empty()
    }
}

fn breaker(trials: u32) -> Rc<Subject> {
    Rc::new(Subject::new(&Settings {
        trip: Trip::Consecutive(1),
        cooldown: Duration::from_millis(1000),
        trials,
        required: 1,
    }))
}

fn half_open(generation: u64, inflight: u32) -> State {
    State {
        state: HALF_OPEN,
        generation,
        inflight,
        ..State::default()
    }
}

fn play(subject: &Rc<Subject>, start: Start, items: Vec<Item>) -> Listed {
    let items = items.into();
    let host = Rc::new(RefCell::new(Listed {
        items,
        ..Listed::default()
    }));
    subject.wait(&start, &host);
    Rc::into_inner(host)
        .expect("the wait keeps no host")
        .into_inner()
}

/// What a wait on a fresh breaker comes to, after its start.
fn told(start: Start, turns: &[Turn]) -> Vec<Answer> {
    let items = turns.iter().map(|&turn| handed(turn)).collect();
    let told = play(&breaker(1), start, items).told;
    assert_eq!(told[0], Answer::BEGUN);
    told[1..].to_vec()
}

fn handed(turn: Turn) -> Item {
    Item::Turn(Handed {
        turn,
        capacity: 7,
        ..Handed::default()
    })
}

fn unlimited(clock: u64) -> Start {
    Start {
        clock,
        ..Start::default()
    }
}

fn within(clock: u64, timeout: u64) -> Start {
    Start {
        clock,
        limited: true,
        timeout,
        ..Start::default()
    }
}

fn turn(clock: u64, kind: u64, duration: u64) -> Turn {
    Turn {
        clock,
        kind,
        duration,
        ..Turn::default()
    }
}

fn paused(pause: u64, turn: Turn) -> Turn {
    Turn { pause, ..turn }
}

fn epochs(epoch_before: u64, epoch_after: u64, turn: Turn) -> Turn {
    Turn {
        epoch_before,
        epoch_after,
        ..turn
    }
}

fn postponed(postponed_before: u64, postponed_after: u64, turn: Turn) -> Turn {
    Turn {
        postponed_before,
        postponed_after,
        ..turn
    }
}

fn done(generation: u64, probe: bool) -> Answer {
    Answer::done(Ticket { generation, probe })
}

#[test]
fn p12_four_yields_then_the_deadline() {
    let zeros = [turn(5, RETRY, 0); 5];
    let yields = [Answer::YIELD; 4];
    let expected = [&yields[..], &[Answer::deadline(0)]].concat();
    assert_eq!(told(within(5, 0), &zeros), expected);
}

#[test]
fn a_retry_of_0_may_come_from_a_peek_that_acquires() {
    let zero = |acquired| Handed {
        turn: turn(5, RETRY, 0),
        acquired,
        ..Handed::default()
    };
    for acquired in [false, true] {
        let items = (0..5).map(|_| Item::Turn(zero(acquired))).collect();
        let told = play(&breaker(1), within(5, 0), items).told;
        assert_eq!(told[1..5], [Answer::YIELD; 4]);
        assert_eq!(told[5], Answer::deadline(0));
    }
}

#[test]
fn a_long_row_of_zeros_naps_a_millisecond_or_what_remains() {
    let mut zeros = vec![turn(0, RETRY, 0); 6];
    zeros.push(turn(MS + 1, RETRY, 0));
    zeros.push(turn(MS + 2, RETRY, 0));
    let told = told(within(0, 2 * MS), &zeros);
    let naps = [MS, MS, MS - 1, MS - 2].map(Answer::sleep);
    let dropped = [Answer::dropped(0)];
    assert_eq!(told[4..], [&naps[..], &dropped].concat());
}

#[test]
fn a_longer_retry_clears_the_row_also_where_it_looks_again() {
    let zero = turn(0, RETRY, 0);
    let cleared = epochs(1, 2, turn(0, RETRY, 1));
    let turns = [
        zero, zero, zero, zero, cleared, zero, zero, zero, zero, zero,
    ];
    let told = told(unlimited(0), &turns);
    assert_eq!(told[4], Answer::LOOK_AGAIN);
    assert_eq!(told[5..9], [Answer::YIELD; 4]);
    assert_eq!(told[9], Answer::sleep(MS));
}

#[test]
fn a_retry_equal_to_what_remains_passes() {
    let start = within(100, 10);
    let at = |duration| told(start, &[turn(104, RETRY, duration)]);
    assert_eq!(at(6), [Answer::sleep(6), Answer::dropped(0)]);
    assert_eq!(at(7), [Answer::deadline(0)]);
    assert_eq!(
        told(start, &[turn(0, RETRY, 110)]),
        [Answer::sleep(110), Answer::dropped(0)]
    );
}

#[test]
fn the_deadline_comes_before_a_new_look_and_a_yield_is_no_nap() {
    let long = epochs(1, 2, turn(0, RETRY, 11));
    assert_eq!(told(within(0, 10), &[long]), [Answer::deadline(0)]);
    let zero = epochs(1, 2, turn(0, RETRY, 0));
    assert_eq!(
        told(unlimited(0), &[zero]),
        [Answer::YIELD, Answer::dropped(0)]
    );
}

#[test]
fn a_pause_makes_the_nap_resumable() {
    let nap = paused(9, epochs(3, 3, turn(0, RETRY, 4)));
    let expected = [Answer::sleep_unless_resumed(4, 3), Answer::dropped(0)];
    assert_eq!(told(unlimited(0), &[nap]), expected);
}

#[test]
fn a_grant_of_0_is_checked_in_its_turn() {
    assert_eq!(told(within(5, 0), &[turn(9, GRANTED, 0)]), [done(0, false)]);
    let held = paused(1, epochs(3, 4, turn(9, GRANTED, 0)));
    let expected = [Answer::sleep_unless_resumed(1, 4), Answer::dropped(1)];
    assert_eq!(told(within(8, 2), &[held]), expected);
    assert_eq!(told(within(8, 1), &[held]), [Answer::deadline(1)]);
}

#[test]
fn a_grant_sleeps_its_duration_whatever_remains() {
    let turns = [turn(0, GRANTED, 50), turn(50, NEVER, 0)];
    let expected = [Answer::sleep(50), done(0, false)];
    assert_eq!(told(within(0, 10), &turns), expected);
    let early = [turns[0], turn(49, NEVER, 0)];
    let expected = [Answer::sleep(50), Answer::deadline(1)];
    assert_eq!(told(within(0, 10), &early), expected);
}

#[test]
fn a_postponement_moves_due_and_never_back() {
    let turns = [
        postponed(10, 99, turn(0, GRANTED, 50)),
        postponed(0, 14, turn(50, RETRY, 0)),
        postponed(0, 3, turn(50, RETRY, 0)),
        postponed(0, 15, turn(54, RETRY, 0)),
        postponed(0, 15, turn(55, RETRY, 0)),
    ];
    let naps = [50, 4, 4, 1].map(Answer::sleep);
    let expected = [&naps[..], &[done(0, false)]].concat();
    assert_eq!(told(unlimited(0), &turns), expected);
}

#[test]
fn the_longest_times_fit() {
    let grant = turn(LONGEST, GRANTED, LONGEST);
    let moved = postponed(0, LONGEST, turn(0, RETRY, 0));
    let naps = [LONGEST, 3 * LONGEST].map(Answer::sleep);
    let expected = [&naps[..], &[Answer::dropped(1)]].concat();
    assert_eq!(told(unlimited(LONGEST), &[grant, moved]), expected);
}

#[test]
fn never_tells_cost_and_capacity() {
    let never = [turn(0, NEVER, 0)];
    assert_eq!(told(unlimited(0), &never), [Answer::never(1, 7)]);
}

#[test]
fn a_shed_start_takes_no_turn() {
    let subject = breaker(1);
    subject.set_state(&half_open(4, 1));
    let told = play(&subject, unlimited(0), Vec::new()).told;
    assert_eq!(told, [Answer::shed(0)]);
    assert_eq!(subject.state(), half_open(4, 1));
}

#[test]
fn every_end_without_a_permit_frees_the_trial() {
    let start = within(0, 0);
    let looking = vec![handed(turn(0, RETRY, 0))];
    let late = vec![handed(turn(0, RETRY, 1))];
    let never = vec![handed(turn(0, NEVER, 0))];
    let held = vec![handed(turn(0, GRANTED, 1))];
    for items in [looking, late, never, held] {
        let subject = breaker(2);
        subject.set_state(&half_open(4, 1));
        play(&subject, start, items);
        assert_eq!(subject.state(), half_open(4, 1));
    }
    let subject = breaker(2);
    subject.set_state(&half_open(4, 1));
    let told = play(&subject, start, vec![handed(turn(0, GRANTED, 0))]).told;
    assert_eq!(told[1], done(4, true));
    assert_eq!(subject.state(), half_open(4, 2));
}

#[test]
fn a_breaker_that_opened_meanwhile_sheds_at_completion() {
    let fails = Item::Call(10, Call::Record { success: false });
    let grant = Item::Turn(Handed {
        now_ms: 30,
        turn: turn(0, GRANTED, 0),
        ..Handed::default()
    });
    let subject = breaker(1);
    let told = play(&subject, unlimited(0), vec![fails, grant]).told;
    assert_eq!(told, [Answer::BEGUN, Answer::shed_late(980, 1)]);
    assert_eq!(subject.state().state, OPEN);
}

#[test]
fn a_breaker_that_closed_meanwhile_lets_the_waiter_go() {
    let subject = breaker(1);
    subject.set_state(&half_open(4, 0));
    let look = epochs(1, 2, turn(0, RETRY, 1));
    let items = vec![
        handed(look),
        Item::Call(0, Call::Reset),
        handed(turn(0, GRANTED, 0)),
    ];
    let told = play(&subject, unlimited(0), items).told;
    assert_eq!(told, [Answer::BEGUN, Answer::LOOK_AGAIN, done(4, true)]);
    assert_eq!(subject.state().state, CLOSED);
}

#[test]
fn a_look_asks_with_its_budget_and_a_held_check_asks_nothing() {
    let turns = [turn(4, RETRY, 1), turn(5, GRANTED, 3), turn(8, RETRY, 0)];
    let items = turns.map(handed).into();
    let asked = play(&breaker(1), within(0, 10), items).asked;
    let reserve = |nanos| Asked::Reserve(1, Duration::from_nanos(nanos));
    assert_eq!(asked, [reserve(6), Asked::Peek(1), reserve(5)]);
    let asked = play(&breaker(1), unlimited(0), vec![handed(turns[1])]).asked;
    assert_eq!(asked[0], Asked::Reserve(1, Duration::MAX));
}
