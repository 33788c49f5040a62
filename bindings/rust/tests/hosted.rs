//! Tasks that stop where they ask their host.

use std::panic::{catch_unwind, AssertUnwindSafe};
use std::thread;

use telgovan::{assemble, Error, Event, Executed, Helpers, HostedTask, Piece, Program, Question};

fn helpers() -> Helpers<'static> {
    let mut helpers = Helpers::new();
    helpers
        .register(64, 1, |key, _, _, _, _| 10 * key)
        .expect("an id");
    helpers
        .register(65, 2, |a, b, _, _, _| a.wrapping_add(b))
        .expect("an id");
    helpers
}

fn program(helpers: &Helpers<'_>) -> Program {
    let code = assemble(include_str!("../../../examples/ask.bpf")).expect("a program");
    Program::verify_with(2, &code, helpers).expect("accepted")
}

fn number<T: std::fmt::Debug>(result: Result<T, Error>) -> u8 {
    let error = result.expect_err("refused");
    error.number().expect("a refusal")
}

fn asks(helper: u32, first: u64, second: u64) -> Event {
    Event::Asks(Question {
        helper,
        arguments: [first, second, 0, 0, 0],
    })
}

const DONE: Executed = Executed { r0: 70, used: 32 };

#[test]
fn closures_answer() {
    let mut asked = Vec::new();
    let mut helpers = Helpers::new();
    helpers
        .register(64, 1, |key, b, c, d, e| {
            asked.push([key, b, c, d, e]);
            10 * key
        })
        .expect("an id");
    helpers
        .register(65, 2, |a, b, _, _, _| a + b)
        .expect("an id");
    let mut task = program(&helpers).start(32, 0, 2).expect("started");
    let mut memory = [3, 4];
    assert_eq!(task.run(&mut memory, &mut helpers), Ok(DONE));
    assert_eq!(memory, [70, 4]);
    drop(helpers);
    assert_eq!(asked, [[3, 0, 0, 0, 0], [4, 0, 0, 0, 0]]);
}

#[test]
fn an_answer_comes_later() {
    let mut task = program(&helpers()).start(32, 0, 2).expect("started");
    let mut memory = [1, 2];
    assert_eq!(task.go(Some(7), &mut memory, 9), Ok(asks(64, 1, 0)));
    memory[1] = 9;
    assert_eq!(task.go(Some(u64::MAX), &mut memory, 9), Ok(asks(64, 9, 0)));
    assert_eq!(task.go(Some(1), &mut memory, 9), Ok(asks(65, u64::MAX, 1)));
    let ended = Event::Ended(Executed { r0: 5, used: 32 });
    assert_eq!(task.go(Some(5), &mut memory, 9), Ok(ended));
    assert_eq!(number(task.go(Some(5), &mut memory, 9)), 47);
}

#[test]
fn any_slices_come_to_the_same() {
    let mut helpers = helpers();
    let program = program(&helpers);
    for limit in 1..9 {
        let mut task = program.start(40, 0, 2).expect("started");
        let (mut memory, mut answer) = ([3, 4], None);
        let done = loop {
            match task.go(answer, &mut memory, limit).expect("goes on") {
                Event::AtLimit => {}
                Event::Asks(question) => answer = helpers.answer(&question),
                Event::Ended(done) => break done,
            }
        };
        assert_eq!((done, memory), (DONE, [70, 4]), "{limit}");
    }
}

#[test]
fn a_limit_of_nothing_still_answers() {
    let mut task = program(&helpers()).start(32, 0, 2).expect("started");
    let mut memory = [3, 4];
    assert_eq!(task.go(Some(0), &mut memory, 0), Ok(Event::AtLimit));
    assert_eq!(task.go(Some(0), &mut memory, 9), Ok(asks(64, 3, 0)));
    assert_eq!(task.go(Some(30), &mut memory, 0), Ok(Event::AtLimit));
    assert_eq!(task.go(Some(99), &mut memory, 9), Ok(asks(64, 4, 0)));
    assert_eq!(task.go(Some(40), &mut memory, 9), Ok(asks(65, 30, 40)));
}

#[test]
fn refuses_what_is_too_little() {
    let program = program(&helpers());
    let start = |credit, length| number(program.start(credit, 0, length));
    assert_eq!(start(32, usize::MAX), 65);
    assert_eq!(start(31, 2), 42);
    assert_eq!(start(32, 1), 43);
    assert_eq!(start(32, 65_537), 65);
    assert_eq!(start(1 << 31, 2), 65);
    assert_eq!(number(program.execute(&mut [0; 2], 0, 32)), 48);
    let mut memory = [7; 4];
    let pieces = [2, 0, 9].map(|start| Piece {
        start,
        length: 2,
        argument: 0,
    });
    let numbers: Vec<u8> = program
        .burst(&mut memory, &pieces, 32)
        .into_iter()
        .map(number)
        .collect();
    assert_eq!((numbers, memory), (vec![48; 3], [7; 4]));
    assert_eq!(program.burst(&mut memory, &[], 32), []);
    let mut task = program.start(32, 0, 2).expect("started");
    assert_eq!(number(task.go(Some(0), &mut [0; 3], 9)), 43);
    assert_eq!(task.go(Some(0), &mut [0; 2], 9), Ok(asks(64, 0, 0)));
}

#[test]
fn refuses_helpers_that_there_cannot_be() {
    let mut helpers = Helpers::new();
    assert_eq!(number(helpers.register(63, 0, |_, _, _, _, _| 0)), 44);
    assert_eq!(number(helpers.register(128, 0, |_, _, _, _, _| 0)), 44);
    assert_eq!(number(helpers.register(64, 6, |_, _, _, _, _| 0)), 45);
    let code = assemble("call 64\nexit").expect("a program");
    assert_eq!(number(Program::verify_with(0, &code, &helpers)), 37);
    helpers.register(64, 5, |_, _, _, _, _| 0).expect("an id");
    assert_eq!(number(Program::verify_with(0, &code, &helpers)), 31);
    helpers.register(64, 0, |_, _, _, _, _| 9).expect("an id");
    let program = Program::verify_with(0, &code, &helpers).expect("accepted");
    assert_eq!(format!("{helpers:?}"), "{64: 0}");
    let mut task = program.start(9, 0, 0).expect("started");
    drop(program);
    assert_eq!(task.run(&mut [], &mut helpers).expect("ran").r0, 9);
}

#[test]
fn a_helper_that_panics_leaves_the_task() {
    let mut task = program(&helpers()).start(32, 0, 2).expect("started");
    let mut memory = [3, 4];
    let mut panics = Helpers::new();
    panics
        .register(64, 1, |_, _, _, _, _| panic!("no such key"))
        .expect("an id");
    let run = AssertUnwindSafe(|| task.run(&mut memory, &mut panics));
    assert!(catch_unwind(run).is_err());
    // it waits for the answer still
    assert_eq!(task.go(Some(30), &mut memory, 9), Ok(asks(64, 4, 0)));
}

#[test]
fn a_helper_goes_on_with_another_task() {
    let program = program(&helpers());
    let mut task = program.start(32, 0, 2).expect("started");
    let mut nested = Helpers::new();
    nested
        .register(64, 1, |key, _, _, _, _| {
            let mut inner = program.start(32, 0, 2).expect("started");
            let done = inner.run(&mut [key as u8, 1], &mut helpers()).expect("ran");
            done.r0
        })
        .expect("an id");
    nested
        .register(65, 2, |a, b, _, _, _| a + b)
        .expect("an id");
    // each inner task has 10 times the sum of its two bytes
    assert_eq!(task.run(&mut [3, 4], &mut nested).expect("ran").r0, 90);
}

#[test]
fn a_task_goes_to_another_thread() {
    let mut task = program(&helpers()).start(32, 0, 2).expect("started");
    let mut memory = [3, 4];
    assert_eq!(task.go(Some(0), &mut memory, 9), Ok(asks(64, 3, 0)));
    let other = thread::spawn(move || {
        let told = task.go(Some(30), &mut memory, 9);
        (task, memory, told)
    });
    let (mut task, mut memory, told) = other.join().expect("joined");
    assert_eq!(told, Ok(asks(64, 4, 0)));
    assert_eq!(task.go(Some(40), &mut memory, 9), Ok(asks(65, 30, 40)));
}

// A question that waits stays asked until it is answered.

/// A task of the example, and its memory.
fn started() -> (HostedTask, [u8; 2]) {
    let program = program(&helpers());
    let memory = [3, 4];
    let task = program.start(program.cost(), 0, memory.len());
    (task.expect("started"), memory)
}

fn first() -> Question {
    Question {
        helper: 64,
        arguments: [3, 0, 0, 0, 0],
    }
}

/// The helpers of the example without this one.
fn helpers_without(missing: u32) -> Helpers<'static> {
    let mut fewer = Helpers::new();
    for (id, arity) in [(64, 1), (65, 2)] {
        if id != missing {
            let mut all = helpers();
            let answer = move |a, b, c, d, e| {
                let arguments = [a, b, c, d, e];
                let question = Question {
                    helper: id,
                    arguments,
                };
                all.answer(&question).expect("a helper")
            };
            fewer.register(id, arity, answer).expect("an id");
        }
    }
    fewer
}

#[test]
fn a_task_starts_in_one_line() {
    let program = program(&helpers());
    let mut memory = [3, 4];
    let mut task = program
        .start(program.cost(), 0, memory.len())
        .expect("started");
    assert_eq!(task.run(&mut memory, &mut helpers()), Ok(DONE));
    let mut task = HostedTask::start(&program, program.cost(), 0, 2).expect("started");
    assert_eq!(task.run(&mut memory, &mut helpers()).expect("ran").used, 32);
}

#[test]
fn a_run_answers_what_go_was_asked() {
    let (mut task, mut memory) = started();
    assert_eq!(task.go(None, &mut memory, 9), Ok(Event::Asks(first())));
    assert_eq!(task.run(&mut memory, &mut helpers()), Ok(DONE));
    assert_eq!((memory, task.question()), ([70, 4], None));
}

#[test]
fn a_run_without_the_helper_leaves_it_asked() {
    for missing in [64, 65] {
        let (mut task, mut memory) = started();
        for _ in 0..3 {
            let error = task.run(&mut memory, &mut helpers_without(missing));
            let error = error.expect_err("nobody answers");
            let question = task.question().expect("it waits");
            assert_eq!(question.helper, missing);
            assert_eq!(error, Error::Unanswered(question));
            assert_eq!((error.number(), error.slot()), (None, None));
            assert!(error
                .to_string()
                .starts_with(&format!("helper {missing}: ")));
        }
        assert_eq!(task.run(&mut memory, &mut helpers()), Ok(DONE));
    }
}

#[test]
fn a_run_without_the_helper_is_answered_by_go() {
    let (mut task, mut memory) = started();
    let error = task.run(&mut memory, &mut Helpers::new());
    assert_eq!(error, Err(Error::Unanswered(first())));
    assert_eq!(task.go(Some(30), &mut memory, 9), Ok(asks(64, 4, 0)));
    assert_eq!(task.run(&mut memory, &mut helpers()), Ok(DONE));
}

#[test]
fn a_helper_without_an_answer_leaves_it_asked() {
    let (mut task, mut memory) = started();
    let mut failures = 2;
    let mut failing = helpers();
    let answer = |key, _, _, _, _| {
        failures -= u32::from(failures > 0);
        (failures == 0).then(|| 10 * key)
    };
    failing.register_fallible(64, 1, answer).expect("an id");
    let unanswered = Err(Error::Unanswered(first()));
    assert_eq!(task.run(&mut memory, &mut failing), unanswered);
    assert_eq!(task.run(&mut memory, &mut failing), Ok(DONE));
    assert_eq!(
        number(failing.register_fallible(9, 1, |_, _, _, _, _| None)),
        44
    );
    assert_eq!(
        number(failing.register_fallible(64, 6, |_, _, _, _, _| None)),
        45
    );
}

#[test]
fn a_run_goes_on_after_a_helper_that_panicked() {
    let (mut task, mut memory) = started();
    let mut panics = Helpers::new();
    let fails = |_, _, _, _, _| panic!("no such key");
    panics.register(64, 1, fails).expect("an id");
    let run = AssertUnwindSafe(|| task.run(&mut memory, &mut panics));
    assert!(catch_unwind(run).is_err());
    assert_eq!(task.question(), Some(first()));
    assert_eq!(task.run(&mut memory, &mut helpers()), Ok(DONE));
}

#[test]
fn go_without_an_answer_asks_once_more() {
    let (mut task, mut memory) = started();
    for limit in [9, 0, u32::MAX] {
        assert_eq!(task.go(None, &mut memory, 9), Ok(Event::Asks(first())));
        assert_eq!(task.go(None, &mut memory, limit), Ok(Event::Asks(first())));
    }
    assert_eq!(task.go(Some(0), &mut memory, 9), Ok(asks(64, 4, 0)));
    assert_eq!(task.go(Some(40), &mut memory, 9), Ok(asks(65, 0, 40)));
}

#[test]
fn a_refusal_leaves_it_asked() {
    let (mut task, mut memory) = started();
    assert_eq!(task.go(None, &mut memory, 9), Ok(Event::Asks(first())));
    for answer in [None, Some(30)] {
        assert_eq!(number(task.go(answer, &mut [0; 3], 9)), 43);
        assert_eq!(number(task.go(answer, &mut [], 9)), 43);
        assert_eq!(task.question(), Some(first()));
    }
    assert_eq!(number(task.run(&mut [0; 3], &mut helpers())), 43);
    assert_eq!(task.run(&mut memory, &mut helpers()), Ok(DONE));
    assert_eq!(number(task.run(&mut memory, &mut helpers())), 47);
}
