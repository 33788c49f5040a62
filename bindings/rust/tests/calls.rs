//! The library's calls, through the wrapper.

use std::sync::{mpsc, Arc};
use std::thread;

use telgovan::{assemble, disassemble, graph, trace, Error, Executed, Job, Piece, Program, Task};

fn code(source: &str) -> Vec<u8> {
    assemble(source).expect("a program")
}

fn program(need: u32, source: &str) -> Program {
    Program::verify(need, &code(source)).expect("accepted")
}

fn number(error: Error) -> u8 {
    error.number().expect("a refusal")
}

fn filter() -> Program {
    program(40, include_str!("../../../examples/filter.bpf"))
}

fn packet(port: u8) -> [u8; 64] {
    let mut packet = [0; 64];
    packet[12] = 8;
    packet[14] = 0x45;
    packet[23] = 17;
    packet[37] = port;
    packet
}

#[test]
fn runs_the_filter() {
    let filter = filter();
    assert_eq!((filter.need(), filter.cost()), (40, 16));
    for _ in 0..3 {
        assert_eq!(
            filter.execute(&mut packet(53), 0, 16),
            Ok(Executed { r0: 1, used: 16 })
        );
        assert_eq!(filter.execute(&mut packet(54), 0, 16).expect("ran").r0, 0);
    }
}

#[test]
fn refuses_what_is_too_little() {
    let filter = filter();
    let number = |result: Result<Executed, Error>| number(result.expect_err("refused"));
    assert_eq!(number(filter.execute(&mut packet(53), 0, 15)), 42);
    assert_eq!(number(filter.execute(&mut [0; 39], 0, 16)), 43);
    assert_eq!(number(filter.execute(&mut vec![0; 65_537], 0, 16)), 65);
    assert_eq!(
        filter
            .execute(&mut packet(53), 0, 16)
            .expect("held as before")
            .r0,
        1
    );
}

#[test]
fn runs_pieces_in_turn() {
    let mut memory = [packet(53), packet(54), packet(53)].concat();
    let piece = |start, length| Piece {
        start,
        length,
        argument: 0,
    };
    let pieces = [
        piece(0, 64),
        piece(64, 64),
        piece(128, 64),
        piece(128, 65),
        piece(usize::MAX, 1),
    ];
    let told = filter().burst(&mut memory, &pieces, 16);
    let r0s: Vec<Option<u64>> = told
        .iter()
        .map(|run| run.ok().map(|done| done.r0))
        .collect();
    assert_eq!(r0s, [Some(1), Some(0), Some(1), None, None]);
    assert!(told[3..]
        .iter()
        .all(|run| number(run.expect_err("no such piece")) == 43));
}

#[test]
fn leaves_what_a_run_leaves() {
    let store = program(1, "stxb [r1+0], r3\nmov64 r0, 0\nexit");
    let mut memory = [9, 9, 9];
    let piece = |start, argument| Piece {
        start,
        length: 1,
        argument,
    };
    store.burst(&mut memory, &[piece(2, 7), piece(0, 8)], 3);
    assert_eq!(memory, [8, 9, 7]);
}

#[test]
fn tells_where_a_refusal_stands() {
    let halt = Error::AtLine {
        number: 11,
        line: 2,
    };
    assert_eq!(assemble("exit\nhalt"), Err(halt));
    let refusal = |need, source| Program::verify(need, &code(source)).expect_err("refused");
    let goes_back = Error::AtSlot {
        number: 23,
        slot: 0,
    };
    assert_eq!(refusal(0, "ja -1"), goes_back);
    let too_large = Error::Refused { number: 38 };
    assert_eq!(refusal(65_537, "ja -1"), too_large);
    for (error, number, slot, line) in [
        (halt, 11, None, Some(2)),
        (goes_back, 23, Some(0), None),
        (too_large, 38, None, None),
    ] {
        assert_eq!(error.number(), Some(number));
        assert_eq!(
            (error.slot(), error.line(), error.program()),
            (slot, line, None)
        );
    }
}

#[test]
fn a_refusal_has_words() {
    let halt = Error::AtLine {
        number: 11,
        line: 2,
    };
    let told = format!("refused 11 in line 2: {}", halt.text());
    assert_eq!(halt.to_string(), told);
    let goes_back = Error::AtSlot {
        number: 23,
        slot: 0,
    };
    let told = format!("refused 23 at slot 0: {}", goes_back.text());
    assert_eq!(goes_back.to_string(), told);
    let unset = Error::InProgram {
        number: 31,
        program: 1,
        slot: Some(0),
    };
    let told = format!("refused 31 at slot 0 of program 1: {}", unset.text());
    assert_eq!(unset.to_string(), told);
    // one of a later version
    let later = Error::Refused { number: 250 };
    assert_eq!(later.to_string(), "refused 250: an unknown refusal");
    assert!(!later.advice().is_empty());
    let own: Box<dyn std::error::Error + Send + Sync> = halt.into();
    assert_eq!(own.downcast_ref(), Some(&halt));
}

#[test]
fn each_refusal_that_a_call_answers_has_words() {
    let answered = (1..=7).chain(11..=13).chain(21..=25).chain(31..=38);
    let answered = answered.chain([41, 42, 43, 44, 45, 47, 48]).chain(61..=65);
    for number in answered.chain([71, 76, 78, 99]) {
        let error = Error::Refused { number };
        assert_ne!(error.text(), Error::Refused { number: 250 }.text());
        assert!(!error.advice().is_empty());
    }
}

#[test]
fn reads_back_what_it_writes() {
    let bytes = code(include_str!("../../../examples/filter.bpf"));
    let text = disassemble(&bytes).expect("a listing");
    assert_eq!(text.lines().count(), 16);
    assert_eq!(code(&text), bytes);
    assert_eq!(disassemble(&[0; 7]), Err(Error::Refused { number: 2 }));
    // a text that is longer than the first room, and bytes that no room is taken for
    let longest = code(&format!("{}exit", "mov64 r0, -2147483648\n".repeat(4095)));
    assert_eq!(code(&disassemble(&longest).expect("a listing")), longest);
    let refusal = disassemble(&vec![0; 1 << 24]).expect_err("too long");
    assert_eq!(number(refusal), 3);
}

#[test]
fn draws_a_graph() {
    let source = "jeq r3, 0, +1\nldxb r0, [r1+0]\nmov64 r0, 1\nexit";
    let drawn = graph(1, &code(source), Some(source)).expect("a graph");
    let count = |text: &str, part| text.matches(part).count();
    assert_eq!((count(&drawn, " -> "), count(&drawn, "red")), (3, 0));
    assert!(drawn.contains("slot 1, line 2: ldxb r0, [r1+0]"));
    let refused = graph(0, &code(source), None).expect("a graph");
    assert!(refused.contains("<font color=\"red\">slot 1: ldxb r0, [r1+0]</font>"));
    let number = |need, code: &[u8]| number(graph(need, code, None).expect_err("no graph"));
    assert_eq!(number(0, &code("ja -1")), 23);
    assert_eq!(number(65_537, &code("exit")), 38);
    let ladder = format!("mov64 r0, 0\n{}exit", "jeq r0, 0, +0\n".repeat(500));
    let drawn = graph(0, &code(&ladder), None).expect("a graph");
    assert_eq!(count(&drawn, " -> "), 1000);
}

#[test]
fn traces_a_run() {
    let adds = code("ldxb r0, [r1+0]\nadd64 r0, r3\nstxb [r1+0], r0\nexit");
    let steps = trace(1, &adds, None, &[40], 2, 4).expect("ran");
    let told: Vec<&str> = steps.lines().collect();
    assert_eq!(told.len(), 4);
    assert_eq!(
        told[2],
        r#"{"slot":2,"insn":"stxb [r1+0], r0","registers":{},"part":{"at":0,"bytes":"2a"},"used":3}"#
    );
    let refused = |need, memory: &[u8], credit| {
        let error = trace(need, &adds, None, memory, 0, credit).expect_err("refused");
        (number(error), error.slot())
    };
    assert_eq!(refused(0, &[40], 4), (33, Some(0)));
    assert_eq!(refused(1, &[40], 3), (42, None));
    assert_eq!(refused(1, &[], 4), (43, None));
    assert_eq!(refused(1, &[40], 1 << 31), (65, None));
    assert_eq!(refused(1, &vec![0; 65_537], 4), (65, None));
}

#[test]
fn threads_share_a_program() {
    let first = filter();
    let owners: Vec<Program> = (0..4).map(|_| first.share().expect("room")).collect();
    drop(first);
    let run = |owner: Program| move || owner.execute(&mut packet(53), 0, 16).expect("ran").r0;
    let threads: Vec<_> = owners
        .into_iter()
        .map(|owner| thread::spawn(run(owner)))
        .collect();
    let answers: Vec<u64> = threads
        .into_iter()
        .map(|it| it.join().expect("joined"))
        .collect();
    assert_eq!(answers, [1; 4]);
}

#[test]
fn a_program_goes_through_a_channel() {
    let (sender, receiver) = mpsc::channel();
    sender.send(filter()).expect("sent");
    let other = thread::spawn(move || receiver.recv().expect("received"));
    let back = other.join().expect("joined");
    assert_eq!(back.execute(&mut packet(53), 0, 16).expect("ran").r0, 1);
}

#[test]
fn plays_a_job() {
    let sum = code(include_str!("../../../examples/sum.bpf"));
    let mut buffer: Vec<u8> = (1..=64).collect();
    let mut tasks = [Task::default(); 6];
    let report = Job::new(8, &sum)
        .play(2000, &mut buffer, &mut tasks)
        .expect("played");
    assert_eq!(
        (report.tasks, report.spent, report.returned),
        (8, 513, 1487)
    );
    let sums: Vec<u16> = buffer
        .chunks(8)
        .map(|it| u16::from_le_bytes([it[0], it[1]]))
        .collect();
    assert_eq!(sums, [36, 100, 164, 228, 292, 356, 420, 484]);
    let numbers: Vec<u32> = tasks.iter().map(|task| task.number).collect();
    assert_eq!(numbers, [0, 1, 2, 3, 4, 5]);
    assert_eq!((tasks[0].given, tasks[0].r0), (2000, 36));
}

#[test]
fn a_job_spawns_another_program() {
    let spawn = code(include_str!("../../../examples/spawn.bpf"));
    let child = code(include_str!("../../../examples/child.bpf"));
    let mut buffer = [0; 8];
    let mut tasks = [Task::default(); 3];
    let job = Job::new(4, &spawn).program(4, &child);
    let report = job.play(34, &mut buffer, &mut tasks).expect("played");
    assert_eq!((report.tasks, report.spent, report.returned), (2, 27, 7));
    assert_eq!(buffer, [0, 0, 0, 0, 9, 0, 0, 0]);
    assert_eq!(
        (tasks[1].program, tasks[1].spent, tasks[1].returned),
        (1, 3, 7)
    );
    assert_eq!(tasks[2], Task::default());
}

#[test]
fn tells_why_a_job_is_refused() {
    let exit = code("mov64 r0, 0\nexit");
    let unset = code("exit");
    let mut buffer = [7; 4];
    let mut refusal = |job: Job, credit| {
        let error = job.play(credit, &mut buffer, &mut []).expect_err("refused");
        assert_eq!(buffer, [7; 4]);
        error
    };
    let of_job = |number| Error::Refused { number };
    assert_eq!(refusal(Job::new(0, &exit), 1), of_job(63));
    assert_eq!(refusal(Job::new(5, &exit), 2), of_job(64));
    assert_eq!(refusal(Job::new(0, &exit), 1 << 31), of_job(65));
    let second = Error::InProgram {
        number: 31,
        program: 1,
        slot: Some(0),
    };
    assert_eq!(refusal(Job::new(0, &exit).program(0, &unset), 2), second);
    let places = (second.number(), second.program(), second.slot());
    assert_eq!(places, (Some(31), Some(1), Some(0)));
    let many = (0..16).fold(Job::new(0, &exit), |job, _| job.program(0, &exit));
    assert_eq!(refusal(many, 2), of_job(62));
}

fn for_threads<T: Send + Sync + Clone + 'static>(_: &T) {}

#[test]
fn threads_use_one_program() {
    let filter = filter();
    for_threads(&filter);
    let answers: Vec<u64> = thread::scope(|scope| {
        let run = || filter.execute(&mut packet(53), 0, 16).expect("ran").r0;
        let threads: Vec<_> = (0..4).map(|_| scope.spawn(run)).collect();
        let joined = threads.into_iter().map(|it| it.join().expect("joined"));
        joined.collect()
    });
    assert_eq!(answers, [1; 4]);
    let shared = Arc::new(filter);
    let other = Arc::clone(&shared);
    let ran = thread::spawn(move || other.execute(&mut packet(53), 0, 16).expect("ran").r0);
    assert_eq!(ran.join().expect("joined"), 1);
    assert_eq!(shared.execute(&mut packet(54), 0, 16).expect("ran").r0, 0);
}

#[test]
fn a_clone_outlives_its_program() {
    let first = filter();
    let clones = vec![first.clone(); 3];
    drop(first);
    for own in clones {
        assert_eq!((own.need(), own.cost()), (40, 16));
        assert_eq!(own.execute(&mut packet(53), 0, 16).expect("ran").r0, 1);
    }
}
