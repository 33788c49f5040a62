//! Jobs under way, and their steps along a schedule.

use std::thread;

use telgovan::{assemble, Error, Job, Stepped, Task};

fn code(source: &str) -> Vec<u8> {
    assemble(source).expect("a program")
}

/// A root that spawns one child with a share of 10 and the last 4 bytes.
fn spawns() -> Job {
    let root = code(include_str!("../../../examples/spawn.bpf"));
    let child = code(include_str!("../../../examples/child.bpf"));
    Job::new(4, &root).program(4, &child)
}

/// Eight tasks that sum up their parts of 64 bytes.
fn sums() -> (Job, Vec<u8>) {
    let sum = code(include_str!("../../../examples/sum.bpf"));
    (Job::new(8, &sum), (1..=64).collect())
}

#[test]
fn any_order_comes_to_what_a_play_comes_to() {
    let (job, buffer) = sums();
    let mut played = buffer.clone();
    let report = job.play(2000, &mut played, &mut []).expect("played");
    for (slice, is_last_first) in [(1, false), (3, true), (7, false), (u32::MAX, true)] {
        let mut world = job.open(2000, &buffer).expect("opened");
        let mut step = Stepped::default();
        while !step.is_complete {
            for place in 0..step.tasks.max(1) {
                let number = if is_last_first {
                    step.tasks.max(1) - 1 - place
                } else {
                    place
                };
                step = world.run(number, slice).expect("it is open");
                assert_eq!(step.held + step.returned + step.spent, 2000);
                assert!(step.count <= slice && step.used <= 2000);
            }
        }
        let told = (u64::from(step.tasks), step.spent, step.returned);
        assert_eq!(told, (report.tasks, report.spent, report.returned));
        assert_eq!((step.held, step.used), (0, report.spent));
        assert_eq!(world.buffer().expect("room"), played);
    }
}

#[test]
fn tells_each_step() {
    let mut world = Job::new(0, &code("mov64 r0, 7\nexit"))
        .open(9, &[])
        .expect("opened");
    let first = world.run(0, 1).expect("it is open");
    let told = Stepped {
        count: 1,
        is_alive: true,
        tasks: 1,
        held: 9,
        used: 1,
        ..Stepped::default()
    };
    assert_eq!(first, told);
    let last = world.run(0, 9).expect("it is open");
    assert_eq!((last.count, last.r0, last.is_alive), (1, Some(7), true));
    assert_eq!((last.held, last.returned, last.spent), (0, 7, 2));
    let none = Stepped {
        count: 0,
        r0: None,
        is_alive: false,
        ..last
    };
    for number in [0, 1, u32::MAX] {
        assert_eq!(world.run(number, 9), Ok(none));
    }
    assert_eq!(world.buffer(), Ok(Vec::new()));
}

#[test]
fn works_on_a_copy_of_the_buffer() {
    let store = code("stb [r1+1], 7\nmov64 r0, 0\nexit");
    let before = vec![1; 40_000];
    let mut world = Job::new(2, &store).open(9, &before).expect("opened");
    assert_eq!(world.buffer().expect("longer than a room"), before);
    world.run(0, 1).expect("it is open");
    let after = world.buffer().expect("room");
    assert_eq!((after[1], &after[2..]), (7, &before[2..]));
    assert_eq!(before, [1; 40_000]);
}

#[test]
fn traces_a_schedule() {
    let job = spawns();
    // the root spawns, then both take turns; 9 is no task
    let schedule: Vec<u32> = [0; 6].into_iter().chain([9, 1, 0].repeat(40)).collect();
    let steps = job.trace(34, &[0; 8], &schedule).expect("traced");
    let lines: Vec<&str> = steps.lines().collect();
    let mut tasks = [Task::default(); 2];
    let report = job.play(34, &mut [0; 8], &mut tasks).expect("played");
    let of = |task| {
        let head = format!(r#"{{"task":{task},"#);
        lines.iter().filter(|it| it.starts_with(&head)).count()
    };
    assert!(of(0) > of(1) && of(1) > 0);
    assert_eq!(of(0) + of(1), lines.len());
    let spawned: Vec<&&str> = lines
        .iter()
        .filter(|it| it.contains(r#""spawned""#))
        .collect();
    assert_eq!(spawned.len(), 1);
    assert!(spawned[0].contains(r#""task":1"#) && spawned[0].contains(r#""share":10"#));
    let exits = lines.iter().filter(|it| it.contains(r#""insn":"exit""#));
    assert_eq!(exits.count() as u64, report.tasks);
    assert_eq!(job.trace(34, &[0; 8], &[]), Ok(String::new()));
}

#[test]
fn a_long_trace_gets_its_room() {
    let longest = format!("{}exit", "mov64 r0, 0\n".repeat(4095));
    let job = Job::new(0, &code(&longest));
    let steps = job.trace(4096, &[], &[0; 4096]).expect("traced");
    assert_eq!(steps.lines().count(), 4096);
}

#[test]
fn tells_why_none_is_opened_or_traced() {
    let exit = code("mov64 r0, 0\nexit");
    let unset = code("exit");
    let check = |job: &Job, credit, buffer: &[u8], opened, traced| {
        assert_eq!(job.open(credit, buffer).expect_err("refused"), opened);
        assert_eq!(job.trace(credit, buffer, &[0]), Err(traced));
    };
    for (number, credit, need) in [(63, 1, 0), (64, 2, 5), (65, 1 << 31, 0)] {
        let refused = Error::Refused { number };
        check(&Job::new(need, &exit), credit, &[0; 4], refused, refused);
    }
    let refused = Error::Refused { number: 65 };
    check(&Job::new(0, &exit), 2, &[0; 65_537], refused, refused);
    let of_second = |slot| Error::InProgram {
        number: 31,
        program: 1,
        slot,
    };
    let job = Job::new(0, &exit).program(0, &unset);
    check(&job, 2, &[], of_second(Some(0)), of_second(None));
}

#[test]
fn a_world_goes_to_another_thread() {
    let (job, buffer) = sums();
    let mut world = job.open(2000, &buffer).expect("opened");
    world.run(0, 5).expect("it is open");
    let other = thread::spawn(move || {
        let step = world.run(0, u32::MAX).expect("it is open");
        (world, step)
    });
    let (mut world, step) = other.join().expect("joined");
    assert!(step.r0.is_some() && !step.is_complete);
    assert_eq!(world.run(0, 1).expect("it is open").count, 0);
    assert_eq!(format!("{world:?}"), "World { .. }");
}
