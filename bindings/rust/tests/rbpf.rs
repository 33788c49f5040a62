//! The machines by the names of the crate rbpf, as that crate's own examples use them.

use std::cell::RefCell;
use std::io;
use std::thread;

use telgovan::{assemble, rbpf};

fn code(source: &str) -> Vec<u8> {
    assemble(source).expect("a program")
}

fn number(error: io::Error) -> Option<u8> {
    let refusal = error.get_ref()?.downcast_ref::<telgovan::Error>()?;
    refusal.number()
}

#[test]
fn runs_on_a_memory() {
    let prog = code("ldxh r0, [r1+2]\nbe16 r0\nstb [r1+0], 7\nexit");
    let vm = rbpf::EbpfVmRaw::with_need(4, Some(&prog)).expect("accepted");
    let mem = &mut [0xaa, 0xbb, 0x11, 0x22, 0xcc, 0xdd];
    assert_eq!(vm.execute_program(mem).expect("ran"), 0x1122);
    assert_eq!(mem, &[7, 0xbb, 0x11, 0x22, 0xcc, 0xdd]);
    assert_eq!(vm.execute_program(&mut [0; 4]).expect("ran again"), 0);
}

#[test]
fn runs_without_a_memory() {
    let prog = code("mov64 r0, 4\nadd64 r0, 38\nexit");
    let vm = rbpf::EbpfVmNoData::new(Some(&prog)).expect("accepted");
    assert_eq!(vm.execute_program().expect("ran"), 42);
}

#[test]
fn tells_the_length_of_the_memory() {
    let prog = code("mov64 r0, r2\nadd64 r0, r3\nexit");
    let vm = rbpf::EbpfVmRaw::new(Some(&prog)).expect("accepted");
    for length in [0, 1, 65_536] {
        let mem = &mut vec![0; length];
        assert_eq!(vm.execute_program(mem).expect("ran"), length as u64);
    }
}

#[test]
fn keeps_its_program_where_another_is_refused() {
    let seven = code("mov64 r0, 7\nexit");
    let unset = code("exit");
    let loads = code("ldxb r0, [r1+0]\nexit");
    let mut vm = rbpf::EbpfVmRaw::new(None).expect("a machine");
    assert_eq!(
        number(vm.execute_program(&mut []).expect_err("empty")),
        None
    );
    vm.set_program(&seven).expect("accepted");
    for (refused, why) in [(&unset[..], 31), (&loads[..], 33), (&[0; 7], 2), (&[], 1)] {
        assert_eq!(
            number(vm.set_program(refused).expect_err("refused")),
            Some(why)
        );
        assert_eq!(vm.execute_program(&mut []).expect("ran"), 7);
    }
    let eight = code("mov64 r0, 8\nexit");
    vm.set_program(&eight).expect("accepted");
    assert_eq!(vm.execute_program(&mut []).expect("ran"), 8);
}

#[test]
fn refuses_what_that_crate_would_run() {
    let loops = code("mov64 r0, 0\nja -2");
    assert_eq!(
        number(rbpf::EbpfVmNoData::new(Some(&loops)).expect_err("a loop")),
        Some(23)
    );
    let loads = code("ldxb r0, [r1+3]\nexit");
    assert_eq!(
        number(rbpf::EbpfVmRaw::with_need(3, Some(&loads)).expect_err("out")),
        Some(33)
    );
    let vm = rbpf::EbpfVmRaw::with_need(4, Some(&loads)).expect("accepted");
    let mem = &mut [1, 2, 3];
    assert_eq!(
        number(vm.execute_program(mem).expect_err("short")),
        Some(43)
    );
    assert_eq!(mem, &[1, 2, 3]);
    assert_eq!(
        number(vm.execute_program(&mut vec![0; 65_537]).expect_err("long")),
        Some(65)
    );
    assert_eq!(
        number(rbpf::EbpfVmRaw::with_need(65_537, Some(&loads)).expect_err("need")),
        Some(38)
    );
}

#[test]
fn a_machine_goes_to_a_thread() {
    let prog = code("mov64 r0, 42\nexit");
    let vm = rbpf::EbpfVmNoData::new(Some(&prog)).expect("accepted");
    let ran = thread::scope(|scope| {
        let thread = scope.spawn(move || vm.execute_program().expect("ran"));
        thread.join().expect("joined")
    });
    assert_eq!(ran, 42);
}

#[test]
fn threads_use_one_machine() {
    let prog = code("mov64 r0, 42\nexit");
    let asks = code("mov64 r1, 1\nmov64 r2, 2\ncall 64\nexit");
    let plain = rbpf::EbpfVmNoData::new(Some(&prog)).expect("accepted");
    let mut hosted = rbpf::EbpfVmNoData::new(None).expect("a machine");
    hosted.register_helper_with(64, 2, add).expect("an id");
    hosted.set_program(&asks).expect("accepted");
    thread::scope(|scope| {
        for _ in 0..4 {
            scope.spawn(|| assert_eq!(plain.execute_program().expect("ran"), 42));
            scope.spawn(|| assert_eq!(hosted.execute_program().expect("ran"), 3));
        }
    });
}

thread_local! {
    /// A machine whose helper runs it again, for a smaller number.
    static COUNTS: RefCell<Option<rbpf::EbpfVmRaw<'static>>> = const { RefCell::new(None) };
}

fn run_again(left: u64, _: u64, _: u64, _: u64, _: u64) -> u64 {
    if left == 0 {
        return 0;
    }
    let mem = &mut [left as u8 - 1];
    COUNTS
        .with(|vm| {
            vm.borrow()
                .as_ref()
                .expect("a machine")
                .execute_program(mem)
        })
        .expect("ran")
}

#[test]
fn a_helper_runs_its_own_machine() {
    let prog = code("ldxb r1, [r1+0]\ncall 64\nadd64 r0, 1\nexit");
    let prog: &'static [u8] = Box::leak(prog.into_boxed_slice());
    let mut vm = rbpf::EbpfVmRaw::with_need(1, None).expect("a machine");
    vm.register_helper_with(64, 1, run_again).expect("an id");
    vm.set_program(prog).expect("accepted");
    COUNTS.with(|it| *it.borrow_mut() = Some(vm));
    assert_eq!(run_again(5, 0, 0, 0, 0), 5);
}

fn add(a: u64, b: u64, c: u64, d: u64, e: u64) -> u64 {
    a.wrapping_add(b).wrapping_add(c + d + e)
}

fn nine(_: u64, _: u64, _: u64, _: u64, _: u64) -> u64 {
    9
}

#[test]
fn calls_helpers() {
    let five =
        code("mov64 r1, 1\nmov64 r2, 2\nmov64 r3, 3\nmov64 r4, 4\nmov64 r5, 5\ncall 64\nexit");
    let two = code("mov64 r1, 40\nmov64 r2, 2\ncall 127\nexit");
    let mut vm = rbpf::EbpfVmRaw::new(None).expect("a machine");
    assert_eq!(
        number(vm.set_program(&five).expect_err("unknown")),
        Some(37)
    );
    vm.register_helper(64, add).expect("an id");
    vm.set_program(&five).expect("accepted");
    assert_eq!(vm.execute_program(&mut []).expect("ran"), 15);
    assert_eq!(vm.execute_program(&mut []).expect("ran again"), 15);
    vm.register_helper(64, nine).expect("another function");
    assert_eq!(vm.execute_program(&mut []).expect("ran"), 9);

    // where one takes all five, all have to be set
    vm.register_helper(127, add).expect("an id");
    assert_eq!(number(vm.set_program(&two).expect_err("unset")), Some(31));
    assert_eq!(vm.execute_program(&mut []).expect("the old one"), 9);
}

#[test]
fn helpers_see_the_memory_that_a_program_wrote_for_its_caller() {
    let prog = code("mov64 r6, r1\nmov64 r1, 40\nmov64 r2, 2\ncall 64\nstxb [r6+1], r0\nexit");
    let mut vm = rbpf::EbpfVmRaw::with_need(2, None).expect("a machine");
    vm.register_helper_with(64, 2, add).expect("an id");
    vm.set_program(&prog).expect("accepted");
    let mem = &mut [1, 2, 3];
    assert_eq!(vm.execute_program(mem).expect("ran"), 42);
    assert_eq!(mem, &[1, 42, 3]);
    assert_eq!(
        number(vm.execute_program(&mut [1]).expect_err("short")),
        Some(43)
    );
}

#[test]
fn refuses_helpers_that_it_cannot_have() {
    let mut vm = rbpf::EbpfVmNoData::new(None).expect("a machine");
    for key in [0, 1, 63, 128, u32::MAX] {
        assert_eq!(
            number(vm.register_helper(key, nine).expect_err("id")),
            Some(44)
        );
    }
    assert_eq!(
        number(vm.register_helper_with(64, 6, nine).expect_err("arity")),
        Some(45)
    );
    let prog = code("call 64\nexit");
    assert_eq!(
        number(vm.set_program(&prog).expect_err("unknown")),
        Some(37)
    );
    vm.register_helper_with(64, 0, nine).expect("an id");
    vm.set_program(&prog).expect("accepted");
    assert_eq!(vm.execute_program().expect("ran"), 9);
}
