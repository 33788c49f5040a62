//! The declarations of `include/telgovan.h`, as far as this crate calls them.
//!
//! Of a handle the header says: one call at a time uses it, and a thread gives it to another by a
//! lock, by a thread's start or join, or by a sequentially consistent atomic. So each is `Send`,
//! and by itself none is `Sync`, which the pointer in it rules out.

use std::ffi::c_void;
use std::ptr;

/// The verdict of a program.
#[repr(C)]
#[derive(Clone, Copy, Default)]
pub struct Verdict {
    pub status: u32,
    pub cost: u32,
    pub slot: u32,
    pub has_slot: bool,
}

/// The text that was written into the caller's room.
#[repr(C)]
#[derive(Clone, Copy, Default)]
pub struct Written {
    pub length: u64,
    pub place: u64,
    pub status: u32,
    pub has_place: bool,
}

/// The result of a run.
#[repr(C)]
#[derive(Clone, Copy, Default)]
pub struct Outcome {
    pub r0: u64,
    pub status: u32,
    pub used: u32,
}

/// A run of a burst.
#[repr(C)]
#[derive(Clone, Copy, Default)]
pub struct Run {
    pub start: u64,
    pub length: u64,
    pub argument: u64,
    pub outcome: Outcome,
}

/// A handle. Its fields are the library's.
#[repr(C)]
pub struct Program {
    held: *mut c_void,
    loaded: bool,
}

impl Program {
    /// A handle that holds none.
    pub fn none() -> Program {
        Program {
            held: ptr::null_mut(),
            loaded: false,
        }
    }
}

/// No helper is of this id.
pub const NO_HELPER: u32 = u32::MAX;

/// The kinds of event, beside the one at the limit, which is 0.
pub const ASKS: u32 = 1;
pub const ENDED: u32 = 2;

/// A handle of a task. Its fields are the library's.
#[repr(C)]
pub struct TaskHandle {
    held: *mut c_void,
    started: bool,
}

impl TaskHandle {
    /// A handle that holds none.
    pub fn none() -> TaskHandle {
        TaskHandle {
            held: ptr::null_mut(),
            started: false,
        }
    }
}

/// Why a task stopped.
#[repr(C)]
#[derive(Clone, Copy, Default)]
pub struct Event {
    pub r0: u64,
    pub arguments: [u64; 5],
    pub status: u32,
    pub kind: u32,
    pub helper: u32,
    pub used: u32,
}

// One call at a time uses it, whichever thread makes it.
unsafe impl Send for Program {}
unsafe impl Send for TaskHandle {}
unsafe impl Send for World {}
unsafe impl Send for Desk {}

/// A program of a job, as a piece of the code.
#[repr(C)]
#[derive(Clone, Copy, Debug)]
pub struct CodePiece {
    pub start: u64,
    pub length: u64,
    pub need: u32,
}

/// A task of a job that ended.
///
/// ```
/// use telgovan::{assemble, Job, Task};
///
/// let mut tasks = [Task::default(); 4];
/// let report = Job::new(0, &assemble("mov64 r0, 7\nexit")?).play(9, &mut [], &mut tasks)?;
/// let root = Task { r0: 7, given: 9, spent: 2, returned: 7, ..Task::default() };
/// assert_eq!(tasks[..report.tasks as usize], [root]);
/// # Ok::<(), telgovan::Error>(())
/// ```
#[repr(C)]
#[derive(Clone, Copy, Debug, Default, PartialEq, Eq)]
pub struct Task {
    /// The number that its parent gave it; the root's is 0.
    pub argument: u64,
    /// R0 at its end.
    pub r0: u64,
    /// Its number, counted from 0 in the order of the spawns.
    pub number: u32,
    /// Its program's place in the job, counted from 0.
    pub program: u32,
    /// The credit that it was given.
    pub given: u32,
    /// The part of what it kept that it spent.
    pub spent: u32,
    /// The part of what it kept that came back.
    pub returned: u32,
}

/// The result of a job.
#[repr(C)]
#[derive(Clone, Copy, Default)]
pub struct Report {
    pub tasks: u64,
    pub status: u32,
    pub spent: u32,
    pub returned: u32,
    pub program: u32,
    pub slot: u32,
    pub has_program: bool,
    pub has_slot: bool,
}

/// A handle of a job under way. Its fields are the library's.
#[repr(C)]
pub struct World {
    held: *mut c_void,
    opened: bool,
}

impl World {
    /// A handle that holds none.
    pub fn none() -> World {
        World {
            held: ptr::null_mut(),
            opened: false,
        }
    }
}

/// The ends of a run of a job's task, beside 1, where it goes on.
pub const SKIPPED: u32 = 0;
pub const HAS_ENDED: u32 = 2;

/// The result of a run of a job's task, and the sums of the job.
#[repr(C)]
#[derive(Clone, Copy, Default)]
pub struct Step {
    pub r0: u64,
    pub status: u32,
    pub came_to: u32,
    pub count: u32,
    pub tasks: u32,
    pub held: u32,
    pub returned: u32,
    pub spent: u32,
    pub used: u32,
    pub is_complete: bool,
}

/// A handle of a desk. Its fields are the library's.
#[repr(C)]
pub struct Desk {
    held: *mut c_void,
    made: bool,
}

impl Desk {
    /// A handle that holds none.
    pub fn none() -> Desk {
        Desk {
            held: ptr::null_mut(),
            made: false,
        }
    }
}

/// The replies that were given on a connection.
///
/// ```
/// use telgovan::{Desk, Sent};
///
/// let mut desk = Desk::new()?;
/// let client = desk.connect()?;
/// desk.feed(client, b"\0\0\0\x02[]")?; // no request
/// let mut room = [0; 16];
/// assert_eq!(desk.replies(client, &mut room)?, Sent { count: 16, left: 10 });
/// # Ok::<(), telgovan::Error>(())
/// ```
#[repr(C)]
#[derive(Clone, Copy, Debug, Default, PartialEq, Eq)]
pub struct Sent {
    /// The number of bytes that were written into the room.
    pub count: u64,
    /// The number of bytes that are still to be sent.
    pub left: u64,
}

/// A job that is handed over, and how many bytes its object has.
#[repr(C)]
#[derive(Clone, Copy, Default)]
pub struct Handed {
    pub job: u64,
    pub length: u64,
}

extern "C" {
    pub fn telgovan_assemble(
        source: *const u8,
        source_length: usize,
        room: *mut u8,
        room_length: usize,
        written: *mut Written,
    ) -> u32;

    pub fn telgovan_disassemble(
        code: *const u8,
        code_length: usize,
        room: *mut u8,
        room_length: usize,
        written: *mut Written,
    ) -> u32;

    pub fn telgovan_explain(
        need: u32,
        code: *const u8,
        code_length: usize,
        source: *const u8,
        source_length: usize,
        room: *mut u8,
        room_length: usize,
        written: *mut Written,
    ) -> u32;

    pub fn telgovan_graph(
        need: u32,
        code: *const u8,
        code_length: usize,
        source: *const u8,
        source_length: usize,
        room: *mut u8,
        room_length: usize,
        written: *mut Written,
    ) -> u32;

    pub fn telgovan_trace(
        need: u32,
        code: *const u8,
        code_length: usize,
        source: *const u8,
        source_length: usize,
        credit: u32,
        argument: u64,
        memory: *const u8,
        memory_length: usize,
        room: *mut u8,
        room_length: usize,
        written: *mut Written,
    ) -> u32;

    pub fn telgovan_program_load(
        need: u32,
        code: *const u8,
        code_length: usize,
        program: *mut Program,
        verdict: *mut Verdict,
    ) -> u32;

    pub fn telgovan_program_run(
        program: *mut Program,
        credit: u32,
        argument: u64,
        memory: *mut u8,
        memory_length: usize,
        outcome: *mut Outcome,
    ) -> u32;

    pub fn telgovan_program_burst(
        program: *mut Program,
        credit: u32,
        memory: *mut u8,
        memory_length: usize,
        runs: *mut Run,
        runs_length: usize,
    ) -> u32;

    pub fn telgovan_program_share(program: *mut Program, other: *mut Program) -> u32;

    pub fn telgovan_program_unload(program: *mut Program);

    pub fn telgovan_program_load_with(
        need: u32,
        code: *const u8,
        code_length: usize,
        arities: *const u32,
        arities_length: usize,
        program: *mut Program,
        verdict: *mut Verdict,
    ) -> u32;

    pub fn telgovan_task_start(
        program: *mut Program,
        credit: u32,
        argument: u64,
        memory_length: usize,
        task: *mut TaskHandle,
    ) -> u32;

    pub fn telgovan_task_go(
        task: *mut TaskHandle,
        answer: u64,
        memory: *mut u8,
        memory_length: usize,
        limit: u32,
        event: *mut Event,
    ) -> u32;

    pub fn telgovan_task_drop(task: *mut TaskHandle);

    pub fn telgovan_job(
        code: *const u8,
        code_length: usize,
        pieces: *const CodePiece,
        pieces_length: usize,
        credit: u32,
        buffer: *mut u8,
        buffer_length: usize,
        tasks: *mut Task,
        tasks_length: usize,
        report: *mut Report,
    ) -> u32;

    pub fn telgovan_job_trace(
        code: *const u8,
        code_length: usize,
        pieces: *const CodePiece,
        pieces_length: usize,
        credit: u32,
        buffer: *const u8,
        buffer_length: usize,
        schedule: *const u32,
        schedule_length: usize,
        room: *mut u8,
        room_length: usize,
        written: *mut Written,
    ) -> u32;

    pub fn telgovan_world_open(
        code: *const u8,
        code_length: usize,
        pieces: *const CodePiece,
        pieces_length: usize,
        credit: u32,
        buffer: *const u8,
        buffer_length: usize,
        world: *mut World,
        report: *mut Report,
    ) -> u32;

    pub fn telgovan_world_run(world: *mut World, number: u32, limit: u32, step: *mut Step) -> u32;

    pub fn telgovan_world_buffer(
        world: *mut World,
        room: *mut u8,
        room_length: usize,
        written: *mut Written,
    ) -> u32;

    pub fn telgovan_world_drop(world: *mut World);

    pub fn telgovan_desk_new(desk: *mut Desk) -> u32;

    pub fn telgovan_desk_connect(desk: *mut Desk, connection: *mut u64) -> u32;

    pub fn telgovan_desk_feed(
        desk: *mut Desk,
        connection: u64,
        bytes: *const u8,
        length: usize,
    ) -> u32;

    pub fn telgovan_desk_replies(
        desk: *mut Desk,
        connection: u64,
        room: *mut u8,
        room_length: usize,
        sent: *mut Sent,
    ) -> u32;

    pub fn telgovan_desk_disconnect(desk: *mut Desk, connection: u64) -> u32;

    pub fn telgovan_desk_next_job(
        desk: *mut Desk,
        room: *mut u8,
        room_length: usize,
        handed: *mut Handed,
    ) -> u32;

    pub fn telgovan_desk_finish(
        desk: *mut Desk,
        job: u64,
        report: *const Report,
        buffer: *const u8,
        buffer_length: usize,
        tasks: *const Task,
        tasks_length: usize,
    ) -> u32;

    pub fn telgovan_desk_free(desk: *mut Desk);
}
