//! Whole jobs: trees of tasks that share a credit and a buffer.

use crate::error::Error;
use crate::raw;
use crate::text;
use crate::world::World;

pub use crate::raw::Task;

/// The programs of a job, by their places. The first is the root's.
///
/// Its calls verify the programs. Each takes the credit of the whole job, at most 2,147,483,647,
/// and a buffer of at most 65,536 bytes. The refusals, after which all is as it was: 62 over 16
/// programs, 65 over a limit, those of a program, which are [`Error::InProgram`], 63 a credit under
/// the root's cost, 64 a buffer shorter than its need, 99 out of memory.
///
/// ```
/// use telgovan::{assemble, Job, Task};
///
/// let code = assemble("mov64 r0, 7\nstxb [r1+1], r0\nexit")?;
/// let mut buffer = [0; 2];
/// let mut tasks = [Task::default(); 1];
/// let report = Job::new(2, &code).play(5, &mut buffer, &mut tasks)?;
/// assert_eq!((report.tasks, report.spent, report.returned), (1, 3, 2));
/// assert_eq!((buffer, tasks[0].r0), ([0, 7], 7));
/// # Ok::<(), telgovan::Error>(())
/// ```
#[derive(Clone, Debug)]
pub struct Job {
    code: Vec<u8>,
    pieces: Vec<raw::CodePiece>,
}

impl Job {
    /// A job whose root runs this program, which needs so many bytes of its part, at most 65,536.
    pub fn new(need: u32, code: &[u8]) -> Job {
        Job {
            code: Vec::new(),
            pieces: Vec::new(),
        }
        .program(need, code)
    }

    /// The same with one more program. A task spawns it by its place, counted from 0.
    pub fn program(mut self, need: u32, code: &[u8]) -> Job {
        let start = self.code.len() as u64;
        self.code.extend_from_slice(code);
        self.pieces.push(raw::CodePiece {
            start,
            length: code.len() as u64,
            need,
        });
        self
    }

    /// Plays the job to its end on the buffer, in place, in this thread: always the live task of
    /// lowest number next. As many of its tasks as there is room for are written, in order of their
    /// numbers.
    pub fn play(
        &self,
        credit: u32,
        buffer: &mut [u8],
        tasks: &mut [Task],
    ) -> Result<Report, Error> {
        let mut report = raw::Report::default();
        // The library reads the code and its pieces, and writes the buffer, the tasks and the
        // report alone.
        let status = unsafe {
            raw::telgovan_job(
                self.code.as_ptr(),
                self.code.len(),
                self.pieces.as_ptr(),
                self.pieces.len(),
                credit,
                buffer.as_mut_ptr(),
                buffer.len(),
                tasks.as_mut_ptr(),
                tasks.len(),
                &mut report,
            )
        };
        if status != 0 {
            return Err(Error::of_job(&report));
        }
        Ok(Report {
            tasks: report.tasks,
            spent: report.spent,
            returned: report.returned,
        })
    }

    /// The job at its start, on a copy of the buffer.
    pub fn open(&self, credit: u32, buffer: &[u8]) -> Result<World, Error> {
        // The library reads the code, its pieces and the buffer, and writes the handle and the
        // report alone.
        World::opened(|handle, report| unsafe {
            raw::telgovan_world_open(
                self.code.as_ptr(),
                self.code.len(),
                self.pieces.as_ptr(),
                self.pieces.len(),
                credit,
                buffer.as_ptr(),
                buffer.len(),
                handle,
                report,
            )
        })
    }

    /// The steps of the job on a copy of the buffer, along a schedule: the numbers of the tasks
    /// whose instruction is next, of which those that aren't alive are passed over. A JSON object
    /// is on a line each, as of [`trace`](crate::trace), with its `task`, and `r0` where the task
    /// ends or `spawned` where it has a child.
    ///
    /// ```
    /// let job = telgovan::Job::new(0, &telgovan::assemble("mov64 r0, 7\nexit")?);
    /// let steps = job.trace(9, &[], &[0, 0])?;
    /// let last = r#"{"task":0,"slot":1,"insn":"exit","registers":{},"used":2,"r0":7}"#;
    /// assert_eq!(steps.lines().last(), Some(last));
    /// # Ok::<(), telgovan::Error>(())
    /// ```
    pub fn trace(&self, credit: u32, buffer: &[u8], schedule: &[u32]) -> Result<String, Error> {
        // The library reads the code, its pieces, the buffer and the schedule, and writes the room
        // and what is told alone.
        let steps = text::written(1 << 16, |room, told| unsafe {
            raw::telgovan_job_trace(
                self.code.as_ptr(),
                self.code.len(),
                self.pieces.as_ptr(),
                self.pieces.len(),
                credit,
                buffer.as_ptr(),
                buffer.len(),
                schedule.as_ptr(),
                schedule.len(),
                room.as_mut_ptr(),
                room.len(),
                told,
            )
        })
        .map_err(|(status, told)| Error::of_job(&report_of(status, &told)))?;
        Ok(String::from_utf8(steps).expect("the steps are UTF-8"))
    }
}

/// A refusal of a trace as a report tells it: its place is that of a program.
fn report_of(status: u32, told: &raw::Written) -> raw::Report {
    raw::Report {
        status,
        program: told.place as u32,
        has_program: told.has_place,
        ..raw::Report::default()
    }
}

/// The result of a job.
///
/// ```
/// use telgovan::{assemble, Job, Report};
///
/// let job = Job::new(0, &assemble("mov64 r0, 7\nexit")?);
/// let report = job.play(9, &mut [], &mut [])?;
/// assert_eq!(report, Report { tasks: 1, spent: 2, returned: 7 });
/// # Ok::<(), telgovan::Error>(())
/// ```
#[derive(Clone, Copy, Debug, PartialEq, Eq)]
pub struct Report {
    /// The number of its tasks.
    pub tasks: u64,
    /// The credit that they spent.
    pub spent: u32,
    /// The credit that came back: what they were given and didn't spend.
    pub returned: u32,
}
