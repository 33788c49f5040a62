//! Jobs under way, of which the host says whose instruction is next.

use std::fmt;

use crate::error::{passed, Error};
use crate::raw;
use crate::text;

/// A job under way, whose tasks run in whatever order the host likes.
/// [`Job::open`](crate::Job::open) begins it.
///
/// Once no task is alive, the buffer and the sums are the same whatever the order was, but where a
/// spawn was refused for want of memory.
///
/// ```
/// use telgovan::{assemble, Job};
///
/// let job = Job::new(2, &assemble("stxb [r1+1], r2\nmov64 r0, 7\nexit")?);
/// let mut world = job.open(5, &[0, 0])?;
/// assert_eq!(world.run(0, 1)?.held, 5);
/// assert_eq!(world.buffer()?, [0, 2]);
/// let step = world.run(0, 9)?;
/// assert_eq!((step.r0, step.spent, step.returned), (Some(7), 3, 2));
/// assert!(step.is_complete && !world.run(0, 1)?.is_alive);
/// # Ok::<(), telgovan::Error>(())
/// ```
///
/// It may go to another thread, but one call at a time uses it:
///
/// ```compile_fail
/// fn shared<T: Sync>() {}
/// shared::<telgovan::World>();
/// ```
pub struct World {
    handle: raw::World,
}

/// The result of a run of a job's task, and the sums of the job.
///
/// ```
/// use telgovan::{assemble, Job, Stepped};
///
/// let job = Job::new(0, &assemble("mov64 r0, 7\nexit")?);
/// let step = job.open(9, &[])?.run(0, 1)?;
/// let told = Stepped { count: 1, is_alive: true, tasks: 1, held: 9, used: 1, ..Stepped::default() };
/// assert_eq!(step, told);
/// # Ok::<(), telgovan::Error>(())
/// ```
#[derive(Clone, Copy, Debug, Default, PartialEq, Eq)]
pub struct Stepped {
    /// The number of instructions that ran.
    pub count: u32,
    /// R0 where the task has ended there.
    pub r0: Option<u64>,
    /// Whether the task was alive at all; else nothing ran.
    pub is_alive: bool,
    /// The number of tasks, which are numbered from 0 in the order of their spawns.
    pub tasks: u32,
    /// The credit that live tasks hold.
    pub held: u32,
    /// The credit that came back from those that ended.
    pub returned: u32,
    /// The credit that those spent. The three make what was issued.
    pub spent: u32,
    /// The credit that all tasks have used so far.
    pub used: u32,
    /// Whether no task is alive.
    pub is_complete: bool,
}

impl World {
    /// The job that a call of the library opens, or the refusal that its report tells.
    pub(crate) fn opened(
        open: impl FnOnce(&mut raw::World, &mut raw::Report) -> u32,
    ) -> Result<World, Error> {
        let mut world = World {
            handle: raw::World::none(),
        };
        let mut report = raw::Report::default();
        match open(&mut world.handle, &mut report) {
            0 => Ok(world),
            _ => Err(Error::of_job(&report)),
        }
    }

    /// Runs the task of this number on: `limit` instructions at most, or until it ends. Nothing
    /// runs where no task of the number is alive.
    pub fn run(&mut self, number: u32, limit: u32) -> Result<Stepped, Error> {
        let mut step = raw::Step::default();
        // The library writes the handle and the step alone.
        passed(unsafe { raw::telgovan_world_run(&mut self.handle, number, limit, &mut step) })?;
        Ok(Stepped {
            count: step.count,
            r0: (step.came_to == raw::HAS_ENDED).then_some(step.r0),
            is_alive: step.came_to != raw::SKIPPED,
            tasks: step.tasks,
            held: step.held,
            returned: step.returned,
            spent: step.spent,
            used: step.used,
            is_complete: step.is_complete,
        })
    }

    /// The buffer as it is now. Refused for want of memory alone, by 99.
    pub fn buffer(&mut self) -> Result<Vec<u8>, Error> {
        // The library writes the handle, the room and what is told alone.
        text::written(1 << 14, |room, told| unsafe {
            raw::telgovan_world_buffer(&mut self.handle, room.as_mut_ptr(), room.len(), told)
        })
        .map_err(|(status, _)| Error::of(status))
    }
}

impl Drop for World {
    fn drop(&mut self) {
        // The library frees what the handle holds, and leaves a handle that holds nothing.
        unsafe { raw::telgovan_world_drop(&mut self.handle) }
    }
}

impl fmt::Debug for World {
    fn fmt(&self, f: &mut fmt::Formatter<'_>) -> fmt::Result {
        f.debug_struct("World").finish_non_exhaustive()
    }
}
