//! Programs that are verified once and run many times.

use std::fmt;
use std::sync::{Mutex, MutexGuard, PoisonError};

use crate::error::{passed, Error};
use crate::hosted::Helpers;
use crate::raw;

/// A program that was accepted, as the library holds it.
///
/// ```
/// use telgovan::{assemble, Program};
///
/// let program = Program::verify(1, &assemble("ldxb r0, [r1+0]\nadd64 r0, r3\nexit")?)?;
/// assert_eq!((program.need(), program.cost()), (1, 3));
/// assert_eq!(program.execute(&mut [40], 2, program.cost())?.r0, 42);
/// # Ok::<(), telgovan::Error>(())
/// ```
///
/// Threads may use one program: one call at a time has the library's handle, by a lock, and the
/// others wait. Threads that run it at once each have a clone. A clone is one more owner of the
/// same program, so that nothing is verified or copied. The last owner frees it.
///
/// ```
/// use std::thread;
/// use telgovan::{assemble, Program};
///
/// let program = Program::verify(0, &assemble("mov64 r0, r3\nexit")?)?;
/// thread::scope(|scope| {
///     for number in 0..4 {
///         let own = program.clone();
///         scope.spawn(move || assert_eq!(own.execute(&mut [], number, 2).unwrap().r0, number));
///     }
///     // or one that is shared
///     scope.spawn(|| program.execute(&mut [], 7, 2).unwrap());
/// });
/// # Ok::<(), telgovan::Error>(())
/// ```
pub struct Program {
    // one call at a time uses a handle, and a lock gives it from thread to thread
    handle: Mutex<raw::Program>,
    need: u32,
    cost: u32,
}

impl Program {
    /// Verifies a program that needs so many bytes of memory, at most 65,536.
    ///
    /// The refusals: 38 for the need, 1 to 7 for the bytes, 21 to 25 for the jumps, 31 to 37 for
    /// the instructions, 99 out of memory.
    pub fn verify(need: u32, code: &[u8]) -> Result<Program, Error> {
        // The library reads the code, and writes the handle and the verdict alone.
        Program::loaded(need, |handle, verdict| unsafe {
            raw::telgovan_program_load(need, code.as_ptr(), code.len(), handle, verdict)
        })
    }

    /// As [`Program::verify`], for a program that may call these helpers beside those of a job. It
    /// runs as a [`HostedTask`](crate::HostedTask): `execute` refuses it by 48.
    pub fn verify_with(need: u32, code: &[u8], helpers: &Helpers<'_>) -> Result<Program, Error> {
        let arities = helpers.arities();
        // The library reads the code and the arities, and writes the handle and the verdict alone.
        Program::loaded(need, |handle, verdict| unsafe {
            raw::telgovan_program_load_with(
                need,
                code.as_ptr(),
                code.len(),
                arities.as_ptr(),
                arities.len(),
                handle,
                verdict,
            )
        })
    }

    // The program that a call of the library puts into a handle, or the refusal that it answers.
    fn loaded(
        need: u32,
        load: impl FnOnce(&mut raw::Program, &mut raw::Verdict) -> u32,
    ) -> Result<Program, Error> {
        let mut program = Program {
            handle: Mutex::new(raw::Program::none()),
            need,
            cost: 0,
        };
        let mut verdict = raw::Verdict::default();
        let status = load(&mut program.handle(), &mut verdict);
        if status != 0 {
            return Err(Error::at_slot(
                status,
                verdict.has_slot,
                verdict.slot.into(),
            ));
        }
        program.cost = verdict.cost;
        Ok(program)
    }

    /// The handle, which this call has to itself. (No call of the library panics.)
    pub(crate) fn handle(&self) -> MutexGuard<'_, raw::Program> {
        self.handle.lock().unwrap_or_else(PoisonError::into_inner)
    }

    /// The bytes of memory that a run needs, 0 to 65,536.
    pub fn need(&self) -> u32 {
        self.need
    }

    /// The most that a run uses of its credit.
    pub fn cost(&self) -> u32 {
        self.cost
    }

    /// Runs the program once, in place, with the memory as its part. Takes no memory of its own.
    /// The argument is what the program finds in R3.
    ///
    /// The refusals, after which the memory is as it was: 65 over 65,536 bytes or a credit over
    /// 2,147,483,647, 42 a credit under the cost, 43 a memory shorter than the need, 48 a program
    /// that may call helpers of the host's.
    pub fn execute(
        &self,
        memory: &mut [u8],
        argument: u64,
        credit: u32,
    ) -> Result<Executed, Error> {
        let mut outcome = raw::Outcome::default();
        // The library writes the handle, the memory and the outcome alone.
        unsafe {
            raw::telgovan_program_run(
                &mut *self.handle(),
                credit,
                argument,
                memory.as_mut_ptr(),
                memory.len(),
                &mut outcome,
            )
        };
        executed(outcome)
    }

    /// Runs the program on each piece of the memory in turn, each time with this credit. A run that
    /// is refused, as by `execute` and by 43 where the memory has no such piece, doesn't stop the
    /// next. A program that may call helpers of the host's runs as a task: each run is refused by
    /// 48.
    pub fn burst(
        &self,
        memory: &mut [u8],
        pieces: &[Piece],
        credit: u32,
    ) -> Vec<Result<Executed, Error>> {
        let mut runs: Vec<raw::Run> = pieces.iter().map(Piece::run).collect();
        // The library writes the handle, the memory and the runs alone.
        let status = unsafe {
            raw::telgovan_program_burst(
                &mut *self.handle(),
                credit,
                memory.as_mut_ptr(),
                memory.len(),
                runs.as_mut_ptr(),
                runs.len(),
            )
        };
        if status != 0 {
            // nothing ran, and no run was told
            return vec![Err(Error::of(status)); runs.len()];
        }
        runs.iter().map(|run| executed(run.outcome)).collect()
    }

    /// One more owner of the same program, as a clone is. Nothing is verified or copied. Refused
    /// for want of memory alone, by 99.
    pub fn share(&self) -> Result<Program, Error> {
        let mut other = raw::Program::none();
        // The library writes the two handles alone.
        passed(unsafe { raw::telgovan_program_share(&mut *self.handle(), &mut other) })?;
        Ok(Program {
            handle: Mutex::new(other),
            ..*self
        })
    }
}

impl Clone for Program {
    /// One more owner of the same program.
    ///
    /// # Panics
    ///
    /// Where the library gets no memory for one more owner. [`Program::share`] tells that by an
    /// error.
    fn clone(&self) -> Program {
        self.share().expect("memory for one more owner")
    }
}

impl Drop for Program {
    fn drop(&mut self) {
        // The library frees what no other handle holds, and leaves a handle that holds nothing.
        let handle = self.handle.get_mut();
        let handle = handle.unwrap_or_else(PoisonError::into_inner);
        unsafe { raw::telgovan_program_unload(handle) }
    }
}

impl fmt::Debug for Program {
    fn fmt(&self, f: &mut fmt::Formatter<'_>) -> fmt::Result {
        let Program { need, cost, .. } = self;
        f.debug_struct("Program")
            .field("need", need)
            .field("cost", cost)
            .finish_non_exhaustive()
    }
}

/// The result of a run.
///
/// ```
/// use telgovan::{assemble, Executed, Program};
///
/// let program = Program::verify(0, &assemble("mov64 r0, 7\nexit")?)?;
/// assert_eq!(program.execute(&mut [], 0, 99)?, Executed { r0: 7, used: 2 });
/// # Ok::<(), telgovan::Error>(())
/// ```
#[derive(Clone, Copy, Debug, PartialEq, Eq)]
pub struct Executed {
    /// R0 at the end.
    pub r0: u64,
    /// The part of its credit that the run used.
    pub used: u32,
}

/// A piece of the memory, and the argument that the program gets with it.
///
/// ```
/// use telgovan::{assemble, Piece, Program};
///
/// let program = Program::verify(1, &assemble("stxb [r1+0], r3\nmov64 r0, r2\nexit")?)?;
/// let mut packets = [0; 8];
/// let pieces = [0, 4].map(|start| Piece { start, length: 4, argument: start as u64 + 1 });
/// for run in program.burst(&mut packets, &pieces, program.cost()) {
///     assert_eq!(run?.r0, 4);
/// }
/// assert_eq!(packets, [1, 0, 0, 0, 5, 0, 0, 0]);
/// # Ok::<(), telgovan::Error>(())
/// ```
#[derive(Clone, Copy, Debug, Default, PartialEq, Eq)]
pub struct Piece {
    /// The place of its first byte in the memory.
    pub start: usize,
    /// Its length in bytes.
    pub length: usize,
    /// The number that the program finds in R3.
    pub argument: u64,
}

impl Piece {
    fn run(&self) -> raw::Run {
        raw::Run {
            start: self.start as u64,
            length: self.length as u64,
            argument: self.argument,
            outcome: raw::Outcome::default(),
        }
    }
}

fn executed(outcome: raw::Outcome) -> Result<Executed, Error> {
    passed(outcome.status)?;
    Ok(Executed {
        r0: outcome.r0,
        used: outcome.used,
    })
}
