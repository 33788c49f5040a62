//! Programs that may call helpers of their host's, and tasks that stop where they do.

use std::fmt;

use crate::error::{passed, Error};
use crate::program::{Executed, Program};
use crate::raw;

/// The ids of a host's helpers.
const FIRST: u32 = 64;
const IDS: usize = 64;

/// The most instructions that run until a task that runs to its end is asked again.
const STRETCH: u32 = u32::MAX;

type Function<'h> = Box<dyn FnMut(u64, u64, u64, u64, u64) -> Option<u64> + 'h>;

/// Helpers of a host's, by their ids, 64 to 127: each with how many arguments it takes, and the
/// function that answers.
///
/// ```
/// use telgovan::{assemble, Helpers, Program};
///
/// let mut asked = 0;
/// let mut helpers = Helpers::new();
/// helpers.register(64, 2, |a, b, _, _, _| {
///     asked += 1;
///     a + b
/// })?;
/// let code = assemble("mov64 r1, 40\nmov64 r2, 2\ncall 64\nexit")?;
/// let program = Program::verify_with(0, &code, &helpers)?;
/// let mut task = program.start(program.cost(), 0, 0)?;
/// assert_eq!(task.run(&mut [], &mut helpers)?.r0, 42);
/// drop(helpers);
/// assert_eq!(asked, 1);
/// # Ok::<(), telgovan::Error>(())
/// ```
pub struct Helpers<'h> {
    arities: [u32; IDS],
    functions: Vec<Option<Function<'h>>>,
}

impl<'h> Helpers<'h> {
    /// No helpers.
    pub fn new() -> Helpers<'h> {
        Helpers {
            arities: [raw::NO_HELPER; IDS],
            functions: (0..IDS).map(|_| None).collect(),
        }
    }

    /// Registers the helper of an id, in place of the one that it had. Arguments past that many are
    /// 0 when the function is called.
    ///
    /// The refusals, after which all is as it was: 44 the id isn't one of 64 to 127, 45 there are
    /// more than 5 arguments.
    pub fn register(
        &mut self,
        id: u32,
        arity: u32,
        mut function: impl FnMut(u64, u64, u64, u64, u64) -> u64 + 'h,
    ) -> Result<(), Error> {
        self.register_fallible(id, arity, move |a, b, c, d, e| {
            Some(function(a, b, c, d, e))
        })
    }

    /// As [`Helpers::register`], for a helper that may have no answer. Then [`HostedTask::run`]
    /// ends by [`Error::Unanswered`], and its question stays asked.
    ///
    /// ```
    /// use telgovan::{assemble, Error, Helpers, Program};
    ///
    /// let known = [(1, 10), (2, 20)];
    /// let look_up = |key| known.iter().find(|it| it.0 == key).map(|it| it.1);
    /// let mut helpers = Helpers::new();
    /// helpers.register_fallible(64, 1, |key, _, _, _, _| look_up(key))?;
    /// let code = assemble("mov64 r1, r3\ncall 64\nexit")?;
    /// let program = Program::verify_with(0, &code, &helpers)?;
    /// let mut task = program.start(program.cost(), 3, 0)?;
    /// match task.run(&mut [], &mut helpers) {
    ///     Err(Error::Unanswered(question)) => assert_eq!(question.arguments[0], 3),
    ///     other => panic!("{other:?}"),
    /// }
    /// assert!(task.question().is_some());
    /// # Ok::<(), Error>(())
    /// ```
    pub fn register_fallible(
        &mut self,
        id: u32,
        arity: u32,
        function: impl FnMut(u64, u64, u64, u64, u64) -> Option<u64> + 'h,
    ) -> Result<(), Error> {
        let place = match id.checked_sub(FIRST) {
            Some(place) if (place as usize) < IDS => place as usize,
            _ => return Err(Error::of(44)),
        };
        if arity > 5 {
            return Err(Error::of(45));
        }
        self.arities[place] = arity;
        self.functions[place] = Some(Box::new(function));
        Ok(())
    }

    /// The answer of a question's helper, if it is registered and has one.
    pub fn answer(&mut self, question: &Question) -> Option<u64> {
        let place = question.helper.checked_sub(FIRST)? as usize;
        let function = self.functions.get_mut(place)?.as_mut()?;
        let [a, b, c, d, e] = question.arguments;
        function(a, b, c, d, e)
    }

    /// The number of arguments of each helper, as the library is told.
    pub(crate) fn arities(&self) -> &[u32; IDS] {
        &self.arities
    }
}

impl Default for Helpers<'_> {
    fn default() -> Self {
        Helpers::new()
    }
}

impl fmt::Debug for Helpers<'_> {
    fn fmt(&self, f: &mut fmt::Formatter<'_>) -> fmt::Result {
        let there = self.arities.iter().zip(FIRST..);
        f.debug_map()
            .entries(
                there
                    .filter(|(arity, _)| **arity <= 5)
                    .map(|(arity, id)| (id, arity)),
            )
            .finish()
    }
}

/// A call of a helper of the host's.
///
/// ```
/// use telgovan::{Helpers, Question};
///
/// let mut helpers = Helpers::new();
/// helpers.register(64, 2, |a, b, _, _, _| a + b)?;
/// let question = Question { helper: 64, arguments: [40, 2, 0, 0, 0] };
/// assert_eq!(helpers.answer(&question), Some(42));
/// # Ok::<(), telgovan::Error>(())
/// ```
#[derive(Clone, Copy, Debug, PartialEq, Eq)]
pub struct Question {
    /// The helper's id, 64 to 127.
    pub helper: u32,
    /// Its arguments, of which those past the ones that it takes are 0.
    pub arguments: [u64; 5],
}

/// Why a task stopped.
///
/// ```
/// use telgovan::{assemble, Event, Executed, Program};
///
/// let program = Program::verify(0, &assemble("mov64 r0, 7\nexit")?)?;
/// let mut task = program.start(9, 0, 0)?;
/// assert_eq!(task.go(None, &mut [], 1)?, Event::AtLimit);
/// assert_eq!(task.go(None, &mut [], 1)?, Event::Ended(Executed { r0: 7, used: 2 }));
/// # Ok::<(), telgovan::Error>(())
/// ```
#[derive(Clone, Copy, Debug, PartialEq, Eq)]
pub enum Event {
    /// As many instructions ran as may.
    AtLimit,
    /// It waits for the answer to a question.
    Asks(Question),
    /// It has ended.
    Ended(Executed),
}

/// A task whose run stops where it asks its host. It holds its program, which may be let go of.
/// [`Program::start`] begins it. A question stays asked until it is answered.
///
/// ```
/// use telgovan::{assemble, Error, Event, Helpers, Program};
///
/// let mut helpers = Helpers::new();
/// helpers.register(64, 1, |key, _, _, _, _| 10 * key)?;
/// let code = assemble("mov64 r1, 7\ncall 64\nexit")?;
/// let program = Program::verify_with(0, &code, &helpers)?;
///
/// // each call answered by its closure
/// let done = program.start(program.cost(), 0, 0)?.run(&mut [], &mut helpers)?;
/// assert_eq!(done.r0, 70);
///
/// // or by the host, whenever it likes
/// let mut task = program.start(program.cost(), 0, 0)?;
/// let error = task.run(&mut [], &mut Helpers::new()).expect_err("nobody answers");
/// let question = task.question().expect("it waits");
/// assert_eq!(error, Error::Unanswered(question));
/// let event = task.go(Some(question.arguments[0] + 1), &mut [], u32::MAX)?;
/// assert!(matches!(event, Event::Ended(done) if done.r0 == 8));
/// # Ok::<(), Error>(())
/// ```
///
/// A task may go to another thread, but one call at a time uses it:
///
/// ```compile_fail
/// fn shared<T: Sync>() {}
/// shared::<telgovan::HostedTask>();
/// ```
pub struct HostedTask {
    handle: raw::TaskHandle,
    question: Option<Question>,
    length: usize,
}

impl Program {
    /// Starts a task of the program on a memory of this length. Nothing runs yet. The argument is
    /// what the program finds in R3.
    ///
    /// The refusals: 65 over 65,536 bytes or a credit over 2,147,483,647, 42 a credit under the
    /// cost, 43 a length under the need, 99 out of memory.
    ///
    /// ```
    /// # use telgovan::{assemble, Helpers, Program};
    /// # let program = Program::verify(2, &assemble("mov64 r0, 7\nexit")?)?;
    /// # let (mut memory, mut helpers) = ([0; 2], Helpers::new());
    /// let mut task = program.start(program.cost(), 0, memory.len())?;
    /// assert_eq!(task.run(&mut memory, &mut helpers)?.r0, 7);
    /// # Ok::<(), telgovan::Error>(())
    /// ```
    pub fn start(&self, credit: u32, argument: u64, length: usize) -> Result<HostedTask, Error> {
        let mut handle = raw::TaskHandle::none();
        let program = &mut *self.handle();
        // The library writes the two handles alone.
        let status =
            unsafe { raw::telgovan_task_start(program, credit, argument, length, &mut handle) };
        let task = HostedTask {
            handle,
            question: None,
            length,
        };
        passed(status).map(|()| task)
    }
}

impl HostedTask {
    /// As [`Program::start`].
    pub fn start(
        program: &Program,
        credit: u32,
        argument: u64,
        length: usize,
    ) -> Result<HostedTask, Error> {
        program.start(credit, argument, length)
    }

    /// The question that waits for its answer, if one does.
    pub fn question(&self) -> Option<Question> {
        self.question
    }

    /// Goes on, with the answer to the question that waits; where none waits, the answer is
    /// ignored. Where one waits and there is no answer, nothing runs, and it is asked once more.
    ///
    /// `limit` instructions run at most, of which the call that was answered isn't one. The memory
    /// may have changed since the last piece.
    ///
    /// The refusals, after which all is as it was: 47 the task has ended, 43 the memory has another
    /// length than at the start.
    pub fn go(
        &mut self,
        answer: Option<u64>,
        memory: &mut [u8],
        limit: u32,
    ) -> Result<Event, Error> {
        if let (Some(question), None) = (self.question, answer) {
            return if memory.len() == self.length {
                Ok(Event::Asks(question))
            } else {
                Err(Error::of(43))
            };
        }
        let mut event = raw::Event::default();
        // The library writes the handle, the memory and the event alone.
        passed(unsafe {
            raw::telgovan_task_go(
                &mut self.handle,
                answer.unwrap_or(0),
                memory.as_mut_ptr(),
                memory.len(),
                limit,
                &mut event,
            )
        })?;
        let event = event_of(&event);
        self.question = match event {
            Event::Asks(question) => Some(question),
            _ => None,
        };
        Ok(event)
    }

    /// Runs the task to its end from wherever it stands, also where a question waits, and answers
    /// each question by its helper.
    ///
    /// [`Error::Unanswered`] where the helper isn't registered, or has no answer. Then the question
    /// stays asked, as it does where the helper panics: `run` or `go` goes on from there. The
    /// refusals are those of `go`.
    pub fn run(&mut self, memory: &mut [u8], helpers: &mut Helpers<'_>) -> Result<Executed, Error> {
        loop {
            let answer = match self.question {
                Some(question) => {
                    let answered = helpers.answer(&question);
                    Some(answered.ok_or(Error::Unanswered(question))?)
                }
                None => None,
            };
            if let Event::Ended(executed) = self.go(answer, memory, STRETCH)? {
                return Ok(executed);
            }
        }
    }
}

/// Why a task stopped, as the library tells it.
fn event_of(event: &raw::Event) -> Event {
    match event.kind {
        raw::ASKS => Event::Asks(Question {
            helper: event.helper,
            arguments: event.arguments,
        }),
        raw::ENDED => Event::Ended(Executed {
            r0: event.r0,
            used: event.used,
        }),
        _ => Event::AtLimit,
    }
}

impl Drop for HostedTask {
    fn drop(&mut self) {
        // The library frees what the handle holds, and leaves one that holds nothing.
        unsafe { raw::telgovan_task_drop(&mut self.handle) }
    }
}

impl fmt::Debug for HostedTask {
    fn fmt(&self, f: &mut fmt::Formatter<'_>) -> fmt::Result {
        f.debug_struct("HostedTask").finish_non_exhaustive()
    }
}
