//! The virtual machines of the crate [rbpf](https://crates.io/crates/rbpf) by name, over programs
//! that are verified.
//!
//! Names and argument lists are those of that crate. A host changes the `use`, and gives the need:
//! how many bytes of memory its programs count on.
//!
//! ```
//! use telgovan::rbpf;
//!
//! // Answers the second byte of its memory.
//! let prog = &[0x71, 0x10, 1, 0, 0, 0, 0, 0, 0x95, 0, 0, 0, 0, 0, 0, 0];
//! let mem = &mut [0xaa, 0xbb, 0x11, 0x22];
//!
//! let vm = rbpf::EbpfVmRaw::with_need(2, Some(prog))?; // there: EbpfVmRaw::new(Some(prog))
//! assert_eq!(vm.execute_program(mem)?, 0xbb);
//! # Ok::<(), std::io::Error>(())
//! ```
//!
//! | | There | Here |
//! |---|---|---|
//! | a program is checked | for its form | as well: it ends, and stays in its memory |
//! | an access | is tested as it runs | was proved to be inside, from the need on |
//! | a memory under the need | | is refused |
//! | a loop | runs as long as it likes | is refused (23) |
//! | a run's steps | aren't counted | are at most the program's cost, which each run is given |
//! | an address of the host's memory | may be reached, where allowed | can't be written down |
//! | R1, R2, R3 at entry | the memory's address | the memory, its length, and 0 |
//! | a machine | one or many threads | the same; runs without helpers wait for each other |
//! | a helper's id | any | 64 to 127, and it is registered before the program is set |
//! | a helper's arguments | R1 to R5, whatever they hold | have to be set where it is called |
//!
//! Not here: the machines with a metadata buffer, `jit_compile`, `set_verifier`, `rbpf::helpers`,
//! and the modules `assembler` and `disassembler`, whose texts differ (`telgovan::assemble`).
//!
//! Helpers are functions, as there:
//!
//! ```
//! use telgovan::rbpf::EbpfVmNoData;
//!
//! fn add(a: u64, b: u64, _: u64, _: u64, _: u64) -> u64 {
//!     a.wrapping_add(b)
//! }
//!
//! let code = telgovan::assemble("mov64 r1, 40\nmov64 r2, 2\ncall 64\nexit")?;
//! let mut vm = EbpfVmNoData::new(None).expect("a machine");
//! vm.register_helper_with(64, 2, add).expect("64 to 127"); // it takes two of its arguments
//! vm.set_program(&code).expect("accepted");
//! assert_eq!(vm.execute_program().expect("ran"), 42);
//! # Ok::<(), telgovan::Error>(())
//! ```
//!
//! An error has the refusal within:
//!
//! ```
//! use telgovan::rbpf::EbpfVmNoData;
//!
//! let loops = &[0x05, 0, 0xff, 0xff, 0, 0, 0, 0];
//! let error = EbpfVmNoData::new(Some(loops)).err().expect("refused");
//! let refusal: &telgovan::Error = error.get_ref().and_then(|e| e.downcast_ref()).expect("told");
//! assert_eq!((refusal.number(), refusal.slot()), (Some(23), Some(0)));
//! ```

use std::fmt;
use std::io::{Error, ErrorKind};
use std::marker::PhantomData;

use crate::hosted::{Event, Helpers, Question};
use crate::program::Program;

/// A helper, as that crate has them.
///
/// ```
/// use telgovan::rbpf::Helper;
///
/// let add: Helper = |a, b, _, _, _| a.wrapping_add(b);
/// assert_eq!(add(40, 2, 0, 0, 0), 42);
/// ```
pub type Helper = fn(u64, u64, u64, u64, u64) -> u64;

/// The number of arguments of a helper of which it isn't said.
const ALL: u32 = 5;

/// A helper that was registered: its id, how many arguments it takes, and the function.
#[derive(Clone, Copy)]
struct Registered {
    id: u32,
    arity: u32,
    function: Helper,
}

/// A program that was set, and whether it was verified with helpers of the host's.
struct Loaded {
    program: Program,
    is_hosted: bool,
}

/// A machine for programs that work on a memory.
///
/// Threads may use it at once: runs of a program without helpers wait for each other.
///
/// ```
/// use telgovan::{assemble, rbpf};
///
/// let prog = assemble("ldxh r0, [r1+2]\nbe16 r0\nexit").expect("a program");
/// let vm = rbpf::EbpfVmRaw::with_need(4, Some(&prog))?;
/// assert_eq!(vm.execute_program(&mut [0xaa, 0xbb, 0x11, 0x22])?, 0x1122);
/// # Ok::<(), std::io::Error>(())
/// ```
pub struct EbpfVmRaw<'a> {
    need: u32,
    program: Option<Loaded>,
    helpers: Vec<Registered>,
    // a machine of that crate borrows its program
    borrowed: PhantomData<&'a [u8]>,
}

impl<'a> EbpfVmRaw<'a> {
    /// A machine whose programs need no memory, with the program that is given, if one is.
    pub fn new(prog: Option<&'a [u8]>) -> Result<EbpfVmRaw<'a>, Error> {
        EbpfVmRaw::with_need(0, prog)
    }

    /// A machine whose programs need so many bytes of memory, at most 65,536.
    pub fn with_need(need: u32, prog: Option<&'a [u8]>) -> Result<EbpfVmRaw<'a>, Error> {
        let mut vm = EbpfVmRaw {
            need,
            program: None,
            helpers: Vec::new(),
            borrowed: PhantomData,
        };
        if let Some(prog) = prog {
            vm.set_program(prog)?;
        }
        Ok(vm)
    }

    /// Verifies a program, and lets the machine run it in place of the one that it had. A program
    /// that is refused leaves the machine as it was.
    pub fn set_program(&mut self, prog: &'a [u8]) -> Result<(), Error> {
        let is_hosted = !self.helpers.is_empty();
        let program = if is_hosted {
            let mut helpers = Helpers::new();
            for known in &self.helpers {
                let registered = helpers.register(known.id, known.arity, known.function);
                registered.map_err(refused)?;
            }
            Program::verify_with(self.need, prog, &helpers).map_err(refused)?
        } else {
            Program::verify(self.need, prog).map_err(refused)?
        };
        self.program = Some(Loaded { program, is_hosted });
        Ok(())
    }

    /// Registers a helper under an id of 64 to 127, in place of the one that it had. A program that
    /// is set from then on may call it where R1 to R5 are set.
    pub fn register_helper(&mut self, key: u32, function: Helper) -> Result<(), Error> {
        self.register_helper_with(key, ALL, function)
    }

    /// As [`EbpfVmRaw::register_helper`], for a helper that takes so many arguments, 0 to 5: where
    /// it is called, a program has set as many of R1 to R5, and the others are 0 for the function.
    pub fn register_helper_with(
        &mut self,
        key: u32,
        arity: u32,
        function: Helper,
    ) -> Result<(), Error> {
        // the library's own test of id and number
        Helpers::new()
            .register(key, arity, function)
            .map_err(refused)?;
        self.helpers.retain(|known| known.id != key);
        self.helpers.push(Registered {
            id: key,
            arity,
            function,
        });
        Ok(())
    }

    /// Runs the program once on the memory, in place, and answers R0.
    ///
    /// Refused without a program, and where the memory has under the need or over 65,536 bytes.
    /// Then the memory is as it was.
    pub fn execute_program(&self, mem: &mut [u8]) -> Result<u64, Error> {
        let loaded = match &self.program {
            Some(loaded) => loaded,
            None => return Err(Error::new(ErrorKind::Other, "no program was set")),
        };
        let program = &loaded.program;
        if loaded.is_hosted {
            return self.run_hosted(program, mem).map_err(refused);
        }
        let done = program.execute(mem, 0, program.cost()).map_err(refused)?;
        Ok(done.r0)
    }

    // Runs a program that may call helpers, each answered by its function.
    fn run_hosted(&self, program: &Program, mem: &mut [u8]) -> Result<u64, crate::Error> {
        let mut task = program.start(program.cost(), 0, mem.len())?;
        let mut answer = None;
        loop {
            match task.go(answer, mem, u32::MAX)? {
                Event::AtLimit => {}
                Event::Asks(question) => answer = Some(self.answer(&question)?),
                Event::Ended(done) => return Ok(done.r0),
            }
        }
    }

    // The answer of a helper's function. (One that the program was verified with stays registered.)
    fn answer(&self, question: &Question) -> Result<u64, crate::Error> {
        let asked = |known: &&Registered| known.id == question.helper;
        let known = self.helpers.iter().find(asked);
        let known = known.ok_or(crate::Error::Unanswered(*question))?;
        let [a, b, c, d, e] = question.arguments;
        Ok((known.function)(a, b, c, d, e))
    }
}

impl fmt::Debug for EbpfVmRaw<'_> {
    fn fmt(&self, f: &mut fmt::Formatter<'_>) -> fmt::Result {
        f.debug_struct("EbpfVmRaw")
            .field("need", &self.need)
            .finish_non_exhaustive()
    }
}

/// A machine for programs that have no memory but their stack.
///
/// ```
/// use telgovan::{assemble, rbpf};
///
/// let prog = assemble("mov64 r0, 40\nadd64 r0, 2\nexit").expect("a program");
/// assert_eq!(rbpf::EbpfVmNoData::new(Some(&prog))?.execute_program()?, 42);
/// # Ok::<(), std::io::Error>(())
/// ```
#[derive(Debug)]
pub struct EbpfVmNoData<'a> {
    parent: EbpfVmRaw<'a>,
}

impl<'a> EbpfVmNoData<'a> {
    /// A machine with the program that is given, if one is.
    pub fn new(prog: Option<&'a [u8]>) -> Result<EbpfVmNoData<'a>, Error> {
        let parent = EbpfVmRaw::new(prog)?;
        Ok(EbpfVmNoData { parent })
    }

    /// As [`EbpfVmRaw::set_program`].
    pub fn set_program(&mut self, prog: &'a [u8]) -> Result<(), Error> {
        self.parent.set_program(prog)
    }

    /// As [`EbpfVmRaw::register_helper`].
    pub fn register_helper(&mut self, key: u32, function: Helper) -> Result<(), Error> {
        self.parent.register_helper(key, function)
    }

    /// As [`EbpfVmRaw::register_helper_with`].
    pub fn register_helper_with(
        &mut self,
        key: u32,
        arity: u32,
        function: Helper,
    ) -> Result<(), Error> {
        self.parent.register_helper_with(key, arity, function)
    }

    /// Runs the program once, and answers R0. Refused without a program.
    pub fn execute_program(&self) -> Result<u64, Error> {
        self.parent.execute_program(&mut [])
    }
}

// A refusal as that crate's errors are.
fn refused(refusal: crate::Error) -> Error {
    Error::new(ErrorKind::Other, refusal)
}
