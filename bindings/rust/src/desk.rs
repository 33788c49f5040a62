//! Desks: accounts and jobs of many clients, whatever carries their bytes.

use std::fmt;

use crate::error::{passed, Error};
use crate::job::{Report, Task};
use crate::raw;

pub use crate::raw::Sent;

/// Accounts, jobs that wait for the host, and a conversation for each connection: the protocol of
/// the server, as bytes in and bytes out. The host carries the bytes, and runs the jobs.
///
/// ```
/// use telgovan::{Desk, Job, Task};
///
/// fn frame(text: &str) -> Vec<u8> {
///     [&(text.len() as u32).to_be_bytes()[..], text.as_bytes()].concat()
/// }
///
/// let mut desk = Desk::new()?;
/// let client = desk.connect()?;
/// desk.feed(client, &frame(r#"{"op":"grant","tenant":"t","amount":100}"#))?;
///
/// // mov64 r0, 42; exit
/// let code = "b70000002a0000009500000000000000";
/// let programs = format!(r#""programs":[{{"need":0,"code":"{code}"}}]"#);
/// let job = format!(r#"{{"op":"submit","tenant":"t","credit":9,"buffer":"",{programs}}}"#);
/// desk.feed(client, &frame(&job))?;
///
/// let handed = desk.next_job()?.expect("a job waits");
/// assert_eq!(handed.number, 1);
/// assert_eq!(handed.object, format!(r#"{{"buffer":"","credit":9,{programs}}}"#)
///     .replace(&format!(r#""need":0,"code":"{code}""#), &format!(r#""code":"{code}","need":0"#)));
///
/// let mut tasks = [Task::default(); 1];
/// let code = telgovan::assemble("mov64 r0, 42\nexit")?;
/// let report = Job::new(0, &code).play(9, &mut [], &mut tasks)?;
/// desk.finish(handed.number, &report, &[], &tasks)?;
/// assert_eq!(desk.fail(handed.number, 99).expect_err("it is over").number(), Some(76));
///
/// let mut room = [0; 4096];
/// let sent = desk.replies(client, &mut room)?;
/// assert_eq!(sent.left, 0);
/// assert!(room[..sent.count as usize].ends_with(br#"{"job":1,"ok":true}"#));
/// # Ok::<(), telgovan::Error>(())
/// ```
///
/// It may go to another thread, but one call at a time uses it.
pub struct Desk {
    handle: raw::Desk,
}

/// A job that is handed over to the host.
///
/// ```
/// use telgovan::{Desk, HandedJob};
///
/// fn hand_over(desk: &mut Desk, run: impl Fn(&HandedJob)) -> Result<(), telgovan::Error> {
///     while let Some(handed) = desk.next_job()? {
///         println!("job {}: {} bytes of JSON", handed.number, handed.object.len());
///         run(&handed);
///     }
///     Ok(())
/// }
///
/// hand_over(&mut Desk::new()?, |_| unreachable!("no job waits"))?;
/// # Ok::<(), telgovan::Error>(())
/// ```
#[derive(Clone, Debug, PartialEq, Eq)]
pub struct HandedJob {
    /// Its number, counted from 1.
    pub number: u64,
    /// Its object as JSON, which `bpfjobs run` reads.
    pub object: String,
}

impl Desk {
    /// A desk without tenants, jobs and connections. Refused for want of memory alone, by 99.
    pub fn new() -> Result<Desk, Error> {
        let mut desk = Desk {
            handle: raw::Desk::none(),
        };
        // The library writes the handle alone.
        passed(unsafe { raw::telgovan_desk_new(&mut desk.handle) })?;
        Ok(desk)
    }

    /// Begins a conversation with a client, and answers the number of its connection, which is
    /// given once. Refused for want of memory alone, by 99.
    pub fn connect(&mut self) -> Result<u64, Error> {
        let mut connection = 0;
        // The library writes the handle and the number alone.
        passed(unsafe { raw::telgovan_desk_connect(&mut self.handle, &mut connection) })?;
        Ok(connection)
    }

    /// Takes bytes that came on a connection, and answers each frame that is whole now. The replies
    /// wait to be sent.
    ///
    /// 78 where there is no such connection. 71 where a length over the limit came, which is
    /// answered too, or 99: the conversation is over then. The replies to a piece are held until
    /// they are sent, so give few bytes at once.
    pub fn feed(&mut self, connection: u64, piece: &[u8]) -> Result<(), Error> {
        // The library reads the piece, and writes the handle alone.
        passed(unsafe {
            raw::telgovan_desk_feed(&mut self.handle, connection, piece.as_ptr(), piece.len())
        })
    }

    /// Writes bytes that are to be sent on a connection into the room, as many as there is room
    /// for. They count as sent. 78 where there is no such connection.
    pub fn replies(&mut self, connection: u64, room: &mut [u8]) -> Result<Sent, Error> {
        let mut sent = Sent::default();
        // The library writes the handle, the room and what is told alone.
        passed(unsafe {
            raw::telgovan_desk_replies(
                &mut self.handle,
                connection,
                room.as_mut_ptr(),
                room.len(),
                &mut sent,
            )
        })?;
        Ok(sent)
    }

    /// Ends the conversation of a connection, and drops what was still to be sent. Its jobs stay.
    /// 78 where there is no such connection.
    pub fn disconnect(&mut self, connection: u64) -> Result<(), Error> {
        // The library writes the handle alone.
        passed(unsafe { raw::telgovan_desk_disconnect(&mut self.handle, connection) })
    }

    /// The job of lowest number that waits, handed over once, if one waits. Refused for want of
    /// memory alone, by 99.
    pub fn next_job(&mut self) -> Result<Option<HandedJob>, Error> {
        let mut handed = raw::Handed::default();
        let mut room = vec![0; 4096];
        loop {
            // The library writes the handle, the room and what is told alone.
            let status = unsafe {
                raw::telgovan_desk_next_job(
                    &mut self.handle,
                    room.as_mut_ptr(),
                    room.len(),
                    &mut handed,
                )
            };
            if status != 65 {
                passed(status)?;
                break;
            }
            room.resize(handed.length as usize, 0);
        }
        if handed.job == 0 {
            return Ok(None);
        }
        room.truncate(handed.length as usize);
        Ok(Some(HandedJob {
            number: handed.job,
            object: String::from_utf8(room).expect("the object is UTF-8"),
        }))
    }

    /// Ends a job that was handed over with its report, the buffer as the job left it, and the
    /// tasks that are to be told. 76 where it is over already, or wasn't handed over; 65 where a
    /// task's program is over 65,535. A report that doesn't add up to the job's credit counts as
    /// 82.
    pub fn finish(
        &mut self,
        number: u64,
        report: &Report,
        buffer: &[u8],
        tasks: &[Task],
    ) -> Result<(), Error> {
        let report = raw::Report {
            tasks: report.tasks,
            spent: report.spent,
            returned: report.returned,
            ..raw::Report::default()
        };
        self.end(number, &report, buffer, tasks)
    }

    /// Ends a job that was handed over by the number of what it failed by, which isn't 0. Its whole
    /// credit goes back.
    ///
    /// # Panics
    ///
    /// Where the number is 0.
    pub fn fail(&mut self, number: u64, code: u8) -> Result<(), Error> {
        assert_ne!(code, 0, "0 is no failure");
        let report = raw::Report {
            status: code.into(),
            ..raw::Report::default()
        };
        self.end(number, &report, &[], &[])
    }

    fn end(
        &mut self,
        number: u64,
        report: &raw::Report,
        buffer: &[u8],
        tasks: &[Task],
    ) -> Result<(), Error> {
        // The library reads the report, the buffer and the tasks, and writes the handle alone.
        passed(unsafe {
            raw::telgovan_desk_finish(
                &mut self.handle,
                number,
                report,
                buffer.as_ptr(),
                buffer.len(),
                tasks.as_ptr(),
                tasks.len(),
            )
        })
    }
}

impl Drop for Desk {
    fn drop(&mut self) {
        // The library frees what the handle holds, and leaves a handle that holds nothing.
        unsafe { raw::telgovan_desk_free(&mut self.handle) }
    }
}

impl fmt::Debug for Desk {
    fn fmt(&self, f: &mut fmt::Formatter<'_>) -> fmt::Result {
        f.debug_struct("Desk").finish_non_exhaustive()
    }
}
