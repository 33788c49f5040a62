//! The refusals: of each what is wrong, and what to do. Made by docs/refusals.py.

/// What is wrong and what to do, where there is a refusal of this number.
pub(crate) fn words(number: u8) -> Option<(&'static str, &'static str)> {
    Some(match number {
        1 => (
            "there is no instruction",
            "write one at least: the shortest program is `mov64 r0, 0` and `exit`",
        ),
        2 => (
            "the length in bytes is no multiple of 8",
            "give the program's slots alone, of 8 bytes each; of an ELF object that is its section `.text`",
        ),
        3 => (
            "the program has more than 4096 slots",
            "make several programs of it, of at most 4096 slots each",
        ),
        4 => (
            "no instruction has this opcode with these fields",
            "use the groups base and divmul; atomics, packet loads, maps and calls into the program are left out",
        ),
        5 => (
            "a register over 10 is used",
            "use r0 to r10",
        ),
        6 => (
            "a field that the instruction does not use is not zero",
            "set the fields to zero that the instruction does not use",
        ),
        7 => (
            "the second slot of a wide load is missing",
            "let the second slot follow: `lddw` takes 16 bytes",
        ),
        11 => (
            "no instruction has this word",
            "write a word of the table, such as `mov64`, `ldxb` or `jeq32`, in lower case, and one space behind it",
        ),
        12 => (
            "the operands are not those of the word",
            "write them as the table does, with decimal numbers: `mov64 r0, 16`, `ldxb r0, [r1+0]`, `jeq r0, 0, +2`",
        ),
        13 => (
            "a number or a register is out of range",
            "use r0 to r10, offsets of 16 bits and numbers of 32; `lddw` takes a number of 64",
        ),
        21 => (
            "a jump leads out of the program",
            "let it lead to an instruction: an offset counts slots from the next one on",
        ),
        22 => (
            "a jump leads into the middle of a wide load",
            "count two slots for `lddw`, and jump to the first",
        ),
        23 => (
            "a path leads back to where it has been: there is a loop",
            "write the rounds one behind the other; loops are left out by design, so that each run ends",
        ),
        24 => (
            "the program may run past its end",
            "end each path by `exit` or by a jump",
        ),
        25 => (
            "no path leads to an instruction",
            "take it out, or let a jump lead there",
        ),
        31 => (
            "a register is read that may be unset",
            "set it on each way there: r1, r2, r3 and r10 are set at the start, and a call leaves r1 to r5 unset",
        ),
        32 => (
            "an access may leave the 512 bytes of the stack",
            "stay between r10-512 and r10-1: `[r10-8]` has the last 8 bytes",
        ),
        33 => (
            "an access may leave the bytes of the part that the program needs",
            "verify with a larger need, or let a jump test the index ahead of the access",
        ),
        34 => (
            "a number where a pointer has to be, or a pointer for a number",
            "take addresses from r1 or r10, keep pointers out of memory and of r0 at `exit`, and lengths at most 512",
        ),
        35 => (
            "a pointer may go too far from its region",
            "let a jump test the number first: a pointer goes at most 1048576 bytes from its region's first",
        ),
        36 => (
            "r10 is written",
            "change a copy: `mov64 r2, r10`, and then `add64 r2, -8`",
        ),
        37 => (
            "no helper has this number",
            "call 1 to 5, or a helper of 64 to 127 that the host registered",
        ),
        38 => (
            "the need is over 65536 bytes",
            "need at most 65536 bytes",
        ),
        41 => (
            "nothing is held: no program, no job or no desk",
            "load the program, open the job or make the desk first, and look whether that was refused",
        ),
        42 => (
            "the credit is under the program's cost",
            "give as much as the verdict says that the program costs",
        ),
        43 => (
            "the memory is too short, or not as long as at the start",
            "give as many bytes as the program needs; a task that goes on wants the length that it began with",
        ),
        44 => (
            "the id of a host's helper is none of 64 to 127",
            "register it by an id of 64 to 127",
        ),
        45 => (
            "a helper takes more than 5 arguments",
            "take at most 5 arguments, which are r1 to r5",
        ),
        46 => (
            "a program is set already",
            "register helpers before a program is set",
        ),
        47 => (
            "the task has ended, or there is none",
            "start another task",
        ),
        48 => (
            "the program may call the host's helpers, and is run without a task",
            "start a task of it, which stops where it asks its host",
        ),
        51 => (
            "the job has no such task",
            "tell the makers: no job comes to it",
        ),
        52 => (
            "more is used than the task holds",
            "tell the makers: no job comes to it",
        ),
        53 => (
            "the share is over the credit that the task holds",
            "tell the makers: no job comes to it",
        ),
        61 => (
            "the job has no program",
            "give 1 to 16 programs, of which the first is the root's",
        ),
        62 => (
            "the job has more than 16 programs",
            "give 1 to 16 programs",
        ),
        63 => (
            "the credit is under the cost of the root",
            "give as much as the verdict says that program 0 costs, and more for what it spawns",
        ),
        64 => (
            "the buffer is shorter than the need of the root",
            "give as many bytes as program 0 needs, and more for what it spawns",
        ),
        65 => (
            "a length or a credit is over its limit, or a room is too short",
            "give at most 65536 bytes and a credit of 2147483647, and as much room as the length tells",
        ),
        71 => (
            "a frame is over 1048576 bytes",
            "send shorter requests over a new connection",
        ),
        72 => (
            "this is no JSON",
            "write one JSON object in UTF-8, without a byte order mark",
        ),
        73 => (
            "there is no such request, or a text is not UTF-8 or hexadecimal",
            "write requests as docs/protocol.md has them, sources in UTF-8, and bytes as pairs of hexadecimal digits",
        ),
        74 => (
            "there is no such tenant here",
            "name a tenant with an account, at its own socket if it has one",
        ),
        75 => (
            "the credit is over the tenant's balance",
            "ask for less, or have more granted",
        ),
        76 => (
            "there is no such job, or it is forgotten",
            "ask by the number that the submit was answered, while the report is kept",
        ),
        77 => (
            "the job is not complete",
            "ask again once its status says that it is",
        ),
        78 => (
            "there is no such connection",
            "begin a conversation first, and use none that has ended",
        ),
        81 => (
            "the job failed: no thread could start, or too many jobs were open",
            "submit it again later: its credit is back in the balance",
        ),
        82 => (
            "the job failed: its report does not add up to its credit",
            "look at who ran it: a report has to tell all of the credit as spent or returned",
        ),
        83 => (
            "the input could not be read",
            "look whether the file is there and may be read, or whether the other end is gone",
        ),
        84 => (
            "the output could not be written",
            "look whether there is room and whether the other end still reads",
        ),
        99 => (
            "out of memory",
            "ask again when there is more memory: nothing has changed",
        ),
        _ => return None,
    })
}
