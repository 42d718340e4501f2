//! The proved planner for Rust: safe functions over the static library that `rt lib` makes in crates/export. Contracts: crates/export/src/lib.rt.
//!
//! Nothing is asked of a caller. A call that breaks a rule of documents 01 and 02, lists and tables of a wrong length included, is refused by
//! its number and place, and then nothing lent changes.
//!
//! ```
//! let plan = fothwen::Plan {
//!     mode: fothwen::FIXED, minutes: 60, allowance: 100,
//!     watts: &[3000, 5000], fuels: &[1_000_000_000; 2], energies: &[5000, 3000], limits: &[2, 2], quiet: &[],
//! };
//! let (mut table, mut spare) = ([0; 4], [0; 2]);
//! let answer = fothwen::allocate(&plan, &mut table, &mut spare).unwrap();
//! assert_eq!((answer.outcome, answer.minutes, answer.tries), (fothwen::Outcome::Found, 60, 2));
//! assert_eq!(table, [3000, 2000, 0, 3000]);
//! assert_eq!(fothwen::spare_lookup(&spare, 1), Ok(None));
//! assert_eq!(fothwen::allocate(&fothwen::Plan { mode: 2, ..plan }, &mut table, &mut spare), Err(fothwen::Refusal { number: 6, place: 1 }));
//! let crowd = fothwen::Plan { energies: &[1; 38], limits: &[1; 38], ..plan };
//! assert_eq!(fothwen::allocate(&crowd, &mut [0; 76], &mut spare), Err(fothwen::Refusal { number: 7, place: 0 }));
//!
//! // The second engine stands still from minute 10 to before minute 34. Before minute 75 it runs for 51 minutes and gives 4250 Wh, the first
//! // one 3750; a minute less is too short.
//! let quiet = fothwen::Plan { mode: fothwen::SHORTEST, minutes: 120, quiet: &[2, 10, 34], ..plan };
//! let answer = fothwen::allocate(&quiet, &mut table, &mut spare).unwrap();
//! assert_eq!((answer.outcome, answer.minutes, answer.tries), (fothwen::Outcome::Found, 75, 2));
//! assert_eq!(table, [3750, 1250, 0, 3000]);
//! let nobody = fothwen::Plan { quiet: &[3, 10, 34], ..plan };
//! assert_eq!(fothwen::allocate(&nobody, &mut table, &mut spare), Err(fothwen::Refusal { number: 10, place: 0 }));
//! let overlapping = fothwen::Plan { quiet: &[2, 10, 34, 2, 33, 50], ..plan };
//! assert_eq!(fothwen::allocate(&overlapping, &mut table, &mut spare), Err(fothwen::Refusal { number: 11, place: 0 }));
//! ```

/// MODE as a number. Any other is refused by 6 at place 1.
pub const FIXED: u64 = 0;
pub const SHORTEST: u64 = 1;

/// What a call with a file is lent, in numbers, and bytes that hold every print.
pub const FILE_TABLE: usize = 444;
pub const FILE_SPARE: usize = 12;
pub const LONGEST_PRINT: usize = 4_339;

#[derive(Clone, Copy, PartialEq, Eq, Debug)]
pub enum Outcome {
    Found,
    None,
    Stopped,
}

/// Under `SHORTEST` and found, the minutes are the shortest time.
#[derive(Clone, Copy, PartialEq, Eq, Debug)]
pub struct Answer {
    pub outcome: Outcome,
    pub minutes: u64,
    pub tries: u64,
}

/// A refusal's number in documents 01 and 02, and its place: the record at fault counted from 1, or 0.
#[derive(Clone, Copy, PartialEq, Eq, Debug)]
pub struct Refusal {
    pub number: u64,
    pub place: u64,
}

/// A plan on numbers. Engine i has `watts[i]` and `fuels[i]`, delivery p `energies[p]` and `limits[p]`. Each three numbers of `quiet` are a span
/// of minutes in which an engine stands still: the engine counted from 1, FROM included and TO excluded, 0 to 10,080, at most eight spans an
/// engine. They are checked last, one after the other, by 6 (FROM, TO), 10 (no such engine) and 11 (FROM not below TO, an overlap with an
/// earlier span of the engine, a ninth one), all at place 0; a length that is no multiple of three is 3.
#[derive(Clone, Copy, Debug)]
pub struct Plan<'a> {
    pub mode: u64,
    pub minutes: u64,
    pub allowance: u64,
    pub watts: &'a [u64],
    pub fuels: &'a [u64],
    pub energies: &'a [u64],
    pub limits: &'a [u64],
    pub quiet: &'a [u64],
}

// What crosses from the library, as crates/export/src/lib.rt has it.

#[repr(C)]
struct PlanReply {
    word: u64,
    minutes: u64,
    tries: u64,
    length: u64,
    number: u64,
    place: u64,
}

#[repr(C)]
struct LookupReply {
    word: u64,
    engine: u64,
    number: u64,
    place: u64,
}

extern "C" {
    fn fothwen_allocate(
        mode: u64, minutes: u64, allowance: u64,
        watts: *const u64, watts_length: usize, fuels: *const u64, fuels_length: usize,
        energies: *const u64, energies_length: usize, limits: *const u64, limits_length: usize,
        quiet: *const u64, quiet_length: usize,
        table: *mut u64, table_length: usize, spare: *mut u64, spare_length: usize,
    ) -> PlanReply;

    fn fothwen_plan_file(
        file: *const u8, file_length: usize, table: *mut u64, table_length: usize,
        spare: *mut u64, spare_length: usize, output: *mut u8, output_length: usize,
    ) -> PlanReply;

    fn fothwen_spare_lookup(spare: *const u64, spare_length: usize, amount: u64) -> LookupReply;
}

impl PlanReply {
    /// The answer with the length of its print. The numbers that do not belong to the word are 0; a word above 3 is no reply of the library.
    fn result(self) -> Result<(Answer, usize), Refusal> {
        let outcome = match self.word {
            0 => Outcome::Found,
            1 => Outcome::None,
            2 => Outcome::Stopped,
            3 => {
                debug_assert_eq!((self.minutes, self.tries, self.length), (0, 0, 0));
                return Err(Refusal { number: self.number, place: self.place });
            }
            word => panic!("the library returned the word {}", word),
        };
        debug_assert_eq!((self.number, self.place), (0, 0));
        Ok((Answer { outcome: outcome, minutes: self.minutes, tries: self.tries }, self.length as usize))
    }
}

/// The allocation on numbers. Lent are a piece table of deliveries × engines numbers, a row for each delivery, and a spare list of one number
/// for each engine. Found writes both; none, stopped and a refusal keep them.
pub fn allocate(plan: &Plan, table: &mut [u64], spare: &mut [u64]) -> Result<Answer, Refusal> {
    // Slices are valid for their lengths, and those lent for writing overlap nothing: all that the library asks.
    let reply = unsafe {
        fothwen_allocate(
            plan.mode, plan.minutes, plan.allowance,
            plan.watts.as_ptr(), plan.watts.len(), plan.fuels.as_ptr(), plan.fuels.len(),
            plan.energies.as_ptr(), plan.energies.len(), plan.limits.as_ptr(), plan.limits.len(),
            plan.quiet.as_ptr(), plan.quiet.len(),
            table.as_mut_ptr(), table.len(), spare.as_mut_ptr(), spare.len(),
        )
    };
    debug_assert_eq!(reply.length, 0);
    reply.result().map(|(answer, _)| answer)
}

/// The call with a file: the answer, and the length of its print. Lent are a piece table of `FILE_TABLE` numbers, a spare list of `FILE_SPARE`
/// and an output. An answer prints at the front of the output; found also fills what the plan has of table and spare list, from the front.
pub fn plan_file(file: &[u8], table: &mut [u64], spare: &mut [u64], output: &mut [u8]) -> Result<(Answer, usize), Refusal> {
    // As in `allocate`.
    let reply = unsafe {
        fothwen_plan_file(
            file.as_ptr(), file.len(), table.as_mut_ptr(), table.len(),
            spare.as_mut_ptr(), spare.len(), output.as_mut_ptr(), output.len(),
        )
    };
    reply.result()
}

/// Some engine with that much to spare, counted from 0, or none. Which of several it is, is open.
pub fn spare_lookup(spare: &[u64], amount: u64) -> Result<Option<usize>, Refusal> {
    // As in `allocate`.
    let reply = unsafe { fothwen_spare_lookup(spare.as_ptr(), spare.len(), amount) };
    match reply.word {
        0 => {
            debug_assert_eq!((reply.number, reply.place), (0, 0));
            Ok(Some(reply.engine as usize))
        }
        1 => {
            debug_assert_eq!((reply.engine, reply.number, reply.place), (0, 0, 0));
            Ok(None)
        }
        3 => {
            debug_assert_eq!(reply.engine, 0);
            Err(Refusal { number: reply.number, place: reply.place })
        }
        word => panic!("the library returned the word {}", word),
    }
}
