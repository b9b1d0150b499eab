//! Laguipy: a checker of simulation graphs.
//!
//! A *model* is a Markov decision process written as guarded commands with
//! chances; a *graph* is an explorer's answer about it. Both come as folders of
//! bytes. The checker believes nothing of them: it either names the first broken
//! rule and where, a [`Refusal`], or accepts, with a [`Summary`]. No strategy
//! reaches a target of the model with a greater chance than the root value of an
//! accepted graph. In Laguipy's repository, `docs/FORMAT.md` has the folders byte by
//! byte, and `docs/REFUSALS.md` the rules, by the number of the refusal.
//!
//! The checker itself is a static library, machine-checked: every call is proved
//! to answer by these rules, on every input, of any content and length. This crate
//! links it and wraps each call. No call panics, allocates, or keeps anything; all
//! may be made from any number of threads at once.
//!
//! Values and figures are whole units; [`CERTAIN`] units are certainty.
//!
//! # Linking
//!
//! The static library is for x86-64, and has to be there before this crate is
//! built. `make` in Laguipy's repository puts it at `build/lib/liblaguipy.a`, where
//! it is found while the crate stands in the repository. From anywhere else, or for
//! an installed Laguipy, set `LAGUIPY_LIB_DIR` to the full path of the folder that
//! holds `liblaguipy.a`, the name under which it is installed, or `liblaguipy_c.a`,
//! as `rt lib` names it:
//!
//! ```text
//! LAGUIPY_LIB_DIR=/usr/local/lib cargo build
//! ```
//!
//! # Example
//!
//! ```
//! use laguipy::{figure, graph_check, Refusal};
//!
//! let model = include_bytes!("../examples/pedal/model.fold");
//! let graph = include_bytes!("../examples/pedal/graph.fold");
//! let summary = graph_check(model, graph).expect("an accepted graph");
//! assert_eq!(summary.root, 10_000_000);
//!
//! let (mut first, mut second) = ([0; 6], [0; 6]);
//! let figures = figure(model, graph, 2, &mut first, &mut second).expect("no node waits");
//! assert_eq!(figures, [10_000_000, 0, 100_000_000, 10_000_000, 0, 1_000_000_000]);
//!
//! assert_eq!(graph_check(model, &graph[1..]), Err(Refusal { number: 13, place: 0, second: 0 }));
//! ```
//!
//! # Tests and examples
//!
//! - `tests/reference`: the same calls in plain Rust, for comparison; it was written
//!   from the rules alone, and shares no code with the checker;
//! - `tests/generate`: models and graphs, valid, nearly valid, damaged and at the
//!   limits, each from a seed (the environment variable `LAGUIPY_CASES` says how
//!   many seeds the tests take);
//! - `tests/against_reference.rs`: every call compared with the plain one;
//! - `tests/building.rs`: graphs that are built, compared byte for byte with those of
//!   two plain builders, one by the paper's words and a quick one;
//! - `examples/check.rs`: prints the check program's report, without its limit of
//!   65,536 bytes; `examples/bench.rs`: how long the calls and the plain ones take
//!   on the largest inputs; `examples/answers.rs`: inputs with the plain calls'
//!   answers, for tests of bindings in other languages.

/// The version of this crate, and of the library that comes with it.
pub const VERSION: &str = env!("CARGO_PKG_VERSION");

/// Certainty, in units.
pub const CERTAIN: u32 = 1_000_000_000;

/// The most steps that a figure may be asked for.
pub const MOST_STEPS: usize = 10_000;

/// The most nodes that a graph may have: rows of this length are long enough for
/// the figures and the listing of any.
pub const MOST_NODES: usize = 4_096;

/// The most variables that a model may have: a result row of this length is long
/// enough for any step.
pub const MOST_VARIABLES: usize = 16;

/// The most bytes that a model folder may have.
pub const MODEL_BYTES: usize = 40_000;

/// The most bytes that a graph folder may have.
pub const GRAPH_BYTES: usize = 1_048_576;

/// The slots of an index: exactly as long is the row for them.
pub const SLOTS: usize = 8_192;

/// What stands for no node, in an empty slot or as an answer.
pub const NO_NODE: u16 = 65_535;

/// What stands for no variable, as the second place of a refusal.
pub const NO_VARIABLE: usize = 65_535;

/// Rounds that [`build`] may be asked for.
pub const MOST_ROUNDS: usize = 1000;

/// The highest number of a refusal.
pub const LAST_REFUSAL: u32 = 35;

/// The first broken rule: its number, and the two places returned with it.
/// `docs/REFUSALS.md` in Laguipy's repository says of each number what it means, what
/// its places are and what to do.
#[derive(Clone, Copy, Debug, PartialEq, Eq, Hash, PartialOrd, Ord)]
pub struct Refusal {
    pub number: u32,
    /// An entry, a variable, an expression, a node and so on.
    pub place: usize,
    /// For 19 the lowest variable that the unknown guard or target mentions and the
    /// node does not track, for 21 the assigned variable that does not lead to the
    /// successor's label; for both [`NO_VARIABLE`] if it is another fault. 0 for all
    /// other numbers.
    pub second: usize,
}

/// The check program's line, which has the first place alone.
impl std::fmt::Display for Refusal {
    fn fmt(&self, to: &mut std::fmt::Formatter<'_>) -> std::fmt::Result {
        write!(to, "refused {} {}", self.number, self.place)
    }
}

impl std::error::Error for Refusal {}

/// What is told of an accepted graph: the root value, and how many nodes there
/// are of each kind.
#[derive(Clone, Copy, Debug, PartialEq, Eq, Hash)]
pub struct Summary {
    pub root: u32,
    pub waiting: usize,
    pub expanded: usize,
    pub covered: usize,
    pub target: usize,
}

/// include/laguipy.h, which says what each function answers.
mod c {
    extern "C" {
        pub fn laguipy_model_check(model: *const u8, model_len: usize, place: *mut [usize; 2]) -> usize;
        pub fn laguipy_record_part(
            model: *const u8,
            model_len: usize,
            body: usize,
            record: usize,
            part: *mut [usize; 2],
        );
        pub fn laguipy_graph_check(
            model: *const u8,
            model_len: usize,
            graph: *const u8,
            graph_len: usize,
            place: *mut [usize; 2],
            values: *mut [usize; 5],
        ) -> usize;
        pub fn laguipy_figure_refusal(
            model: *const u8,
            model_len: usize,
            graph: *const u8,
            graph_len: usize,
            h: usize,
            first: *const u32,
            first_len: usize,
            second: *const u32,
            second_len: usize,
            place: *mut [usize; 2],
        ) -> usize;
        pub fn laguipy_figure_rows(
            model: *const u8,
            model_len: usize,
            graph: *const u8,
            graph_len: usize,
            h: usize,
            first: *mut u32,
            first_len: usize,
            second: *mut u32,
            second_len: usize,
            place: *mut [usize; 2],
        ) -> usize;
        pub fn laguipy_figure(
            model: *const u8,
            model_len: usize,
            graph: *const u8,
            graph_len: usize,
            h: usize,
            first: *mut u32,
            first_len: usize,
            second: *mut u32,
            second_len: usize,
            place: *mut [usize; 2],
            part: *mut [usize; 2],
        ) -> usize;
        pub fn laguipy_build(
            model: *const u8,
            model_len: usize,
            rounds: usize,
            out: *mut u8,
            out_len: usize,
            place: *mut [usize; 2],
            length: *mut usize,
        ) -> usize;
        pub fn laguipy_index(
            model: *const u8,
            model_len: usize,
            graph: *const u8,
            graph_len: usize,
            slots: *mut u16,
            slots_len: usize,
            batch: *const i16,
            batch_len: usize,
            answers: *mut u16,
            answers_len: usize,
            listing: *mut u16,
            listing_len: usize,
            place: *mut [usize; 2],
            listed: *mut usize,
        ) -> usize;
        pub fn laguipy_step(
            model: *const u8,
            model_len: usize,
            state: *const i16,
            state_len: usize,
            command: usize,
            branch: usize,
            result: *mut i16,
            result_len: usize,
            place: *mut [usize; 2],
        ) -> usize;
    }
}

/// Number and places as an answer; numbers are at most [`LAST_REFUSAL`].
fn outcome(number: usize, [place, second]: [usize; 2]) -> Result<(), Refusal> {
    match number {
        0 => Ok(()),
        _ => Err(Refusal { number: number as u32, place, second }),
    }
}

/// The model check: refusals 1 to 11 (docs/REFUSALS.md).
///
/// # Errors
///
/// The first of them that applies, at its lowest place.
pub fn model_check(model: &[u8]) -> Result<(), Refusal> {
    let mut place = [0; 2];
    // SAFETY: the pointers are of a slice with its length and of a local, and are
    // not kept.
    let number = unsafe { c::laguipy_model_check(model.as_ptr(), model.len(), &mut place) };
    outcome(number, place)
}

/// The view: a record of the model folder, by the number of its body (0 terms, 1
/// variables, 2 expressions, 3 commands, 4 branches) and its own. Where the model
/// check refuses with 1, 2 or 3, or there is no such body or record, the empty part
/// at the folder's start.
pub fn record_part(model: &[u8], body: usize, record: usize) -> &[u8] {
    let mut part = [0; 2];
    // SAFETY: as in `model_check`.
    unsafe { c::laguipy_record_part(model.as_ptr(), model.len(), body, record, &mut part) };
    let [start, length] = part;
    model.get(start..).and_then(|rest| rest.get(..length)).unwrap_or(&model[..0])
}

/// The graph check: refusals 1 to 11, then 12 to 25.
///
/// # Errors
///
/// The first of them that applies, at its lowest place; but 18 to 25 are finished
/// for one node before the next.
pub fn graph_check(model: &[u8], graph: &[u8]) -> Result<Summary, Refusal> {
    let (mut place, mut values) = ([0; 2], [0; 5]);
    // SAFETY: as in `model_check`; the two locals are apart.
    let number = unsafe {
        c::laguipy_graph_check(
            model.as_ptr(),
            model.len(),
            graph.as_ptr(),
            graph.len(),
            &mut place,
            &mut values,
        )
    };
    let [root, waiting, expanded, covered, target] = values;
    // The root value is at most S.
    outcome(number, place).map(|()| Summary { root: root as u32, waiting, expanded, covered, target })
}

/// What [`figure`] answers on these arguments; nothing is written.
///
/// # Errors
///
/// As [`figure`].
pub fn figure_refusal(
    model: &[u8],
    graph: &[u8],
    h: usize,
    first: &[u32],
    second: &[u32],
) -> Result<(), Refusal> {
    let mut place = [0; 2];
    // SAFETY: as in `model_check`; the rows are read only.
    let number = unsafe {
        c::laguipy_figure_refusal(
            model.as_ptr(),
            model.len(),
            graph.as_ptr(),
            graph.len(),
            h,
            first.as_ptr(),
            first.len(),
            second.as_ptr(),
            second.len(),
            &mut place,
        )
    };
    outcome(number, place)
}

/// The figures for `h` steps, by both rows: round `h` stands in the first row when
/// `h` is even, else in the second, one figure per node, and round `h` − 1 in the
/// other, which is untouched at `h` = 0. Elements past the node count stay, and
/// both rows when refused.
///
/// # Errors
///
/// As [`figure`].
pub fn figure_rows(
    model: &[u8],
    graph: &[u8],
    h: usize,
    first: &mut [u32],
    second: &mut [u32],
) -> Result<(), Refusal> {
    let mut place = [0; 2];
    // SAFETY: as in `model_check`; slices that are lent to be written are apart.
    let number = unsafe {
        c::laguipy_figure_rows(
            model.as_ptr(),
            model.len(),
            graph.as_ptr(),
            graph.len(),
            h,
            first.as_mut_ptr(),
            first.len(),
            second.as_mut_ptr(),
            second.len(),
            &mut place,
        )
    };
    outcome(number, place)
}

/// The figures for `h` steps, as [`figure_rows`] leaves them: the part of a row
/// that holds them, one per node. Each is an upper bound of the best chance, from
/// that node's concrete state, to reach a target within `h` steps, and at most `h`
/// units above it.
///
/// # Errors
///
/// The graph check's refusal; then 26 where a node is waiting, 27 where `h` is
/// over [`MOST_STEPS`], 28 where a row is shorter than the nodes.
pub fn figure<'a>(
    model: &[u8],
    graph: &[u8],
    h: usize,
    first: &'a mut [u32],
    second: &'a mut [u32],
) -> Result<&'a mut [u32], Refusal> {
    let (mut place, mut part) = ([0; 2], [0; 2]);
    // SAFETY: as in `figure_rows`; the two locals are apart.
    let number = unsafe {
        c::laguipy_figure(
            model.as_ptr(),
            model.len(),
            graph.as_ptr(),
            graph.len(),
            h,
            first.as_mut_ptr(),
            first.len(),
            second.as_mut_ptr(),
            second.len(),
            &mut place,
            &mut part,
        )
    };
    let [row, length] = part;
    let row = if row == 0 { first } else { second };
    outcome(number, place).map(|()| row.get_mut(..length).unwrap_or(&mut []))
}

/// The index of the nodes by their concrete states, and which uncovered nodes share
/// one; how many these are.
///
/// - `slots`, all of them: the nodes upward, each only if its concrete state is new,
///   in the first slot of that state or the next free one, round the end; [`NO_NODE`]
///   in the rest. The first slot is the remainder by [`SLOTS`] of the 32-bit FNV-1a
///   hash of the state's bytes, two per variable as a graph folder has them.
/// - `answers`, one for each state of the batch, whose values stand one after the
///   other, one per variable: the lowest-numbered node with that concrete state, or
///   [`NO_NODE`]. A batch may be empty, and hold any values.
/// - `listing`, as many as are returned, ascending: every uncovered node, waiting and
///   target too, with the concrete state of a lower uncovered one.
///
/// Later elements of `answers` and `listing` stay, and all rows when refused.
///
/// # Errors
///
/// The graph check's refusal; then 34 where `slots` is not [`SLOTS`] long (place 0),
/// the batch is not whole states (1), `answers` is shorter than the batch has states
/// (2) or `listing` than the graph has nodes (3).
///
/// # Example
///
/// ```
/// use laguipy::{index, NO_NODE, SLOTS};
///
/// let model = include_bytes!("../examples/pedal/model.fold");
/// let graph = include_bytes!("../examples/pedal/graph.fold");
/// let (mut slots, mut answers, mut listing) = ([0; SLOTS], [0; 3], [0; 6]);
/// let batch = [3, 0, 0, 1, 3, 1];
/// let listed = index(model, graph, &mut slots, &batch, &mut answers, &mut listing);
/// // Nodes 1 and 4 have the first state, but 4 is covered.
/// assert_eq!((listed, answers), (Ok(0), [1, 3, NO_NODE]));
/// assert_eq!(slots.iter().filter(|&&node| node != NO_NODE).count(), 5);
/// ```
pub fn index(
    model: &[u8],
    graph: &[u8],
    slots: &mut [u16],
    batch: &[i16],
    answers: &mut [u16],
    listing: &mut [u16],
) -> Result<usize, Refusal> {
    let (mut place, mut listed) = ([0; 2], 0);
    // SAFETY: as in `figure_rows`; the two locals are apart.
    let number = unsafe {
        c::laguipy_index(
            model.as_ptr(),
            model.len(),
            graph.as_ptr(),
            graph.len(),
            slots.as_mut_ptr(),
            slots.len(),
            batch.as_ptr(),
            batch.len(),
            answers.as_mut_ptr(),
            answers.len(),
            listing.as_mut_ptr(),
            listing.len(),
            &mut place,
            &mut listed,
        )
    };
    outcome(number, place).map(|()| listed)
}

/// Builds a graph of the model in a slice, with its values after `rounds` rounds, at most
/// [`MOST_ROUNDS`]. Returns the graph's length; bytes past it are untouched. Every graph built
/// is accepted by [`graph_check`].
///
/// Building ends when the next expansion would pass [`MOST_NODES`] nodes or the slice; nodes
/// that wait then stay waiting, and the root value is a bound all the same.
///
/// # Errors
///
/// Refusals of the model, then 35: at place 0 if the slice cannot hold a graph of one node, at
/// place 1 if more rounds are asked for than may be. Refused, the slice is untouched.
///
/// # Example
///
/// ```
/// # fn main() -> Result<(), laguipy::Refusal> {
/// let model = include_bytes!("../examples/pedal/model.fold");
/// let mut out = [0; 1000];
/// let length = laguipy::build(model, 1000, &mut out)?;
/// let summary = laguipy::graph_check(model, &out[..length])?;
/// assert_eq!((length, summary.expanded), (152, 3));
/// # Ok(())
/// # }
/// ```
pub fn build(model: &[u8], rounds: usize, out: &mut [u8]) -> Result<usize, Refusal> {
    let (mut place, mut length) = ([0; 2], 0);
    // SAFETY: as in `figure_rows`; the two locals are apart.
    let number = unsafe {
        c::laguipy_build(
            model.as_ptr(),
            model.len(),
            rounds,
            out.as_mut_ptr(),
            out.len(),
            &mut place,
            &mut length,
        )
    };
    outcome(number, place).map(|()| length)
}

/// The step of a state by a command and a branch, also from a target. The new
/// state stands first in the result row, whose later elements stay, and all of
/// them when refused.
///
/// # Errors
///
/// The model check's refusal; then 29 where the state is not one value per
/// variable or the result row is shorter, 30 where a value is outside its range,
/// 31 where there is no such command, 32 where its guard is false, 33 where it has
/// no such branch.
pub fn step(
    model: &[u8],
    state: &[i16],
    command: usize,
    branch: usize,
    result: &mut [i16],
) -> Result<(), Refusal> {
    let mut place = [0; 2];
    // SAFETY: as in `figure_rows`.
    let number = unsafe {
        c::laguipy_step(
            model.as_ptr(),
            model.len(),
            state.as_ptr(),
            state.len(),
            command,
            branch,
            result.as_mut_ptr(),
            result.len(),
            &mut place,
        )
    };
    outcome(number, place)
}
