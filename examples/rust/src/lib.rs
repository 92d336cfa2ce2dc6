//! Picks versions, and runs scripts of the clause store, by Nivolakku's proved libraries.
//!
//! [`Index::pick`] answers in Rust's types, and [`script`] gives the transcript of a script. [`calls`] has the functions
//! of the libraries, over buffers of the caller's.
pub mod calls;
mod fault;

pub use calls::Outcome;
pub use fault::{PickError, ScriptError};

/// How far a search may go unless it is told.
pub const STEPS: u64 = 1_000_000;

/// The room of a first buffer.
const FIRST_ROOM: usize = 4096;

/// A package and its version.
#[derive(Clone, Debug, PartialEq, Eq, Hash, PartialOrd, Ord)]
pub struct Picked {
    pub name: String,
    pub version: String,
}

/// A text with one index: what is requested, and which versions there are.
#[derive(Clone, Copy, Debug)]
pub struct Index<'a> {
    text: &'a [u8],
    steps: u64,
}

impl<'a> Index<'a> {
    /// The index of a text.
    pub fn new(text: &'a (impl AsRef<[u8]> + ?Sized)) -> Self {
        let text = text.as_ref();
        Index { text, steps: STEPS }
    }

    /// The same, whose search may make so many steps.
    pub fn with_steps(self, steps: u64) -> Self {
        Index { steps, ..self }
    }

    /// The versions that are picked.
    pub fn pick(self) -> Result<Vec<Picked>, PickError> {
        let (outcome, answer) = self.answer();
        match outcome {
            Outcome::Picked => Ok(picked_in(&answer)),
            other => Err(PickError::of(other, &answer)),
        }
    }

    /// What became of the index, and the text that `pick_versions` prints for it.
    pub fn answer(self) -> (Outcome, Vec<u8>) {
        with_room(|buffer| calls::pick(self.text, self.steps, buffer))
    }
}

/// The transcript of a script: a line for each command.
pub fn script(text: impl AsRef<[u8]>) -> Result<String, ScriptError> {
    let (ended, transcript) = with_room(|buffer| calls::script(text.as_ref(), buffer));
    ScriptError::check(ended, String::from_utf8_lossy(&transcript).into_owned())
}

/// The versions that an answer names.
fn picked_in(answer: &[u8]) -> Vec<Picked> {
    let mut places = vec![calls::Version::default(); calls::versions(answer, &mut [])];
    calls::versions(answer, &mut places);
    let text = |from: usize, length: usize| {
        String::from_utf8_lossy(&answer[from..from + length]).into_owned()
    };
    let picked = |place: &calls::Version| Picked {
        name: text(place.name, place.name_length),
        version: text(place.version, place.version_length),
    };
    places.iter().map(picked).collect()
}

/// What a call answers, in a buffer that is long enough.
fn with_room<T>(call: impl Fn(&mut [u8]) -> Result<(T, usize), calls::TooSmall>) -> (T, Vec<u8>) {
    let mut buffer = vec![0; FIRST_ROOM];
    loop {
        match call(&mut buffer) {
            Ok((told, length)) => {
                buffer.truncate(length);
                return (told, buffer);
            }
            Err(small) => buffer.resize(small.needed, 0),
        }
    }
}
