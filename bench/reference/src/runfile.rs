//! The run file: its bytes, judged as a whole before any step is run.

use crate::faults::Fault;

/// The most memory bytes, steps and card bytes of a run.
const MOST_MEMORY: u32 = 32_768;
const MOST_STEPS: u32 = 512;
const MOST_CARD: u32 = 16_384;

/// The bytes of a step.
const STEP_BYTES: usize = 20;

/// One step as it stands in the file.
#[derive(Clone, Debug, PartialEq, Eq)]
pub struct Step {
    pub kind: u8,
    pub detail: u8,
    pub offset: u16,
    pub words: [u32; 4],
}

/// A run: the memory at its start, the steps, the bytes the card has to give.
#[derive(Clone, Debug, PartialEq, Eq)]
pub struct RunFile {
    pub memory: Vec<u8>,
    pub steps: Vec<Step>,
    pub card: Vec<u8>,
}

/// The kinds of a step.
#[derive(Clone, Copy, Debug, PartialEq, Eq)]
pub enum Kind {
    Write,
    Read,
    In,
    Out,
    Response,
    Given,
    Taken,
    BusyOver,
    DataError,
    Level,
    Turn,
}

impl Kind {
    pub fn of(number: u8) -> Option<Kind> {
        Some(match number {
            0 => Kind::Write,
            1 => Kind::Read,
            2 => Kind::In,
            3 => Kind::Out,
            4 => Kind::Response,
            5 => Kind::Given,
            6 => Kind::Taken,
            7 => Kind::BusyOver,
            8 => Kind::DataError,
            9 => Kind::Level,
            10 => Kind::Turn,
            _ => return None,
        })
    }

    fn uses_detail(self) -> bool {
        match self {
            Kind::Write | Kind::Read | Kind::Response | Kind::DataError | Kind::Level => true,
            Kind::In | Kind::Out | Kind::Given | Kind::Taken | Kind::BusyOver | Kind::Turn => false,
        }
    }

    fn uses_offset(self) -> bool {
        matches!(self, Kind::Write | Kind::Read)
    }

    /// How many of the words, from the first on.
    fn words_used(self) -> usize {
        match self {
            Kind::Write => 1,
            Kind::Response => 4,
            _ => 0,
        }
    }
}

impl Step {
    /// Whether the step may stand in a good file. Values that the answer table judges are not
    /// judged here; only the level names its legal details.
    fn is_good(&self, fault: Option<Fault>) -> bool {
        let highest_level = if fault == Some(Fault::LevelTwo) { 2 } else { 1 };
        let Some(kind) = Kind::of(self.kind) else {
            return false;
        };
        let unused_words = self.words.iter().skip(kind.words_used());
        (kind.uses_detail() || self.detail == 0)
            && (kind != Kind::Level || self.detail <= highest_level)
            && (kind.uses_offset() || self.offset == 0)
            && unused_words.into_iter().all(|word| *word == 0)
    }

    fn from_bytes(bytes: &[u8]) -> Option<Step> {
        let (&[kind, detail, low, high], mut rest) = bytes.split_first_chunk()?;
        let mut words = [0; 4];
        for word in &mut words {
            let (bytes, further) = rest.split_first_chunk()?;
            *word = u32::from_le_bytes(*bytes);
            rest = further;
        }
        Some(Step {
            kind,
            detail,
            offset: u16::from_le_bytes([low, high]),
            words,
        })
    }

    fn write_to(&self, bytes: &mut Vec<u8>) {
        bytes.extend([self.kind, self.detail]);
        bytes.extend(self.offset.to_le_bytes());
        bytes.extend(self.words.into_iter().flat_map(u32::to_le_bytes));
    }
}

/// Takes one section off the front: its count, then so many items of one size.
fn section<'a>(bytes: &mut &'a [u8], most: u32, item: usize) -> Option<&'a [u8]> {
    let (count, rest) = bytes.split_first_chunk()?;
    let count = u32::from_le_bytes(*count);
    if count > most {
        return None;
    }
    let length = usize::try_from(count).ok()?.checked_mul(item)?;
    let (items, rest) = rest.split_at_checked(length)?;
    *bytes = rest;
    Some(items)
}

/// Reads a run file; nothing for a bad one.
pub fn parse(bytes: &[u8]) -> Option<RunFile> {
    parse_under(bytes, None)
}

/// The same with one rule broken, if the fault is one of the file's rules.
pub fn parse_under(bytes: &[u8], fault: Option<Fault>) -> Option<RunFile> {
    let mut rest = bytes;
    let memory = section(&mut rest, MOST_MEMORY, 1)?;
    let steps = section(&mut rest, MOST_STEPS, STEP_BYTES)?;
    let card = section(&mut rest, MOST_CARD, 1)?;
    let steps: Vec<Step> = steps
        .chunks_exact(STEP_BYTES)
        .map(Step::from_bytes)
        .collect::<Option<_>>()?;
    let good = rest.is_empty() && steps.iter().all(|step| step.is_good(fault));
    good.then(|| RunFile {
        memory: memory.to_vec(),
        steps,
        card: card.to_vec(),
    })
}

/// Writes a run file, good or not.
pub fn encode(file: &RunFile) -> Vec<u8> {
    let mut bytes = Vec::new();
    bytes.extend(count(file.memory.len()));
    bytes.extend(&file.memory);
    bytes.extend(count(file.steps.len()));
    for step in &file.steps {
        step.write_to(&mut bytes);
    }
    bytes.extend(count(file.card.len()));
    bytes.extend(&file.card);
    bytes
}

/// A section's count; one that does not fit its field is bad in any case.
fn count(length: usize) -> [u8; 4] {
    u32::try_from(length).unwrap_or(u32::MAX).to_le_bytes()
}
