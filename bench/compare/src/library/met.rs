//! What a comparison through the library must have met beside what run files hold.

use std::collections::BTreeMap;

/// One thing that no run file can ask for.
#[derive(Clone, Copy, Debug, PartialEq, Eq, PartialOrd, Ord)]
pub enum Odd {
    RoomTooShort,
    RoomLonger,
    BlockOfOtherLength,
    BlockBesideTheCard,
    MemoryCutUnderALine,
    TurnOverTooMuch,
    TurnOverTheMost,
    FarAccess,
    SlotRestored,
    SlotRespelled,
    AnyRecord,
    SurveyWell,
    SurveyError,
    SurveyLimit,
    SurveyOverTooMuch,
    SurveyLimitTooHigh,
    SurveyOfManyLines,
    BootYes,
    BootNo,
    BootOverTooMuch,
    LineWritten,
    LineRefused,
    LineRead,
    PartRead,
}

impl Odd {
    const ALL: [Odd; 24] = [
        Odd::RoomTooShort,
        Odd::RoomLonger,
        Odd::BlockOfOtherLength,
        Odd::BlockBesideTheCard,
        Odd::MemoryCutUnderALine,
        Odd::TurnOverTooMuch,
        Odd::TurnOverTheMost,
        Odd::FarAccess,
        Odd::SlotRestored,
        Odd::SlotRespelled,
        Odd::AnyRecord,
        Odd::SurveyWell,
        Odd::SurveyError,
        Odd::SurveyLimit,
        Odd::SurveyOverTooMuch,
        Odd::SurveyLimitTooHigh,
        Odd::SurveyOfManyLines,
        Odd::BootYes,
        Odd::BootNo,
        Odd::BootOverTooMuch,
        Odd::LineWritten,
        Odd::LineRefused,
        Odd::LineRead,
        Odd::PartRead,
    ];

    fn words(self) -> &'static str {
        match self {
            Odd::RoomTooShort => "answer 8 to a room below the block",
            Odd::RoomLonger => "a block taken into a longer room",
            Odd::BlockOfOtherLength => "answer 8 to a block of another length",
            Odd::BlockBesideTheCard => "a block given that is none of the card's bytes",
            Odd::MemoryCutUnderALine => "memory cut short under the line in hand",
            Odd::TurnOverTooMuch => "answer 11 to a turn",
            Odd::TurnOverTheMost => "a turn over the most memory",
            Odd::FarAccess => "an access far outside of the block",
            Odd::SlotRestored => "a slot restored from its record",
            Odd::SlotRespelled => "a slot restored from another spelling of its state",
            Odd::AnyRecord => "a slot restored from a record that no step makes",
            Odd::SurveyWell => "a survey of kind 0",
            Odd::SurveyError => "a survey of kind 1",
            Odd::SurveyLimit => "a survey of kind 2",
            Odd::SurveyOverTooMuch => "answer 11 to a survey",
            Odd::SurveyLimitTooHigh => "answer 12 to a survey",
            Odd::SurveyOfManyLines => "a survey of 4,096 lines",
            Odd::BootYes => "a boot check with yes",
            Odd::BootNo => "a boot check with no",
            Odd::BootOverTooMuch => "answer 11 to a boot check",
            Odd::LineWritten => "a line written and read back",
            Odd::LineRefused => "answer 17 to a line",
            Odd::LineRead => "a line read",
            Odd::PartRead => "a part that is no line read",
        }
    }
}

/// How often each was met.
#[derive(Default)]
pub struct Met(BTreeMap<Odd, u64>);

impl Met {
    pub fn count(&mut self, odd: Odd) {
        *self.0.entry(odd).or_default() += 1;
    }

    pub fn count_if(&mut self, met: bool, odd: Odd) {
        if met {
            self.count(odd);
        }
    }

    fn times(&self, odd: Odd) -> u64 {
        self.0.get(&odd).copied().unwrap_or(0)
    }

    /// How many there are to be met.
    pub fn items() -> u64 {
        Odd::ALL.len() as u64
    }

    /// Those never met, in words.
    pub fn missing(&self) -> Vec<&'static str> {
        let never = |odd: &&Odd| self.times(**odd) == 0;
        Odd::ALL
            .iter()
            .filter(never)
            .map(|odd| odd.words())
            .collect()
    }

    /// Each with its count, one a line.
    pub fn table(&self) -> String {
        let row = |odd: &Odd| format!("{:>10}  {}\n", self.times(*odd), odd.words());
        Odd::ALL.iter().map(row).collect()
    }
}

#[cfg(test)]
mod tests {
    use super::*;

    #[test]
    fn each_is_listed_once_in_its_own_words() {
        for (place, odd) in Odd::ALL.into_iter().enumerate() {
            assert_eq!(odd as usize, place);
            let same = Odd::ALL.iter().filter(|o| o.words() == odd.words());
            assert_eq!(same.count(), 1, "{odd:?}");
        }
    }

    #[test]
    fn what_was_met_is_not_missing() {
        let mut met = Met::default();
        assert_eq!(met.missing().len() as u64, Met::items());
        met.count(Odd::BootYes);
        met.count_if(false, Odd::BootNo);
        assert_eq!(met.missing().len() as u64, Met::items() - 1);
        assert!(met.table().contains("         1  a boot check with yes\n"));
    }
}
