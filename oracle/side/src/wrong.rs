//! Ways in which a library's face could be wrong, so that the comparison can be seen to fail.
use driver::state::Answer;

#[derive(Clone, Copy, PartialEq, Eq)]
pub enum Wrong {
    Number,
    Asked,
    Offset,
    Lost,
    Reach,
    Cookie,
    Settings,
    Beside,
    File,
    Retired,
    Request,
    Field,
    Whole,
}

pub const NAMES: [(&str, Wrong); 13] = [
    ("number", Wrong::Number),
    ("asked", Wrong::Asked),
    ("offset", Wrong::Offset),
    ("lost", Wrong::Lost),
    ("reach", Wrong::Reach),
    ("cookie", Wrong::Cookie),
    ("settings", Wrong::Settings),
    ("beside", Wrong::Beside),
    ("file", Wrong::File),
    ("retired", Wrong::Retired),
    ("request", Wrong::Request),
    ("field", Wrong::Field),
    ("whole", Wrong::Whole),
];

/// The way of that name.
pub fn named(name: &str) -> Option<Wrong> {
    NAMES.into_iter().find(|n| n.0 == name).map(|n| n.1)
}

impl Wrong {
    /// Changes one bit of what the library answered or left, where there is such a thing.
    pub fn spoil(self, answer: &mut Answer, bytes: &mut [u8], start: usize) {
        let record = start;
        match self {
            // 12 and 13, which one event of the crate stands for.
            Wrong::Number if answer.number == 12 => answer.number = 13,
            Wrong::Asked => answer.sent.iter_mut().for_each(|s| s.asked ^= 1),
            Wrong::Offset => answer.measured.iter_mut().for_each(|m| m.offset ^= 1),
            Wrong::Lost => answer.dropped.iter_mut().filter(|d| d.0 > 0).for_each(|d| d.1 ^= 1),
            Wrong::Reach if answer.number == 20 => bytes[record + 29] ^= 128,
            // The last byte of the first place, where a cookie of 724 bytes ends and a shorter one has a zero.
            Wrong::Cookie if answer.number == 20 => bytes[record + 92 + 723] ^= 1,
            Wrong::Settings if answer.number == 20 => bytes[record + 18] ^= 1,
            Wrong::Beside if answer.number == 20 => *bytes.last_mut().expect("bytes beside the record") ^= 1,
            // The last byte of a file is whether service was denied.
            Wrong::File => answer.file.iter_mut().filter_map(|f| f.last_mut()).for_each(|b| *b ^= 1),
            Wrong::Retired => answer.retired.iter_mut().for_each(|r| *r = !*r),
            _ => {}
        }
    }
}
