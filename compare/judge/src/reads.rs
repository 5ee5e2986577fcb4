//! The reads that were compared: by how many write records they examined, and by what stood at their key.

use paper::answer::Answer;
use paper::store::{Kind, Store};
use paper::trace::Call;

#[derive(Default)]
pub struct Reads {
    all: u64,
    /// By records examined: 0, 1, 2 to 4, 5 and more.
    examined: [u64; 4],
    most: u64,
    /// Those that passed over a Rollback.
    passed: u64,
    /// Those of a key with several records at or below the moment, a Rollback among them.
    several: u64,
}

impl Reads {
    /// Takes a call's answer; a read leaves the store as it is.
    pub fn take(&mut self, store: &Store, call: &Call, answer: &Answer) {
        let Call::Read { moment, key } = call else {
            return;
        };
        let by = store.records_by(*moment, key);
        let rollbacks = |count: usize| by.iter().take(count).any(|(_, record)| record.kind == Kind::Rollback);
        let class = match answer.count {
            0 => 0,
            1 => 1,
            2..=4 => 2,
            _ => 3,
        };
        self.all += 1;
        self.examined[class] += 1;
        self.most = self.most.max(answer.count);
        self.passed += u64::from(rollbacks(answer.count as usize));
        self.several += u64::from(by.len() > 1 && rollbacks(by.len()));
    }

    pub fn print(&self) {
        let Reads { all, examined: [none, one, few, many], most, passed, several } = self;
        println!(
            "reads by records examined: 0 x{none}, 1 x{one}, 2 to 4 x{few}, 5 and more x{many}, the most {most}; passed \
             over Rollbacks x{passed}; several records by the moment, a Rollback among them x{several} of {all}"
        );
    }
}
