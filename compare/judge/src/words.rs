//! Calls and answers in words, for a person to read.

use paper::answer::{Answer, Holder};
use paper::form::{key_batch, mutation_batch};
use paper::page::Bounds;
use paper::restore::Image;
use paper::store::{Bytes, Kind};
use paper::trace::Call;

/// Bytes in hex; long ones by their length and first bytes.
pub fn hex(bytes: &[u8]) -> String {
    let shown: String = bytes.iter().take(48).map(|byte| format!("{byte:02x}")).collect();
    match bytes.len() {
        0 => "(none)".to_string(),
        1..=48 => shown,
        length => format!("{shown}.. ({length} bytes)"),
    }
}

pub fn call(call: &Call) -> String {
    match call {
        Call::Read { moment, key } => format!("read at {moment} of {}", hex(key)),
        Call::OneIntent { moment, key } => format!("one intent at {moment} of {}", hex(key)),
        Call::Page { moment, row_limit, byte_limit, bounds, buffer } => {
            format!("page at {moment}, row limit {row_limit}, byte limit {byte_limit}, {}", span(bounds, *buffer))
        }
        Call::IntentPage { lock_limit, bounds, buffer } => {
            format!("intent page, lock limit {lock_limit}, {}", span(bounds, *buffer))
        }
        Call::Conflicting { moment, lock_limit, byte_limit, bounds, buffer } => format!(
            "conflicting intents at {moment}, lock limit {lock_limit}, byte limit {byte_limit}, {}",
            span(bounds, *buffer)
        ),
        Call::Prewrite { transaction, start, time_to_live, kind, primary, key, row } => format!(
            "prewrite by {transaction}, start {start}, time to live {time_to_live}, primary {}: {} {}{}",
            hex(primary),
            kind_word(*kind),
            hex(key),
            row_word(*kind, row)
        ),
        Call::PrewriteBatch { transaction, start, time_to_live, primary, batch } => format!(
            "prewrite by {transaction}, start {start}, time to live {time_to_live}, primary {}, of a batch: {}",
            hex(primary),
            mutations(batch)
        ),
        Call::Commit { transaction, start, commit, key } => {
            format!("commit by {transaction}, start {start}, at {commit} of {}", hex(key))
        }
        Call::CommitBatch { transaction, start, commit, batch } => {
            format!("commit by {transaction}, start {start}, at {commit} of a batch: {}", keys(batch))
        }
        Call::Rollback { transaction, start, key } => {
            format!("rollback by {transaction}, start {start} of {}", hex(key))
        }
        Call::RollbackBatch { transaction, start, batch } => {
            format!("rollback by {transaction}, start {start} of a batch: {}", keys(batch))
        }
        Call::OneStep { transaction, start, commit, batch } => {
            format!("one-step by {transaction}, start {start}, at {commit} of a batch: {}", mutations(batch))
        }
        Call::Collect { floor } => format!("collect up to {floor}"),
        Call::Bone { number, row } => format!("is bone {number} shown in {}", hex(row)),
        Call::Bones { row } => format!("how many bones are shown in {}", hex(row)),
        Call::Restore { image } => format!("restore: {}", image_words(image, Image::read(image))),
        Call::Statistics => "statistics".to_string(),
        Call::Marks => "high-water marks".to_string(),
        Call::WriteImage { table, buffer } => format!("write the image of table {table}, buffer {buffer}"),
        Call::Convert { buffer, image } => {
            format!("convert, buffer {buffer}: {}", image_words(image, Image::read_old(image)))
        }
    }
}

pub fn answer(answer: &Answer) -> String {
    let Answer { number, holder, count, payload } = answer;
    let mut words = format!("{number}");
    if *holder != Holder::default() {
        let Holder { transaction, start, time_to_live, kind } = holder;
        words += &format!(", holder {transaction} at {start}, time to live {time_to_live}, kind {kind}");
    }
    if *count != 0 {
        words += &format!(", count {count}");
    }
    if !payload.is_empty() {
        words += &format!(", payload {}", hex(payload));
    }
    words
}

fn span(bounds: &Bounds, buffer: u16) -> String {
    let word = |name: &str, bound: &Option<Bytes>| match bound {
        None => String::new(),
        Some(key) => format!("{name} {}, ", hex(key)),
    };
    let (start, end, resume) = (&bounds.start, &bounds.end, &bounds.resume);
    format!("{}{}{}buffer {buffer}", word("start", start), word("end", end), word("resume", resume))
}

fn kind_word(kind: Kind) -> &'static str {
    match kind {
        Kind::Put => "Put",
        Kind::Delete => "Delete",
        Kind::Rollback => "Rollback",
    }
}

fn row_word(kind: Kind, row: &[u8]) -> String {
    if kind == Kind::Put { format!(" row {}", hex(row)) } else { String::new() }
}

fn mutations(batch: &[u8]) -> String {
    let Some(entries) = mutation_batch(batch) else {
        return format!("not in form, {}", hex(batch));
    };
    let words: Vec<String> = entries
        .iter()
        .map(|entry| format!("{} {}{}", kind_word(entry.kind), hex(&entry.key), row_word(entry.kind, &entry.row)))
        .collect();
    list(words)
}

fn keys(batch: &[u8]) -> String {
    match key_batch(batch) {
        None => format!("not in form, {}", hex(batch)),
        Some(keys) => list(keys.iter().map(|key| hex(key)).collect()),
    }
}

fn list(words: Vec<String>) -> String {
    if words.is_empty() { "empty".to_string() } else { words.join("; ") }
}

fn image_words(bytes: &[u8], image: Option<Image>) -> String {
    let Some(image) = image else {
        return format!("image not in form, {}", hex(bytes));
    };
    let entries = image.defaults.len() + image.locks.len() + image.writes.len();
    let head = format!("image of table {}, floor {}", image.table, image.floor);
    if entries > 12 {
        let (defaults, locks, writes) = (image.defaults.len(), image.locks.len(), image.writes.len());
        return format!("{head}, {defaults} defaults, {locks} locks, {writes} writes, {} bytes", bytes.len());
    }
    let mut words = vec![head];
    for (key, start, row) in &image.defaults {
        words.push(format!("default {} start {start} row {}", hex(key), hex(row)));
    }
    for (key, lock) in &image.locks {
        let (by, start, live, kind) = (lock.transaction, lock.start, lock.time_to_live, lock.kind);
        let primary = hex(&lock.primary);
        words
            .push(format!("lock {} by {by} start {start} time to live {live} kind {kind} primary {primary}", hex(key)));
    }
    for (key, stamp, record) in &image.writes {
        let (start, commit, kind) = (record.start, record.commit, record.kind);
        words.push(format!("write {} stamp {stamp} start {start} commit {commit} kind {kind}", hex(key)));
    }
    words.join("; ")
}
