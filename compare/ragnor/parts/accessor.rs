// Appended to mvcc.rs by build.rs: its three maps are private, and the comparison reads and sets them.
impl InMemoryMvcc {
    /// The maps: defaults, locks, writes.
    pub fn maps(&self) -> crate::Maps<'_> {
        (&self.default, &self.locks, &self.writes)
    }

    /// A store with these maps.
    pub fn with_maps(
        default: BTreeMap<Vec<u8>, BTreeMap<Timestamp, Vec<u8>>>,
        locks: BTreeMap<Vec<u8>, LockRecord>,
        writes: BTreeMap<Vec<u8>, BTreeMap<Timestamp, WriteRecord>>,
    ) -> Self {
        Self {
            default,
            locks,
            writes,
        }
    }
}
