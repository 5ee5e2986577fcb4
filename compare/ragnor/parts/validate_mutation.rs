    /// Written from document 01 in the place of the published function: key and row form (1, 2), nothing else.
    fn validate_mutation(
        &self,
        key: &[u8],
        mutation: &Mutation,
        _start_ts: Timestamp,
    ) -> Result<()> {
        validate_encoded_key_argument(key, "mutation key")?;

        if let Mutation::Put(row) = mutation {
            decode_row(row).map_err(|error| Error::InvalidArgument(format!("row not in form: {error}")))?;
        }

        Ok(())
    }
