"""Everything that makes streams of records, for `replay`, `bench` and the comparison with the Rust. Of the other folders it imports only model/."""
