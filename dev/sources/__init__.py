"""The sources of the crates: reads them, and checks crates with changed texts."""
