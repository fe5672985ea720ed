"""Rules as tests: reads files of tests, plays them on a machine, and says which fail. Nothing here is proved."""
