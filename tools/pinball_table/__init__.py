"""A virtual table: it plays a machine in a browser, and drives a board. Nothing here is proved.

`machine` reads a folder, `settings` its `table.yaml`. `answers` asks the program, `clock` keeps the time of the log,
`platforms` says what a board is, and `smart_table` is the one that is simulated. `session` plays a machine by the log's
time alone. `player` plays it by the wall's, and `server` shows it in a browser.
"""
