"""What tools/pinball-table is tested with: a browser, a board that is none, and a stand-in for `pinball_live`."""
