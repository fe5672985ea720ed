"""Makes a folder that `pinball check` accepts of any MPF folder: `pinball-help adopt`."""
