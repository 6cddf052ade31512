"""Studies: many runs of the simulator, their table and their pictures."""
