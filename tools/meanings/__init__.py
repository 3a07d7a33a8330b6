"""The parts of tools/turn_meanings."""
