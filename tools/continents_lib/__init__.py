"""The parts of tools/continents."""
