"""The parts of tools/quick: how a program of the repository is built from its sources without any proof."""
