"""The parts of scripts/tools-agree: what is run, and a module for the checks of each tool."""
