"""The limit of depth of document 02 (P3), for the programs that make sheets and trees about it; src/limits.rs has it for oracle01."""

DEPTH = 37
