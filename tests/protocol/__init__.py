"""docs/PROTOCOL.md, sentence by sentence: each one is quoted by the test that shows it."""
