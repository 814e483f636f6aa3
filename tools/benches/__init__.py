"""What tools/bench measures: `replay`, `questions`, `threads`, `stress`, `record` and `programs`, each a module with a main(words)."""
