"""Manual pages and completions of all commands, made from their help and from the pages of docs/."""
