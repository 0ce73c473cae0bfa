"""The notation above the language of statements: its reader, its words, and the tools expand, shorten and implications."""
