"""Pages: a statement with its evidence as one HTML file that checks itself (page), and a page to work in (serve)."""
