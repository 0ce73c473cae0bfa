"""Evidence as theorems for Coq, and the library in `theories` that they stand on."""
