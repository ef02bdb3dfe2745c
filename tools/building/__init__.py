"""How the program is built: with proofs (`prove`) and without (`tools/keep-unproved`)."""
