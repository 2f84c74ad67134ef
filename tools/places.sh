# Where what is built stands in a checkout. Who reads this file, a script for any shell, has the top of the repository in `top`.

program=$top/crates/tfpg/out/tfpg
trial=$top/crates/tfpg/out/trial/tfpg
archive=$top/crates/tfpg_embed/out/libtfpg_embed.a
