# Where the program stands below the repository's top, how its build is told, and what it was made from, as fingerprint tells it.
folder=$top/crates/aegean_main
program=$folder/out/aegean_main
log=$folder/out/build.log
made_from=$folder/out/aegean_main.sources
