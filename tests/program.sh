# For the test that runs the program `line`, sourced at the repository's root: proves and builds
# it if it is missing or older than a source.
program=crates/line/out/line
if [[ ! -f $program || -n $(find crates/*/src -newer "$program" -name '*.rt' -print -quit) ]]; then
    (cd crates/line && rt run < stdin)
fi
