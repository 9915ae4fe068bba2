# For the tests that link the archive, sourced at the repository's root: proves and writes it if
# it is missing or older than a source.
archive=crates/exports/out/libexports.a
if [[ ! -f $archive || -n $(find crates/*/src -newer "$archive" -name '*.rt' -print -quit) ]]; then
    (cd crates/exports && rt lib)
fi
