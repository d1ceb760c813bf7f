# Sourced by whatever links the archive. archive makes target/staticlib/libentries.a from the proved crate entries_c, whose symbols C links.
archive() {
    (cd crates/entries_c && rt lib) || return 1
    mkdir -p target/staticlib && cp crates/entries_c/out/libentries_c.a target/staticlib/libentries.a
}
