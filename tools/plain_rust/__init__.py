"""Plain Rust from the Rattle source, by rules over tokens: `tools/plain-rust` says how it is called.

Rattle is Rust with contracts. The modules here delete what Rust doesn't have (clauses, ghost items, what the prover
reads) and respell the rest; none looks at a type, so rustc judges what comes out.

    tokens      a file as tokens, without its ghost text; walks over tokens
    deletion    what goes: attributes, derives, impls and bounds that Rust doesn't have
    handles     allocators and the handle of `main` and of tests, which no Rust function takes
    parameters  parameters that clauses alone read
    spelling    what is called otherwise in Rust; imports of the shim
    conversion  the rules in their order: one file
    crates      which crates there are, and what each stands on
    layout      where the files of the made crate go
    packages    Debian's packages of the crates that it stands on
"""
