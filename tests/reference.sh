# For the scripts beside it: builds the independent reference; `reference` runs it.
need cargo cargo
CARGO_TARGET_DIR=target/reference cargo build -q --release --offline --manifest-path tests/reference/Cargo.toml
reference() { target/reference/release/reference "$@"; }
