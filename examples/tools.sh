# For the scripts beside it: tests for tools, and builds the model.

# Each tool that is not there is named, with what it is for.
need() {
    local missing=0 tool
    for tool in "$@"; do
        if ! command -v "$tool" >/dev/null; then
            case $tool in
            rt) echo "rt is missing: the Rattle kit, which proves and builds the crates" >&2 ;;
            cargo) echo "cargo is missing: it builds the model, which writes and checks examples" >&2 ;;
            *) echo "$tool is missing" >&2 ;;
            esac
            missing=1
        fi
    done
    [ "$missing" -eq 0 ] || exit 1
}

# Builds the model: model/target/release/model.
build_model() {
    cargo build --quiet --release --manifest-path model/Cargo.toml
}
