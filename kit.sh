# Sourced: finds the Rattle kit, or says in one line what to install, and knows how to start a program that it compiled.
if ! command -v rt >/dev/null 2>&1; then
    echo "koprzywist: the Rattle kit is missing: install it and put its bin/ folder, which has 'rt', on PATH" >&2
    return 1
fi

# Proves and builds a program; what the kit says is shown only if it fails.
build() { # PROGRAM
    mkdir -p target
    (cd "crates/$1" && rt run) </dev/null >"target/$1.log" 2>&1 || {
        cat "target/$1.log" >&2
        return 1
    }
}

start() { # PROGRAM
    "crates/$1/out/$1"
}
