# Sourced by what links C with the station's library, from the project's root. Programs are for x86-64: elsewhere a cross
# compiler and an emulator are installed, and $emulator goes before a program's name.
cc=gcc emulator=
if [ "$(uname -m)" != x86_64 ]; then
    cc=x86_64-linux-gnu-gcc emulator=qemu-x86_64
    command -v "$cc" >/dev/null && command -v "$emulator" >/dev/null ||
        { apt-get update && apt-get install -y --no-install-recommends gcc-x86-64-linux-gnu libc6-dev-amd64-cross qemu-user; } >/dev/null 2>&1
fi

# Proves the library and writes it to target/staticlib/libstation.a.
prove_station() {
    local log
    log=$(mktemp)
    tools/build station_c >"$log" 2>&1 || { tail -5 "$log"; rm -f "$log"; return 1; }
    rm -f "$log"
}

# link_station PROGRAM SOURCE..: a C program with the library in it.
link_station() {
    local program=$1
    shift
    "$cc" -std=c99 -D_DEFAULT_SOURCE -Wall -Wextra -Werror -O2 -static -Iinclude "$@" target/staticlib/libstation.a -o "$program"
}
