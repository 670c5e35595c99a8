# Sourced by the tests that link support/.

# Compiles support/ into objects of a folder: what makes calls and checks them with the flags that follow. The formulas, and what only
# makes words, are the tests' own arithmetic: they are compiled for speed, for the library's processors, and without sanitizers, which
# have to watch the calls and what is lent to them.
compile_support() {
    local folder=$1 support jobs=() job name
    support=$(dirname "${BASH_SOURCE[0]}")
    local common=(-std=c11 -Wall -Wextra -Werror -I "$support/../../../include" -I "$support")
    mkdir -p "$folder"
    for name in block bytes lawful plain random tree; do
        gcc "${common[@]}" -O3 -march=x86-64-v2 -c "$support/$name.c" -o "$folder/$name.o" &
        jobs+=("$!")
    done
    for name in accept guarded report table; do
        gcc "${common[@]}" "${@:2}" -c "$support/$name.c" -o "$folder/$name.o" &
        jobs+=("$!")
    done
    for job in "${jobs[@]}"; do
        wait "$job" || return 1
    done
}
